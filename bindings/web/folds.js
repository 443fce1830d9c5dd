// Which lines fold, from the list of records alone; the reader need not be loaded.
//
//     import { foldsOf } from './folds.js'
//     const document = new PythonDocument(text, MODULE_WITH_COMMENTS)
//     for (const { startLine, endLine, kind } of foldsOf(document.utf16(), document.text)) ...
//
//     a block        from the line whose Newline stands before its Indent, to its last line with a token or a comment of it
//     brackets       from the opener's line to the closer's
//     comment lines  two or more in a row, with no block's end between them
//
// A comment is of a block if more of the block follows, however it is indented, or if it is indented deeper than the line
// that opens the block. Blank lines at a block's end are not of it. What is still open at the end of the records, as in a
// text with a fault, goes to the last line with a token or a comment of it. (The Rust crate's folding.rs says the same.)
import { CLOSERS, END, KIND, LINE, OPENERS, START, STRIDE } from './names.js'
import { lastLine } from './offsets.js'

const { Newline: NEWLINE, Indent: INDENT, Dedent: DEDENT, Comment: COMMENT, NonLogicalNewline: NON_LOGICAL_NEWLINE } = KIND

/** Of two folds with the same lines, the one whose kind stands first here is kept; from a reading only brackets have the same lines. */
const KINDS = ['block', 'bracket', 'comments']

const TAB = 9
const SPACE = 32

/**
 * The folds of a text in the order of their first lines, the longer ones first: any two are one within the other or share
 * no more than a line, and no two have the same lines. Lines are numbered from 0. `records` has kind, start, end and line of
 * each record, read in a mode with comments, in the units of `text`: UTF-16 offsets for a string, byte numbers for bytes.
 * In a mode without comments, blocks and brackets fold to their last token.
 */
export function foldsOf(records, text) {
    // Only blanks, and line ends within strings, are looked at, so bytes may stand as one character each.
    const folding = new Folding(typeof text === 'string' ? text : new TextDecoder('latin1').decode(text))
    for (let i = 0; i + STRIDE <= records.length; i += STRIDE) folding.take(records, i)
    return folding.finish()
}

/** The folds so far, and what is open. */
class Folding {
    #text
    /** Folds in the order in which they open. One that does not end behind its first line is none. */
    #starts = []
    #ends = []
    #kinds = []
    /**
     * Open blocks, the outermost first: the fold's index (-1 where no line opens the block), the blanks of the line that
     * opens it, and the last comment line that is of it and of no block within it (-1 for none).
     */
    #blocks = []
    /** The folds of open brackets, the outermost first. */
    #brackets = []
    /** Lines with nothing but a comment, and whether a block ends with them. */
    #comments = []
    #endsBlock = []
    /** The blanks of the level that is open. */
    #level = { tabs: 0, spaces: 0 }
    /** The line of the last Newline. */
    #header = -1
    /** The line of the last token. */
    #last = 0
    /** Whether a logical line has begun and not ended. */
    #inLine = false
    /** The line of the last record's last letter. */
    #behind = -1

    constructor(text) {
        this.#text = text
    }

    /** The record at a place of a row. */
    take(row, i) {
        const kind = row[i]
        const line = row[i + LINE]
        const last = lastLine(row, i, this.#text)
        if (kind === NEWLINE) this.#header = line
        else if (kind === COMMENT) this.#comment(line, row[i + START])
        else if (kind === INDENT) this.#openBlock(row[i + END])
        else if (kind === DEDENT) this.#closeBlock()
        else if (kind !== NON_LOGICAL_NEWLINE) {
            this.#last = last
            if (OPENERS.has(kind)) this.#brackets.push(this.#open(line, 'bracket'))
            if (CLOSERS.has(kind)) this.#closeBracket()
        }
        if (kind !== COMMENT && kind !== NON_LOGICAL_NEWLINE) this.#inLine = kind !== NEWLINE
        this.#behind = last
    }

    /** A fold that begins; its index. */
    #open(line, kind) {
        this.#starts.push(line)
        this.#ends.push(line)
        return this.#kinds.push(kind) - 1
    }

    #openBlock(end) {
        const fold = this.#header < 0 ? -1 : this.#open(this.#header, 'block')
        this.#blocks.push({ fold, header: this.#level, comment: -1 })
        this.#level = this.#blanks(end)
    }

    #closeBlock() {
        const block = this.#blocks.pop()
        if (!block) return
        this.#level = block.header
        const outer = this.#blocks.at(-1)
        if (outer) outer.comment = Math.max(outer.comment, block.comment)
        if (block.fold >= 0) this.#ends[block.fold] = this.#endOf(block.comment)
    }

    /** The last line of a block: that of its last token, or of a comment of it behind that. */
    #endOf(comment) {
        if (!(this.#comments[comment] > this.#last)) return this.#last
        this.#endsBlock[comment] = true
        return this.#comments[comment]
    }

    #closeBracket() {
        const fold = this.#brackets.pop()
        if (fold !== undefined) this.#ends[fold] = this.#last
    }

    /**
     * A comment within a logical line counts as a token. At a line's start it is of the blocks whose first lines are less
     * indented; those are the outermost ones, as the levels rise.
     */
    #comment(line, start) {
        // Behind a backslash a comment ends the line that the backslash goes on with.
        const goesOn = this.#inLine && !this.#brackets.length
        if (this.#behind < line && !goesOn) {
            this.#comments.push(line)
            this.#endsBlock.push(false)
        }
        if (this.#inLine) {
            this.#last = line
            return
        }
        const blanks = this.#blanks(start)
        let low = 0
        let high = this.#blocks.length
        while (low < high) {
            const middle = (low + high) >> 1
            if (isBelow(this.#blocks[middle].header, blanks)) low = middle + 1
            else high = middle
        }
        if (low > 0) this.#blocks[low - 1].comment = this.#comments.length - 1
    }

    /** The blanks before a line's first token; a form feed begins anew. */
    #blanks(to) {
        const blanks = { tabs: 0, spaces: 0 }
        for (let i = to - 1; i >= 0; i--) {
            const character = this.#text.charCodeAt(i)
            if (character === TAB) blanks.tabs++
            else if (character === SPACE) blanks.spaces++
            else break
        }
        return blanks
    }

    /** All folds, once the records have ended. */
    finish() {
        while (this.#blocks.length) this.#closeBlock()
        while (this.#brackets.length) this.#closeBracket()
        const folds = []
        const add = (startLine, endLine, kind) => startLine < endLine && folds.push({ startLine, endLine, kind })
        this.#starts.forEach((start, i) => add(start, this.#ends[i], this.#kinds[i]))
        this.#addRuns(add)
        // Two parts that are in order already, which the sort puts together in one pass.
        folds.sort((a, b) => a.startLine - b.startLine || b.endLine - a.endLine || KINDS.indexOf(a.kind) - KINDS.indexOf(b.kind))
        return folds.filter((fold, i) => i === 0 || fold.startLine !== folds[i - 1].startLine || fold.endLine !== folds[i - 1].endLine)
    }

    /** Comment lines that follow one another. */
    #addRuns(add) {
        const lines = this.#comments
        for (let first = 0, last = 0; first < lines.length; first = last = last + 1) {
            while (lines[last + 1] === lines[last] + 1 && !this.#endsBlock[last]) last++
            add(lines[first], lines[last], 'comments')
        }
    }
}

/** Whether the other blanks are deeper, as the reader compares levels. */
const isBelow = (blanks, other) => blanks.tabs <= other.tabs && blanks.spaces <= other.spaces && (blanks.tabs < other.tabs || blanks.spaces < other.spaces)
