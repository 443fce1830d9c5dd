// Top-level `with` blocks, and how often each calls to_linear.
import { END, KIND, LINE, START, STRIDE } from '../names.js'
import { lastLine } from '../offsets.js'

const { Newline: NEWLINE, Indent: INDENT, Dedent: DEDENT, Name: NAME, Comment: COMMENT, NonLogicalNewline: NON_LOGICAL } = KIND
const WITH = KIND['Keyword with']
const OPENS = KIND['Operator (']
const DECODE = 'to_linear'

/** The sorts of blocks, those that need attention first. */
export const SORTS = ['unfinished', 'never', 'many', 'once']

/**
 * The blocks of a text: the keyword at a line's start with no indent open, to that line's Newline, and through its
 * Dedent where an Indent follows. `row` has kind, start, end and line of each record, in offsets of `text`; comments and
 * newlines that end no logical line are passed over. A block is finished where the record that closes it was read, or
 * the text was `readToEnd`. It has the lines of its keyword and of its last token, from 0.
 */
export function withBlocks(row, text, readToEnd) {
    const blocks = []
    let block = null
    let depth = 0
    let atStart = true
    // The block's line has ended, and an Indent would go on with it.
    let waits = false
    // The record before is the name to_linear.
    let decodes = false
    const close = () => {
        block.finished = true
        block = null
    }
    for (let i = 0; i < row.length; i += STRIDE) {
        const kind = row[i]
        if (kind === COMMENT || kind === NON_LOGICAL) continue
        if (waits && kind !== INDENT) close()
        waits = false
        if (kind === WITH && atStart && depth === 0) blocks.push((block = { start: row[i + START], startLine: row[i + LINE], endLine: 0, calls: 0, finished: readToEnd }))
        if (kind === INDENT) depth++
        if (kind === DEDENT) depth--
        if (block) {
            if (kind === NEWLINE) waits = depth === 0
            else if (kind !== DEDENT) block.endLine = lastLine(row, i, text)
            if (decodes && kind === OPENS) block.calls++
            if (kind === DEDENT && depth === 0) close()
        }
        decodes = kind === NAME && isDecode(row, i, text)
        atStart = kind <= DEDENT
    }
    return blocks
}

const isDecode = (row, i, text) => row[i + END] - row[i + START] === DECODE.length && text.startsWith(DECODE, row[i + START])

/** unfinished, never, once or many: of what was not read to its end no count is known. */
export function sortOfBlock({ calls, finished }) {
    if (!finished) return 'unfinished'
    return calls === 0 ? 'never' : calls === 1 ? 'once' : 'many'
}

/** The same in words. */
export const wordsOfBlock = (block) => (sortOfBlock(block) === 'many' ? `${block.calls} times` : sortOfBlock(block))
