// CodeMirror 5.65 with the proved reader: colours, folds, the fault and the first wrong bracket of an editor's text, from its
// records.
//
//     import { load } from './sroviemat.js'
//     import { EditorReader, FOLD_KEYS } from './codemirror.js'
//     await load()
//     const editor = CodeMirror(place, { value: text, theme: 'sroviemat', extraKeys: FOLD_KEYS })
//     const reader = new EditorReader(editor)
//     reader.document                          // the PythonDocument of what the editor holds
//     reader.onRead(() => show(reader.fault))  // after each reading
//
// codemirror.css has the theme. Folding needs CodeMirror's addons fold/foldcode.js, fold/foldgutter.js and foldgutter.css.
//
// The changes of an operation go to the document as one edit before the editor draws. A long text is drawn first, with
// the colours that its lines had, and read behind the next frame; whoever asks for the document before that gets it read.
//
// An editor with `lineSeparator: null` makes every line end an LF: its text is then not the file's letter by letter.
import { BLOCK_GUTTER, BlockGutter } from './editor-blocks.js'
import { BracketMarks } from './editor-brackets.js'
import { Colours, defineMode } from './editor-colours.js'
import { FAULT_GUTTER, Signs, TextMark } from './editor-fault.js'
import { EditorFolds, FOLD_GUTTER, FOLD_KEYS, hasFoldGutter } from './editor-folds.js'
import { changesOf, checkInternals, dropColours, endBackgroundWork } from './editor-internals.js'
import { Lines } from './editor-lines.js'
import { MODULE_WITH_COMMENTS, PythonDocument } from './sroviemat.js'

export { BLOCK_GUTTER, BlockGutter, FAULT_GUTTER, FOLD_KEYS }

/** A text with more UTF-16 units is drawn first and read behind the next frame, if the change is short. */
const READ_AT_ONCE = 8192
/** A change that spans more is read at once, however long the text is. */
const SHORT_CHANGE = 4096
/** So many ms after a drawing the text is read, where no frame comes. */
const READ_AFTER = 100

/** The options that are as they were after `dispose`. */
const OPTIONS = ['foldGutter', 'foldOptions', 'gutters', 'mode']

const isHigh = (unit) => unit >= 0xd800 && unit <= 0xdbff
const isLow = (unit) => unit >= 0xdc00 && unit <= 0xdfff

/** Reads what an editor holds, and shows what was read. */
export class EditorReader {
    #cm
    #mode
    #document = null
    /** The editor's document that was read: an editor may swap it. */
    #doc = null
    #lines
    /** The editor's changes that `#lines` knows. */
    #taken = new WeakSet()
    /** What changed since the last reading: the old offsets from and to, and the new end. */
    #hull = null
    #row = null
    /** What tells the editor's line of a line of the text, worked out once a reading. */
    #editorLines = null
    #colours
    #faultMark
    #bracketMarks
    #signs
    #folds
    #listeners = new Set()
    #due = 0
    /** The editor's options as they were. */
    #before
    #modeSpec = { name: 'sroviemat', coloursOf: (line) => this.#document && this.#colours.draw(line, this.#isAhead) }

    constructor(editor, { mode = MODULE_WITH_COMMENTS } = {}) {
        checkInternals(editor)
        this.#cm = editor
        this.#mode = mode
        this.#colours = new Colours(editor)
        this.#faultMark = new TextMark(editor, 'sroviemat-fault')
        this.#bracketMarks = new BracketMarks(editor)
        this.#signs = new Signs(editor)
        this.#folds = new EditorFolds(editor, this)
        this.#before = OPTIONS.map((name) => [name, editor.getOption(name)])
        // Setting the mode sends the background work back to the first line: the reading comes after it.
        defineMode(editor.constructor)
        editor.setOption('mode', this.#modeSpec)
        this.#addGutters()
        this.#readWhole()
        for (const [name, heard] of this.#handlers) editor.on(name, heard)
        this.#folds.start()
    }

    /** The PythonDocument of what the editor holds. */
    get document() {
        this.flush()
        return this.#document
    }

    /** All records with UTF-16 offsets, worked out once a reading. */
    get row() {
        this.flush()
        return (this.#row ??= this.#document.utf16())
    }

    /** What is wrong with the text, or null. */
    get fault() {
        return this.document.fault
    }

    /** The first wrong bracket, or null. */
    get wrongBracket() {
        return this.document.audit()
    }

    /** Calls back after each reading: before the editor draws, or in a long text behind the next frame. Returns what ends it. */
    onRead(heard) {
        this.#listeners.add(heard)
        return () => this.#listeners.delete(heard)
    }

    /** Reads the text in another mode. */
    setMode(mode) {
        this.#mode = mode
        this.#readWhole()
    }

    /** The editor's position of a UTF-16 offset. */
    position(offset) {
        this.#catchUp()
        return this.#position(Math.max(0, Math.min(offset, this.#lines.length)))
    }

    /** The UTF-16 offset of an editor's position. */
    offset(position) {
        this.#catchUp()
        return this.#lines.offset(this.#cm.clipPos(position))
    }

    /** The editor's line of a line of the text, as records and folds have it. */
    editorLine(line) {
        this.flush()
        this.#editorLines ??= this.#lines.linesOf(this.#document.text)
        return this.#editorLines(line)
    }

    /** The document is what the editor holds, afterwards. */
    flush() {
        this.#catchUp()
        if (this.#hull) this.#read()
    }

    /** Takes everything off the editor again. Nothing can be asked afterwards. */
    dispose() {
        if (!this.#document) return
        const cm = this.#cm
        this.#readNoMore()
        for (const [name, heard] of this.#handlers) cm.off(name, heard)
        cm.operation(() => {
            for (const shown of [this.#faultMark, this.#bracketMarks, this.#signs]) shown.hide()
            this.#folds.stop()
            for (const [name, value] of this.#before) if (cm.getOption(name) !== value) cm.setOption(name, value)
        })
        this.#document.free()
        this.#document = null
    }

    #addGutters() {
        const cm = this.#cm
        const gutters = cm.getOption('gutters')
        const wanted = [FAULT_GUTTER]
        // Line numbers that `gutters` does not name would come behind.
        if (cm.getOption('lineNumbers')) wanted.unshift('CodeMirror-linenumbers')
        if (hasFoldGutter(cm)) wanted.push(FOLD_GUTTER)
        const missing = wanted.filter((name) => !gutters.some((gutter) => (gutter.className ?? gutter) === name))
        if (missing.length) cm.setOption('gutters', [...gutters, ...missing])
    }

    // ---- changes

    #handlers = Object.entries({
        // It comes when all changes of the operation are made and nothing is drawn yet.
        change: (_, change) => this.#taken.has(change) || this.#follow(),
        // It comes after the drawing. (Without a listener to it, the editor does not keep the list of changes.)
        changes: () => this.#hull && this.#readLater(),
        swapDoc: () => this.#follow(),
        optionChange: (_, name) => name === 'lineSeparator' && this.#follow(),
        fold: () => this.#isAhead || this.#showWrong(),
        unfold: () => this.#isAhead || this.#showWrong(),
    })

    /** Before the editor draws: one edit for all changes of the operation. A long text waits. */
    #follow() {
        this.#catchUp()
        if (!this.#hull) return
        const { from, to, end } = this.#hull
        const waits = this.#lines.length > READ_AT_ONCE && Math.max(to, end) - from <= SHORT_CHANGE
        if (!waits) this.#read()
    }

    /** Behind the next frame; where the page is not shown none comes, and a timer does it. */
    #readLater() {
        if (this.#due) return
        this.#due = setTimeout(() => this.#readDue(), READ_AFTER)
        requestAnimationFrame(() => setTimeout(() => this.#readDue()))
    }

    #readDue() {
        if (!this.#due) return
        this.#readNoMore()
        this.flush()
    }

    #readNoMore() {
        clearTimeout(this.#due)
        this.#due = 0
    }

    /** `#lines` is what the editor holds, afterwards; `#hull` says what the document lacks. */
    #catchUp() {
        if (this.#isOther) return this.#readWhole()
        for (const change of changesOf(this.#cm)) if (!this.#taken.has(change)) this.#take(change)
    }

    #take(change) {
        this.#taken.add(change)
        const { a, b, length } = this.#lines.change(change)
        const hull = this.#hull ?? { from: a, to: a, end: a }
        this.#hull = {
            from: Math.min(hull.from, a),
            to: hull.to + Math.max(0, b - hull.end),
            end: Math.max(hull.end, b) + length - (b - a),
        }
    }

    /** Whether the editor holds another document than the one that was read, or has other line ends or line numbers. */
    get #isOther() {
        const cm = this.#cm
        const { first, separator } = this.#lines
        return cm.doc !== this.#doc || cm.firstLine() !== first || cm.lineSeparator() !== separator
    }

    /** Whether the editor holds another text than the document. It may ask for colours before it tells of a change. */
    get #isAhead() {
        const last = changesOf(this.#cm).at(-1)
        return this.#hull !== null || this.#isOther || (last !== undefined && !this.#taken.has(last))
    }

    #position(offset) {
        const line = this.#lines.lineOf(offset)
        return new this.#cm.constructor.Pos(line, offset - this.#lines.start(line))
    }

    // ---- readings

    #readWhole() {
        const cm = this.#cm
        // A document that is swapped in has a mode of its own.
        if (this.#doc && cm.doc !== this.#doc) cm.setOption('mode', this.#modeSpec)
        this.#doc = cm.doc
        this.#lines = new Lines(cm.getValue(false), cm.firstLine(), cm.lineSeparator())
        this.#hull = null
        for (const change of changesOf(cm)) this.#taken.add(change)
        this.#document?.free()
        this.#document = new PythonDocument(cm.getValue(), this.#mode)
        this.#show()
    }

    #read() {
        const cm = this.#cm
        let { from, to, end } = this.#hull
        const first = this.#position(from)
        const last = this.#position(end)
        // No cut between two halves, also where a lone half (U+FFFD in the document) gets its other half.
        if (isHigh(cm.getLine(first.line).charCodeAt(first.ch - 1))) from--, first.ch--
        if (isLow(cm.getLine(last.line).charCodeAt(last.ch))) to++, last.ch++
        this.#document.edit(from, to, cm.getRange(first, last))
        this.#hull = null
        this.#show()
    }

    #show() {
        const cm = this.#cm
        this.#row = this.#editorLines = null
        this.#colours.take(this.#document, this.#lines)
        this.#folds.read()
        cm.operation(() => {
            dropColours(cm)
            endBackgroundWork(cm)
            this.#colours.redraw()
            this.#showWrong()
            for (const heard of this.#listeners) heard()
        })
    }

    /** What is wrong, marked in the text and in the gutter. */
    #showWrong() {
        const place = (offset) => this.#position(offset)
        const { fault } = this.#document
        const bracket = this.#document.audit()
        this.#faultMark.show(fault, place)
        this.#bracketMarks.show(bracket, place)
        this.#signs.show([fault, bracket].filter(Boolean), place)
    }
}
