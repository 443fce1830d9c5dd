// What an editor folds, from what an EditorReader has read, by CodeMirror's own addons fold/foldcode.js and foldgutter.js.
import { foldsOf } from './folds.js'
import { CLOSERS, LINE, OPENERS, START, STRIDE } from './names.js'

export const FOLD_GUTTER = 'CodeMirror-foldgutter'

/** Whether the addon of the gutter is there. */
export const hasFoldGutter = (cm) => 'foldGutter' in cm.constructor.optionHandlers

/** So many ms after a change the arrows follow it, and what is folded. By itself the gutter waits 600. */
const FOLLOW_AFTER = 150

// ---- keys

/** Whether a mark is one by which the addon folds. */
const isFold = (mark) => mark.__isFold

/** What is folded on the caret's line. */
function foldedAt(cm) {
    const { line } = cm.getCursor()
    return cm.findMarks({ line, ch: 0 }, { line, ch: cm.getLine(line).length }).filter(isFold)
}

/** Folds what begins on the caret's line, or on the nearest before it. */
const fold = (cm) => cm.foldCode(cm.getCursor(), { scanUp: true })

const unfold = (cm) => foldedAt(cm).forEach((mark) => mark.clear())

/** Keys for folding, for the editor's `extraKeys`: those of other editors. (CodeMirror's own Ctrl-Q ends Firefox on Linux.) */
export const FOLD_KEYS = {
    'Shift-Ctrl-[': (cm) => foldedAt(cm).length || fold(cm),
    'Shift-Ctrl-]': unfold,
    'Ctrl-K': '...',
    // The command would fold again what is folded.
    'Ctrl-K Ctrl-0': (cm) => ['unfoldAll', 'foldAll'].forEach((name) => cm.execCommand(name)),
    'Ctrl-K Ctrl-J': 'unfoldAll',
}

// ---- the editor's folds

export class EditorFolds {
    #cm
    #reader
    /** Where the fold of each line ends that has one, at this reading; null before it is asked for. */
    #ends = null
    /** Whether something may be folded. */
    #isUsed = false
    #due = 0
    #heard = () => (this.#isUsed = true)

    constructor(cm, reader) {
        this.#cm = cm
        this.#reader = reader
    }

    /** Sets the options of the addons that are there, over those that the page has set. */
    start() {
        const cm = this.#cm
        const given = (name) => (typeof cm.getOption(name) === 'object' ? cm.getOption(name) : {})
        cm.on('fold', this.#heard)
        if (!cm.foldCode) return
        const rangeFinder = (_, { line }) => this.#at(line)
        cm.setOption('foldOptions', { widget: foldSign, ...given('foldOptions'), rangeFinder })
        if (!hasFoldGutter(cm)) return
        const times = { foldOnChangeTimeSpan: FOLLOW_AFTER, updateViewportTimeSpan: 60 }
        cm.setOption('foldGutter', { ...times, ...given('foldGutter') })
    }

    stop() {
        clearTimeout(this.#due)
        this.#cm.off('fold', this.#heard)
        for (const mark of this.#marks()) mark.clear()
    }

    /** Hears of a reading. */
    read() {
        this.#ends = null
        clearTimeout(this.#due)
        if (this.#isUsed) this.#due = setTimeout(() => this.#cm.operation(() => this.#compare()), FOLLOW_AFTER)
    }

    /** What a line folds, from its own end on, or undefined. */
    #at(line) {
        this.#reader.flush()
        this.#ends ??= this.#findEnds()
        const to = this.#ends.get(line)
        return to && { from: this.#lineEnd(line), to }
    }

    /** A bracket folds up to its closer, which stays in view with what follows it; the others to their last line's end. */
    #findEnds() {
        const closers = this.#findClosers()
        const ends = new Map()
        for (const { startLine, endLine, kind } of foldsOf(this.#reader.row, this.#reader.document.text)) {
            const first = this.#reader.editorLine(startLine)
            const last = this.#reader.editorLine(endLine)
            // One arrow a line, for the longest.
            if (first === last || ends.has(first)) continue
            ends.set(first, (kind === 'bracket' && closers.get(first)) || this.#lineEnd(last))
        }
        return ends
    }

    /** The place of the closer of the outermost bracket that a line opens and another closes. */
    #findClosers() {
        const { row } = this.#reader
        const closers = new Map()
        const open = []
        for (let i = 0; i < row.length; i += STRIDE) {
            if (OPENERS.has(row[i])) open.push(this.#reader.editorLine(row[i + LINE]))
            if (!CLOSERS.has(row[i])) continue
            const line = open.pop()
            if (line < this.#reader.editorLine(row[i + LINE])) closers.set(line, this.#reader.position(row[i + START]))
        }
        return closers
    }

    #lineEnd(line) {
        return { line, ch: this.#cm.getLine(line).length }
    }

    #marks() {
        return this.#cm.getAllMarks().filter(isFold)
    }

    /** What is folded follows the text: it folds what its line folds, or opens where the caret would be hidden. */
    #compare() {
        const marks = this.#marks()
        this.#isUsed = marks.length > 0
        for (const mark of marks) {
            const { from, to } = mark.find()
            // Behind a fault nothing is known to fold: what is folded stays so.
            if (this.#reader.offset(to) > (this.#reader.fault?.start ?? Infinity)) continue
            const range = this.#at(from.line)
            if (range && isSame(range.from, from) && isSame(range.to, to)) continue
            mark.clear()
            const caret = this.#cm.getCursor()
            const hides = range && isBefore(range.from, caret) && isBefore(caret, range.to)
            if (range && !hides) this.#cm.foldCode(from.line, null, 'fold')
        }
    }
}

/** What stands in place of what is folded. */
function foldSign(from, to) {
    const lines = to.line - from.line
    const title = lines === 1 ? 'one line is folded' : `${lines} lines are folded`
    return Object.assign(document.createElement('span'), { className: 'CodeMirror-foldmarker', textContent: '…', title })
}

const isSame = (a, b) => a.line === b.line && a.ch === b.ch
const isBefore = (a, b) => a.line < b.line || (a.line === b.line && a.ch < b.ch)
