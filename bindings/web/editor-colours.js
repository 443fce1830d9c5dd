// The colours of an editor's lines, from the records of a document: of a line a row of end, sort, end, sort ... to its end.
import { lineOf } from './editor-internals.js'
import { END, sortOf, START, STRIDE } from './names.js'
import { MODULE_WITH_COMMENTS, tokenize } from './sroviemat.js'

/** Lines whose colours are worked out together. */
const CHUNK = 64
/** A line that is longer is not read for itself. */
const LONG_LINE = 10_000
/** A line that is read for itself and has more faults keeps the rest without colours. */
const MOST_FAULTS = 20
/** A line has no more parts than this: the editor makes them all anew at each key in it. */
const MOST_PARTS = 1000

export class Colours {
    #cm
    #document
    #lines
    /** By line number, at this reading. */
    #spans = new Map()
    /** Of a line, by its handle: text and colours as they were last read, and as they were last drawn. */
    #known = new WeakMap()
    /** Up to where there are records, and from where on colours are paler. */
    #readTo = 0
    #staleFrom = Infinity

    constructor(cm) {
        this.#cm = cm
    }

    /** Takes a reading over. */
    take(document, lines) {
        const { code, count } = document
        this.#document = document
        this.#lines = lines
        this.#readTo = code === 0 ? lines.length : code >= 20 && count > 0 ? document.utf16(count - 1, count)[2] : 0
        this.#staleFrom = code === 0 ? Infinity : (document.fault?.start ?? 0)
        this.#spans.clear()
    }

    /** Draws the lines in view again whose colours are others than those drawn, wherever the change was. */
    redraw() {
        const { from, to } = this.#cm.getViewport()
        for (let line = from; line < Math.min(to, this.#lines.after); line++) {
            const handle = this.#cm.getLineHandle(line)
            const drawn = this.#known.get(handle)?.drawn
            if (!drawn || !handle.text || isSame(drawn, this.#spansOf(line))) continue
            // A mark that is set and taken away: nothing that is documented draws one line again.
            this.#cm.markText({ line, ch: 0 }, { line, ch: handle.text.length }, { className: 'sroviemat-redraw' }).clear()
        }
    }

    /**
     * What the mode asks: the colours of a line, which count as drawn. The editor may ask while it is ahead of the
     * reading, as when it measures a line within an operation; what it draws then is drawn again if it was wrong.
     */
    draw(line, isAhead) {
        const handle = this.#cm.getLineHandle(line)
        const drawn = isAhead ? guessed(this.#known.get(handle), handle.text) : this.#spansOf(line)
        this.#know(handle, { drawn, drawnText: handle.text })
        return drawn
    }

    #know(handle, more) {
        const known = this.#known.get(handle)
        if (known) Object.assign(known, more)
        else this.#known.set(handle, more)
    }

    #spansOf(line) {
        const first = line - ((line - this.#lines.first) % CHUNK)
        if (!this.#spans.has(line)) this.#colour(first, Math.min(this.#lines.after, first + CHUNK))
        return this.#spans.get(line)
    }

    #colour(first, after) {
        const row = this.#rowOf(this.#lines.start(first), this.#lines.start(after))
        const most = this.#cm.getOption('maxHighlightLength')
        let i = 0
        for (let line = first; line < after; line++) {
            const handle = this.#cm.getLineHandle(line)
            const { text } = handle
            const start = this.#lines.start(line)
            // A string of several lines is of each of them.
            while (i > 0 && endBefore(row, i) > start) i -= STRIDE
            while (i < row.length && row[i + END] <= start) i += STRIDE
            if (start + text.length > this.#readTo) {
                this.#spans.set(line, this.#unreadSpans(handle, row, i, start))
                continue
            }
            const spans = spansOf(row, i, start, start + Math.min(text.length, most))
            this.#know(handle, { text, spans })
            this.#spans.set(line, spans)
        }
    }

    /** The records from one offset to another, and one more. */
    #rowOf(from, to) {
        if (this.#readTo <= from) return []
        const document = this.#document
        const behind = (offset) => document.recordBehind(document.byteOf(offset))
        return document.utf16(behind(from), Math.min(behind(to) + 1, document.count))
    }

    /** Of a line that was not read to its end, the rest has its last colours or, if it is another, is read for itself. */
    #unreadSpans(handle, row, i, start) {
        const { text } = handle
        const known = this.#known.get(handle)
        const read = Math.max(0, Math.min(this.#readTo - start, text.length))
        const spans = spansOf(row, i, start, start + read)
        const rest = known?.text === text ? known.spans : lineSpans(text, read)
        for (let i = 0; i < rest.length; i += 2) {
            if (rest[i] <= read) continue
            const isStale = start + rest[i] > this.#staleFrom && rest[i + 1] !== ''
            spans.push(rest[i], isStale ? `${rest[i + 1]} stale` : rest[i + 1])
        }
        return spans
    }
}

/** The end of the record before a place in a row; undefined at its start. */
const endBefore = (row, i) => row[i - STRIDE + END]

const isSame = (a, b) => a === b || (a.length === b.length && a.every((x, i) => x === b[i]))

/** The colours from one offset to another, from the records from `i` on; ends are counted from `start`. */
function spansOf(row, i, start, stop) {
    const spans = []
    let at = start
    const add = (end, sort) => {
        if (end <= at) return
        spans.push(end - start, sort)
        at = end
    }
    for (; i < row.length && row[i + START] < stop && spans.length < 2 * MOST_PARTS; i += STRIDE) {
        const sort = sortOf(row[i])
        if (sort === 'blank') continue
        add(Math.min(row[i + START], stop), '')
        add(Math.min(row[i + END], stop), sort)
    }
    add(stop, '')
    return spans
}

/** What a reading leaves off at: a bracket that another line opens, a string, a comment, a backslash, a word, a letter. */
const NEXT = /(?<operator>[)\]}])|(?<string>\w*["'].*)|(?<comment>#.*)|(?<blank>\\$)|\w+|./suy

/** The colours of a line from `from` on, read for itself; what cannot be read is `unread`, and it goes on behind that. */
function lineSpans(text, from) {
    const spans = []
    const add = (end, sort) => end > (spans.at(-2) ?? from) && spans.push(end, sort === 'blank' ? '' : sort)
    const blanks = (at) => at + text.slice(at).search(/\S|$/)
    for (let at = from, faults = 0; at < text.length && text.length <= LONG_LINE && faults <= MOST_FAULTS; faults++) {
        // Blanks in front would open a block: they are no part of what is read. (`tokenize` displaces no document.)
        const first = blanks(at)
        add(first, 'blank')
        const reading = tokenize(text.slice(first), MODULE_WITH_COMMENTS)
        const row = reading.utf16()
        at = reading.code === 0 ? text.length : first + (endBefore(row, row.length) ?? 0)
        const read = spansOf(row, 0, 0, at - first)
        for (let i = 0; i < read.length; i += 2) add(first + read[i], read[i + 1])
        NEXT.lastIndex = blanks(at)
        const next = NEXT.exec(text)
        if (!next) break
        add(next.index, 'blank')
        at = NEXT.lastIndex
        add(at, Object.keys(next.groups).find((name) => next.groups[name] !== undefined) ?? 'unread')
    }
    add(text.length, 'blank')
    return spans
}

/** The colours of a line that is to be read: those that it was drawn with, moved along with what was typed. */
function guessed(known, text) {
    if (!known?.drawn) return lineSpans(text, 0)
    const { drawn, drawnText: old } = known
    if (old === text) return drawn
    const shorter = Math.min(old.length, text.length)
    let same = 0
    while (same < shorter && old[same] === text[same]) same++
    let tail = 0
    while (tail < shorter - same && old.at(-1 - tail) === text.at(-1 - tail)) tail++
    const moved = (end) => (end < same ? end : end < old.length - tail ? same : end + text.length - old.length)
    return drawn.map((x) => (typeof x === 'number' ? moved(x) : x))
}

/**
 * Defines the mode `sroviemat`, whose colours are those that the function `coloursOf` of its settings gives for a line's
 * number. It has no state: the editor would run it over lines out of view to find one.
 */
export function defineMode(CodeMirror) {
    if (CodeMirror.modes.sroviemat) return
    CodeMirror.defineMode('sroviemat', (_, { coloursOf }) => {
        let line = null
        let spans = []
        let i = 0
        const token = (stream) => {
            if (stream !== line) {
                line = stream
                spans = coloursOf?.(lineOf(stream)) ?? []
                i = 0
            }
            while (i < spans.length && spans[i] <= stream.pos) i += 2
            if (i < spans.length) stream.pos = spans[i]
            else stream.skipToEnd()
            return spans[i + 1] || null
        }
        return { token, lineComment: '#' }
    })
}
