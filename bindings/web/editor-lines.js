// Where each line of an editor starts, kept through changes: one typed array, moved and added to. The editor has no such
// table, and when it tells of a change, its text is already what it is behind all changes of the operation.

/** Lines have the editor's numbers, of which the first may be any. */
export class Lines {
    #starts
    #count = 0

    constructor(lines, first, separator) {
        this.first = first
        this.separator = separator
        this.#starts = new Uint32Array(lines.length + (lines.length >> 1) + 64)
        let at = 0
        for (const line of lines) {
            this.#starts[this.#count++] = at
            at += line.length + separator.length
        }
        /** The text's length. */
        this.length = at - separator.length
    }

    /** The number behind the last line's. */
    get after() {
        return this.first + this.#count
    }

    /** Where a line starts; behind the last one, where the text ends. */
    start(line) {
        return line < this.after ? this.#starts[line - this.first] : this.length
    }

    offset({ line, ch }) {
        return this.start(line) + ch
    }

    /** The last line that starts at or before an offset. */
    lineOf(offset) {
        let low = 0
        let high = this.#count
        while (low < high) {
            const middle = (low + high) >> 1
            if (this.#starts[middle] <= offset) low = middle + 1
            else high = middle
        }
        return this.first + low - 1
    }

    /**
     * What tells the line of a line of the text, from 0 by the text's own line ends. The two differ by the first line's number
     * alone, unless the editor has another separator than LF, or keeps a CR within a line.
     */
    linesOf(text) {
        if (this.separator === '\n' && !text.includes('\r')) return (line) => this.first + line
        const starts = [0, ...Array.from(text.matchAll(/\r\n?|\n/g), (end) => end.index + end[0].length)]
        return (line) => this.lineOf(starts[line])
    }

    /** Takes a change over; returns its two old offsets and the new length. */
    change({ from, to, text }) {
        const a = this.offset(from)
        const b = this.offset(to)
        const next = from.line - this.first + 1
        const more = text.length - 1 - (to.line - from.line)
        let length = (text.length - 1) * this.separator.length
        for (const part of text) length += part.length
        this.#make(this.#count + more)
        const starts = this.#starts
        if (more !== 0) starts.copyWithin(next + text.length - 1, next + to.line - from.line, this.#count)
        this.#count += more
        for (let at = a, i = 0; i < text.length - 1; i++) starts[next + i] = at += text[i].length + this.separator.length
        const delta = length - (b - a)
        if (delta !== 0) for (let i = next + text.length - 1; i < this.#count; i++) starts[i] += delta
        this.length += delta
        return { a, b, length }
    }

    #make(count) {
        if (count <= this.#starts.length) return
        const longer = new Uint32Array(count + (count >> 1))
        longer.set(this.#starts)
        this.#starts = longer
    }
}
