// What is wrong with a text, in its editor: marks of letters, as a wave under a fault, and signs in a gutter, whose titles are the
// messages.

/** The gutter of the signs. */
export const FAULT_GUTTER = 'sroviemat-faults'

/** A mark of letters, by a class of its own. */
export class TextMark {
    #cm
    #className
    #shown = null

    constructor(cm, className) {
        this.#cm = cm
        this.#className = className
    }

    /** Marks what has a `start`, an `end` and a `message` in place of the last, or nothing. `place`: the editor's position of an offset. */
    show(wrong, place) {
        if (!wrong) return this.hide()
        const { message } = wrong
        const range = this.#rangeOf(wrong, place(wrong.start))
        const handle = this.#cm.getLineHandle(range.from.line)
        // A mark that is taken off and set again has the editor draw its line twice.
        if (this.#shown?.message === message && this.#shown.handle === handle && this.#isAt(range)) return
        this.hide()
        const mark = range.from.ch < range.to.ch ? this.#underline(range, message) : this.#markEnd(range.from, message)
        this.#shown = { message, mark, handle }
    }

    hide() {
        this.#shown?.mark.clear()
        this.#shown = null
    }

    /** The part of the span on its first line; where it is empty the next character, if the line has one. */
    #rangeOf({ start, end }, from) {
        const text = this.#cm.getLine(from.line)
        const next = from.ch + (text.codePointAt(from.ch) > 0xffff ? 2 : 1)
        return { from, to: { line: from.line, ch: Math.min(text.length, Math.max(next, from.ch + end - start)) } }
    }

    #isAt({ from, to }) {
        const found = this.#shown.mark.find()
        if (!found) return false
        const { from: first, to: last } = found.from ? found : { from: found, to: found }
        return first.line === from.line && first.ch === from.ch && last.ch === to.ch
    }

    #underline({ from, to }, title) {
        return this.#cm.markText(from, to, { className: this.#className, attributes: { title } })
    }

    /** At a line's end there is no letter to mark: a sign without width stands there. */
    #markEnd(place, title) {
        return this.#cm.setBookmark(place, { widget: element('span', `${this.#className}-end`, title), insertLeft: true })
    }
}

/** The signs of a gutter: one in each line in which something is wrong, whose title says all of it. */
export class Signs {
    #cm
    /** The titles, by the handles of the lines. */
    #shown = new Map()

    constructor(cm) {
        this.#cm = cm
    }

    /** Shows signs at the starts of what is wrong, in place of the last. */
    show(wrongs, place) {
        const wanted = new Map()
        for (const { start, message } of wrongs) {
            // Where the line is folded, the sign is at the one that hides it.
            const handle = this.#cm.getLineHandleVisualStart(place(start).line)
            wanted.set(handle, wanted.has(handle) ? `${wanted.get(handle)}\n${message}` : message)
        }
        for (const handle of new Set([...this.#shown.keys(), ...wanted.keys()])) {
            const title = wanted.get(handle)
            if (title === this.#shown.get(handle)) continue
            this.#cm.setGutterMarker(handle, FAULT_GUTTER, title ? element('div', 'sroviemat-fault-sign', title) : null)
        }
        this.#shown = wanted
    }

    hide() {
        this.show([])
    }
}

function element(name, className, title) {
    return Object.assign(document.createElement(name), { className, title })
}
