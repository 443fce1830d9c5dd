// Blocks beside an editor's text: a bar down each block's lines and, in its first one, words. Only lines in view are drawn.

/** The gutter of the words. It has a fixed width, whether there are words in it or not. */
export const BLOCK_GUTTER = 'sroviemat-blocks'

const NOTHING = { bar: '', mark: '', words: '' }

/** Blocks in the gutter of an editor that an EditorReader reads; what a block is, and what is said of it, is the page's. */
export class BlockGutter {
    #editor
    #reader
    /** The blocks by their lines; null while the text has changed since. */
    #blocks = null
    /** What is beside a line, by the line's handle. */
    #drawn = new WeakMap()
    #handlers = Object.entries({
        // It comes before the editor draws. The bars move along with their lines until blocks are shown again.
        change: () => (this.#blocks = null),
        swapDoc: () => (this.#blocks = null),
        viewportChange: () => this.#blocks && this.#draw(),
    })

    constructor(editor, reader) {
        this.#editor = editor
        this.#reader = reader
        for (const [name, heard] of this.#handlers) editor.on(name, heard)
    }

    /**
     * Shows blocks, which stand in the order of their lines and have none in common. Of each: `startLine` and `endLine`, as
     * records and folds have lines, the class of its `bar`, its `words`, and the class of the `mark` that they stand in.
     */
    show(blocks) {
        const here = (line) => this.#reader.editorLine(line)
        this.#blocks = blocks.map(({ startLine, endLine, bar, mark, words }) => ({ first: here(startLine), last: here(endLine), bar, mark, words }))
        this.#draw()
    }

    /** Takes everything off the editor again. */
    dispose() {
        for (const [name, heard] of this.#handlers) this.#editor.off(name, heard)
        this.#editor.operation(() => this.#editor.eachLine((handle) => this.#put(handle, NOTHING)))
    }

    #draw() {
        const { from, to } = this.#editor.getViewport()
        let i = this.#firstEndingFrom(from)
        this.#editor.operation(() => {
            for (let line = from; line < to; line++) {
                while (this.#blocks[i]?.last < line) i++
                const block = this.#blocks[i]?.first <= line ? this.#blocks[i] : NOTHING
                this.#put(this.#editor.getLineHandle(line), block.first === line ? block : { ...NOTHING, bar: block.bar })
            }
        })
    }

    /** The index of the first block that ends in this line or behind it. */
    #firstEndingFrom(line) {
        let low = 0
        let high = this.#blocks.length
        while (low < high) {
            const middle = (low + high) >> 1
            if (this.#blocks[middle].last < line) low = middle + 1
            else high = middle
        }
        return low
    }

    #put(handle, { bar, mark, words }) {
        const was = this.#drawn.get(handle) ?? NOTHING
        if (was.bar === bar && was.mark === mark && was.words === words) return
        this.#drawn.set(handle, { bar, mark, words })
        if (was.bar !== bar) {
            if (was.bar) this.#editor.removeLineClass(handle, 'gutter', was.bar)
            if (bar) this.#editor.addLineClass(handle, 'gutter', bar)
        }
        this.#editor.setGutterMarker(handle, BLOCK_GUTTER, words ? element(mark, words) : null)
    }
}

function element(className, textContent) {
    return Object.assign(document.createElement('span'), { className, textContent })
}
