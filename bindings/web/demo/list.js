// The list of blocks beside the recipe: those that need attention first, of all sorts or of one.
import { sortOfBlock, SORTS, wordsOfBlock } from './blocks.js'
import { element, fromOne, get, grouped, write } from './page.js'

/** Blocks listed; the margin marks them all. */
const MOST_BLOCKS = 100
/** Letters of a block's first line that an item has. */
const MOST_HEAD = 200
const NONE = { unfinished: 'No block is unfinished.', never: 'No block is without a call.', many: 'No block calls it more than once.', once: 'No block calls it once.' }

export class BlockList {
    #goTo
    #blocks = []
    #document = null
    /** The sort that is listed, or all. */
    #sort = 'all'

    /** `goTo` is called with the offset of a block that is chosen. */
    constructor(goTo) {
        this.#goTo = goTo
        get('filters').addEventListener('click', ({ target }) => this.#choose(target.closest('[data-sort]')))
    }

    /** Shows the blocks of a document. */
    show(blocks, document) {
        this.#blocks = blocks
        this.#document = document
        this.#draw()
    }

    #choose(button) {
        if (!button) return
        this.#sort = button.dataset.sort
        this.#draw()
    }

    #draw() {
        const bySort = new Map(SORTS.map((sort) => [sort, []]))
        for (const block of this.#blocks) bySort.get(sortOfBlock(block)).push(block)
        for (const button of get('filters').children) this.#drawFilter(button, bySort.get(button.dataset.sort) ?? this.#blocks)
        const listed = bySort.get(this.#sort) ?? [...bySort.values()].flat()
        get('blocks').replaceChildren(...listed.slice(0, MOST_BLOCKS).map((block) => this.#item(block)))
        write(get('more-blocks'), this.#rest(listed.length))
    }

    #drawFilter(button, { length }) {
        const { sort } = button.dataset
        button.setAttribute('aria-pressed', sort === this.#sort)
        write(button.querySelector('.many-of'), grouped(length))
        button.disabled = length === 0 && sort !== 'all' && sort !== this.#sort
    }

    /** What the list does not say itself. */
    #rest(count) {
        const isRead = this.#document.code === 0
        const words = []
        if (this.#blocks.length === 0 && isRead) words.push('There is no top-level with block.')
        else if (count === 0 && this.#sort !== 'all') words.push(NONE[this.#sort])
        if (count > MOST_BLOCKS) words.push(`The first ${MOST_BLOCKS} of ${grouped(count)} are listed; the margin marks all.`)
        if (!isRead) words.push('Only what was read is listed.')
        return words.join(' ')
    }

    #item(block) {
        const { text } = this.#document
        const [first, last] = [fromOne(block.startLine), fromOne(block.endLine)]
        const [head] = text.slice(block.start, block.start + MOST_HEAD).split('\n', 1)
        const button = element('button', 'block-button')
        button.type = 'button'
        button.append(
            element('span', `mark ${sortOfBlock(block)}`, wordsOfBlock(block)),
            ' ',
            element('code', '', head),
            ' ',
            element('span', 'where', first === last ? `line ${first}` : `lines ${first} to ${last}`)
        )
        button.addEventListener('click', () => this.#goTo(block.start))
        const item = element('li')
        item.append(button)
        return item
    }
}
