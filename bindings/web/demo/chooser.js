// Which recipe is shown: an example, or one of the user's own, which the browser keeps. What is typed into an example, and
// a file that is opened, becomes the user's own.
import { CannotOpen, openFile, saveFile } from './files.js'
import { afterPause, element, get, hideNotice, notice } from './page.js'
import { recipe, RECIPES } from './recipes.js'
import { Shelf } from './shelf.js'

/** What is typed is kept after so many milliseconds without a key. */
const PAUSE = 700
const NOT_KEPT = 'This browser does not keep what is typed here, or has no room for it: save the recipe as a file before you leave the page.'

const titled = (name) => name.replaceAll('_', ' ')

export class Chooser {
    #editor
    #limits
    #shelf = new Shelf()
    /** What is shown: its value in the chooser, its name on the shelf or null, its title, line ends and mark. */
    #shown = { choice: null, name: null, title: 'recipe', ends: '\n', mark: false }
    #keepSoon = afterPause(PAUSE, () => this.#keep())
    #isKept = true

    /** `limits` are those of `openFile`. */
    constructor(editor, limits) {
        this.#editor = editor
        this.#limits = limits
        editor.onTyped(() => this.#typed())
        this.#shelf.onOther((name) => this.#changedElsewhere(name))
        this.#listen()
    }

    /** Shows what was shown last, or the first example. */
    start() {
        this.#fill()
        return this.#choose(this.#shelf.shown)
    }

    #listen() {
        get('recipe').addEventListener('change', () => this.#choose(get('recipe').value))
        get('open').addEventListener('click', () => get('file').click())
        get('file').addEventListener('change', () => this.#openChosen())
        get('save').addEventListener('click', () => saveFile({ ...this.#shown, text: this.#editor.text }))
        get('remove').addEventListener('click', () => this.#remove())
        addEventListener('dragover', (event) => event.dataTransfer.types.includes('Files') && event.preventDefault())
        addEventListener('drop', (event) => this.#dropped(event))
        addEventListener('pagehide', () => this.#keepSoon.now())
        document.addEventListener('visibilitychange', () => this.#keepSoon.now())
        addEventListener('beforeunload', (event) => {
            this.#keepSoon.now()
            if (!this.#isKept) event.preventDefault()
        })
    }

    // ---- choosing

    /** The user's own recipes first. The values are `mine NAME` and `example NAME`. */
    #fill() {
        const group = (label, options) => {
            const made = Object.assign(element('optgroup'), { label })
            made.append(...options.map(([title, value]) => new Option(title, value)))
            return made
        }
        const mine = this.#shelf.entries().map(([name, { title }]) => [title, `mine ${name}`])
        const examples = RECIPES.map((name) => [titled(name), `example ${name}`])
        get('recipe').replaceChildren(...(mine.length ? [group('My recipes', mine)] : []), group('Examples', examples))
        get('recipe').value = this.#shown.choice ?? examples[0][1]
    }

    /** Shows a recipe by its value; the first example where there is no such. */
    async #choose(choice) {
        const [sort, name] = (choice ?? '').split(' ')
        const mine = sort === 'mine' && this.#shelf.get(name)
        if (mine) return this.#show({ ...mine, choice, name })
        const example = RECIPES.includes(name) ? name : RECIPES[0]
        const value = (get('recipe').value = `example ${example}`)
        try {
            const text = await recipe(example)
            // Another may have been chosen meanwhile.
            if (get('recipe').value === value) this.#show({ choice: value, name: null, title: titled(example), text, ends: '\n', mark: false })
        } catch (error) {
            get('recipe').value = this.#shown.choice
            notice(error.message)
        }
    }

    #show({ text, ...shown }) {
        this.#keepSoon.now()
        this.#shown = shown
        this.#shelf.shown = shown.choice
        get('recipe').value = shown.choice
        get('remove').hidden = shown.name === null
        this.#editor.open(text)
    }

    // ---- the user's own

    #typed() {
        if (this.#shown.name === null) this.#add({ ...this.#shown, title: `my ${this.#shown.title}` })
        this.#keepSoon()
    }

    /** What the editor holds becomes a recipe of the user's own. */
    #add({ title, ends, mark }) {
        const name = this.#shelf.freeName()
        this.#shown = { choice: `mine ${name}`, name, title: this.#shelf.freeTitle(title), ends, mark }
        this.#keep()
        this.#fill()
        get('remove').hidden = false
    }

    #keep() {
        const { choice, name, title, ends, mark } = this.#shown
        if (name === null) return
        const isKept = this.#shelf.put(name, { title, text: this.#editor.text, ends, mark })
        this.#shelf.shown = choice
        if (isKept !== this.#isKept) isKept ? hideNotice() : notice(NOT_KEPT)
        this.#isKept = isKept
    }

    #remove() {
        if (!confirm(`Remove “${this.#shown.title}” from this browser?`)) return
        this.#shelf.remove(this.#shown.name)
        this.#shown = { ...this.#shown, choice: null, name: null }
        this.#fill()
        this.#choose(null)
    }

    /** Another window changed or removed a recipe: what is typed here goes into one of its own. */
    #changedElsewhere(name) {
        if (this.#shown.name === name) {
            notice(`“${this.#shown.title}” was changed in another window. What is typed here becomes a recipe of its own.`)
            const choice = this.#shelf.get(name) ? this.#shown.choice : null
            this.#shown = { ...this.#shown, choice, name: null, title: this.#shown.title.replace(/^my /, '') }
            get('remove').hidden = true
            if (this.#keepSoon.isDue()) this.#typed()
        }
        this.#fill()
    }

    // ---- files

    #openChosen() {
        const [file] = get('file').files
        get('file').value = ''
        if (file) this.#openFile(file)
    }

    #dropped(event) {
        const [file] = event.dataTransfer.files
        if (!file) return
        event.preventDefault()
        this.#openFile(file)
    }

    async #openFile(file) {
        try {
            this.#open(await openFile(file, this.#limits))
        } catch (error) {
            if (!(error instanceof CannotOpen) && error.name !== 'NotReadableError') throw error
            notice(error.message, error.asLatin1 && { words: 'Read it as Latin-1', work: () => this.#openAsLatin1(error) })
        }
    }

    #open({ text, warning, ...opened }) {
        this.#keepSoon.now()
        hideNotice()
        this.#editor.open(text)
        this.#add(opened)
        if (warning) notice(warning)
    }

    /** The button that was pressed is gone afterwards: the focus goes to the recipe. */
    #openAsLatin1({ asLatin1 }) {
        this.#open(asLatin1())
        this.#editor.goTo(0)
    }
}
