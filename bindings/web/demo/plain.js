// A plain field in the editor's place, where CodeMirror or the reader has not started: it has the members of CodeEditor that
// the page calls in both cases.
import { afterPause, LABEL } from './page.js'

/** The field is read after so many milliseconds without a key. */
const PAUSE = 80

export class PlainEditor {
    #field
    #PythonDocument
    #mode
    #onRead = []
    #readSoon = afterPause(PAUSE, () => this.#read())
    /** Null where the reader has not started. */
    document = null

    /** `PythonDocument` is the reader's class; null where it has not started. */
    constructor(place, PythonDocument, mode) {
        this.#PythonDocument = PythonDocument
        this.#mode = mode
        this.#field = Object.assign(document.createElement('textarea'), { id: 'text', wrap: 'off', spellcheck: false, autocapitalize: 'off', autocomplete: 'off' })
        this.#field.setAttribute('aria-label', LABEL)
        this.#field.setAttribute('aria-describedby', 'ending bracket')
        this.#field.addEventListener('input', this.#readSoon)
        place.append(this.#field)
    }

    get fault() {
        return this.document.fault
    }

    get wrongBracket() {
        return this.document.audit()
    }

    get row() {
        return this.document.utf16()
    }

    get text() {
        return this.#field.value
    }

    get caret() {
        return Math.min(this.#field.selectionStart, this.document.text.length)
    }

    open(text) {
        this.#field.value = text
        this.#field.setSelectionRange(0, 0)
        this.#field.scrollTo(0, 0)
        this.#read()
    }

    setMode(mode) {
        this.#mode = mode
        this.document = null
        this.#read()
    }

    onRead(heard) {
        this.#onRead.push(heard)
    }

    onTyped(heard) {
        this.#field.addEventListener('input', heard)
    }

    onCaret(heard) {
        document.addEventListener('selectionchange', () => document.activeElement === this.#field && heard())
    }

    goTo(offset) {
        this.#field.focus()
        this.#field.setSelectionRange(offset, offset)
    }

    showBlocks() {}

    #read() {
        if (!this.#PythonDocument) return
        this.document ??= new this.#PythonDocument('', this.#mode)
        this.document.edit(0, this.document.text.length, this.#field.value)
        for (const heard of this.#onRead) heard()
    }
}
