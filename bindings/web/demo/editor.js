// The page's editor: CodeMirror, coloured by the reader's records.
import { sortOfBlock, wordsOfBlock } from './blocks.js'
import { LABEL, NARROW } from './page.js'

const LEVEL = '    '
/** While these stand above the editor's own keys, Tab is the browser's. */
const LEAVES = { Tab: false, 'Shift-Tab': false }

export class CodeEditor {
    #editor
    #reader
    #blocks
    /** The mark of what is selected while the focus is elsewhere. */
    #selected = null
    #leaving = false
    #onLeaving = []

    constructor(place, { BLOCK_GUTTER, BlockGutter, EditorReader, FAULT_GUTTER, FOLD_KEYS }, mode) {
        const editor = (this.#editor = window.CodeMirror(place, {
            inputStyle: 'contenteditable',
            screenReaderLabel: LABEL,
            spellcheck: false,
            theme: 'sroviemat',
            lineNumbers: true,
            indentUnit: LEVEL.length,
            tabSize: LEVEL.length,
            matchBrackets: true,
            gutters: [BLOCK_GUTTER, 'CodeMirror-linenumbers', FAULT_GUTTER, 'CodeMirror-foldgutter'],
            extraKeys: {
                ...FOLD_KEYS,
                Tab: () => this.#indent(),
                'Shift-Tab': 'indentLess',
                Enter: () => this.#newLine(),
                Esc: () => this.#leave(),
                'Ctrl-F': 'findPersistent',
                'Cmd-F': 'findPersistent',
                'Ctrl-/': 'toggleComment',
                'Cmd-/': 'toggleComment',
            },
        }))
        const field = editor.getInputField()
        for (const [name, value] of [['role', 'textbox'], ['aria-multiline', 'true'], ['aria-describedby', 'ending bracket keys']]) field.setAttribute(name, value)
        this.#reader = new EditorReader(editor, { mode })
        this.#blocks = new BlockGutter(editor, this.#reader)
        // The gutters have other widths there, which the editor measures.
        matchMedia(NARROW).addEventListener('change', () => editor.refresh())
        editor.on('keydown', (_, { key }) => this.#leaving && !['Tab', 'Shift', 'Escape'].includes(key) && this.#stay())
        editor.on('blur', () => this.#stay())
        // A file is the page's: the editor would put its text in where it falls.
        editor.on('drop', (_, event) => event.dataTransfer.files.length && (event.codemirrorIgnore = true))
        for (const name of ['blur', 'focus', 'cursorActivity']) editor.on(name, () => this.#markSelected())
    }

    /** The editor and its reader, for tests. */
    get parts() {
        return { editor: this.#editor, reader: this.#reader }
    }

    get document() {
        return this.#reader.document
    }

    get fault() {
        return this.#reader.fault
    }

    get wrongBracket() {
        return this.#reader.wrongBracket
    }

    /** All records with UTF-16 offsets. */
    get row() {
        return this.#reader.row
    }

    get text() {
        return this.#editor.getValue()
    }

    /** The caret's offset. */
    get caret() {
        return this.#reader.offset(this.#editor.getCursor())
    }

    /** Another text, which cannot be undone into the one before. */
    open(text) {
        const editor = this.#editor
        editor.operation(() => {
            editor.setValue(text)
            editor.clearHistory()
            editor.setCursor(0, 0)
            editor.scrollTo(0, 0)
            editor.setOption('indentWithTabs', /^\t/m.test(text))
        })
    }

    setMode(mode) {
        this.#reader.setMode(mode)
    }

    onRead(heard) {
        this.#reader.onRead(heard)
    }

    /** Calls back after each change that is not `open`. */
    onTyped(heard) {
        this.#editor.on('changes', (_, changes) => changes.some(({ origin }) => origin !== 'setValue') && heard())
    }

    onCaret(heard) {
        this.#editor.on('cursorActivity', heard)
    }

    /** Calls back when Tab begins or ceases to leave the editor. */
    onLeaving(heard) {
        this.#onLeaving.push(heard)
    }

    /** Puts the caret at an offset, in view both ways. */
    goTo(offset) {
        const editor = this.#editor
        const place = this.#reader.position(offset)
        editor.getWrapperElement().scrollIntoView({ block: 'nearest' })
        editor.focus()
        editor.setCursor(place)
        const { left, top, bottom } = editor.charCoords(place, 'local')
        const { clientWidth, clientHeight } = editor.getScrollInfo()
        editor.scrollIntoView({ left: Math.max(0, left - clientWidth / 4), right: left + clientWidth / 4, top: top - clientHeight / 3, bottom: bottom + clientHeight / 3 })
    }

    showBlocks(blocks) {
        this.#blocks.show(
            blocks.map((block) => {
                const sort = sortOfBlock(block)
                return { startLine: block.startLine, endLine: block.endLine, bar: `block-${sort}`, mark: `mark ${sort}`, words: wordsOfBlock(block) }
            })
        )
    }

    setWrapping(wraps) {
        // From far right the editor would come back step by step.
        this.#editor.scrollTo(0, null)
        this.#editor.setOption('lineWrapping', wraps)
    }

    /** Runs one of the editor's commands. What is folded is opened before all is folded, which would fold it again. */
    run(command) {
        this.#editor.focus()
        if (command === 'foldAll') this.#editor.execCommand('unfoldAll')
        this.#editor.execCommand(command)
    }

    /** The browser shows a selection where the focus is: while it is elsewhere, a mark stands for it. */
    #markSelected() {
        this.#selected?.clear()
        const [range] = this.#editor.listSelections()
        const shown = this.#editor.hasFocus() || range.empty()
        this.#selected = shown ? null : this.#editor.markText(range.from(), range.to(), { className: 'selected-away' })
    }

    // ---- keys

    /** Tab: the lines of the selection one level in, or blanks to the next level. */
    #indent() {
        const editor = this.#editor
        if (editor.somethingSelected()) editor.execCommand('indentMore')
        else editor.execCommand(editor.getOption('indentWithTabs') ? 'insertTab' : 'insertSoftTab')
    }

    /** Enter: the line's own blanks, and one level more where the line opens a block or a bracket. */
    #newLine() {
        const editor = this.#editor
        editor.operation(() => {
            editor.replaceSelections(editor.listSelections().map((range) => `\n${this.#blanksBehind(range.from())}`), 'end', '+input')
            editor.scrollIntoView(null)
        })
    }

    #blanksBehind({ line, ch }) {
        const own = this.#editor.getLine(line).slice(0, ch).match(/^[ \t\f]*/)[0]
        const last = this.#editor.getLineTokens(line).filter((token) => token.end <= ch && token.string.trim() && !/comment/.test(token.type)).at(-1)
        const opens = last && /operator/.test(last.type) && /[:([{]$/.test(last.string)
        return opens ? own + (this.#editor.getOption('indentWithTabs') ? '\t' : LEVEL) : own
    }

    /** Esc: the next Tab leaves the editor. */
    #leave() {
        this.#editor.execCommand('singleSelection')
        if (this.#leaving) return
        this.#leaving = true
        this.#editor.addKeyMap(LEAVES)
        for (const heard of this.#onLeaving) heard(true)
    }

    #stay() {
        if (!this.#leaving) return
        this.#leaving = false
        this.#editor.removeKeyMap(LEAVES)
        for (const heard of this.#onLeaving) heard(false)
    }
}
