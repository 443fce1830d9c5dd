// The page: a recipe is read again at every key, and what the reader says of it is shown beside it after a pause.
import { CannotStart, load, MOST_BYTES, PythonDocument, tokenize } from '../sroviemat.js'
import { ENDINGS } from '../names.js'
import { withBlocks } from './blocks.js'
import { Chooser } from './chooser.js'
import { CodeEditor } from './editor.js'
import { loadCodeMirror } from './library.js'
import { BlockList } from './list.js'
import { afterPause, get, grouped, hideNotice, NARROW, notice, write } from './page.js'
import { PlainEditor } from './plain.js'
import { showRecords } from './table.js'

/** What the page shows follows the text after so many milliseconds without a key. */
const PAUSE = 80
/** What a screen reader says by itself follows after so many. */
const LONG_PAUSE = 700
const NO_CODEMIRROR =
    'CodeMirror is not on this server, so the recipe stands in a plain field, without colours and folds: run tools/serve-demo, which takes it from Debian’s package libjs-codemirror.'
const EXPLAINED = {
    3: 'A whole recipe, as it stands in a file.',
    4: 'As typed at Python’s prompt; the tokens are a module’s.',
    5: 'A single value: match, case or type as the very first word is a name.',
}

let editor
let list

/** What is shown, for tests. */
export const shownEditor = () => editor

const showSoon = afterPause(PAUSE, show)
const showCaretSoon = afterPause(PAUSE, showCaret)
const announceSoon = afterPause(LONG_PAUSE, announce)

async function start() {
    const [reader, library] = await Promise.all([failure(load()), failure(loadCodeMirror().then(() => import('../codemirror.js')))])
    if (reader && !(reader instanceof CannotStart)) throw reader
    hideNotice()
    await makeEditor(reader, library)
    list = new BlockList((offset) => editor.goTo(offset))
    editor.onRead(showSoon)
    editor.onCaret(showCaretSoon)
    get('close').addEventListener('click', hideNotice)
    get('mode').addEventListener('change', chooseMode)
    get('go').addEventListener('click', () => editor.goTo(editor.fault.start))
    get('go-bracket').addEventListener('click', () => editor.goTo(editor.wrongBracket.start))
    get('inside').addEventListener('toggle', showCaret)
    await new Chooser(editor, { most: MOST_BYTES, faultIn }).start()
}

/** What a promise fails with, or null. */
const failure = (promise) => promise.then(() => null, (error) => error)

/** The editor; a plain field where the reader or CodeMirror has not started. */
async function makeEditor(reader, library) {
    const mode = Number(get('mode').value)
    if (!reader && !library) {
        editor = new CodeEditor(get('editor'), await import('../codemirror.js'), mode)
        return useTools()
    }
    editor = new PlainEditor(get('editor'), reader ? null : PythonDocument, mode)
    get('tools').hidden = get('keys').hidden = true
    if (!reader) return notice(`${NO_CODEMIRROR} (${library.message})`)
    for (const part of document.querySelectorAll('.of-reader')) part.hidden = true
    notice(`The reader cannot start, so recipes stand here as plain text. ${reader.message}`)
}

function useTools() {
    for (const button of document.querySelectorAll('#tools [data-command]')) button.addEventListener('click', () => editor.run(button.dataset.command))
    get('wrap').checked = matchMedia(NARROW).matches
    const wrap = () => editor.setWrapping(get('wrap').checked)
    get('wrap').addEventListener('change', wrap)
    wrap()
    editor.onLeaving((leaves) => (get('keys').dataset.leaves = leaves))
}

function chooseMode() {
    get('mode-said').textContent = EXPLAINED[get('mode').value]
    editor.setMode(Number(get('mode').value))
    show()
}

/** What is wrong with bytes that are no UTF-8; null where the reader has not started. */
const faultIn = (bytes) => (editor.document ? tokenize(bytes).fault : null)

function show() {
    const { code, count, place, byteLength, text } = editor.document
    const blocks = withBlocks(editor.row, text, code === 0)
    editor.showBlocks(blocks)
    list.show(blocks, editor.document)
    const bracket = editor.wrongBracket
    write(get('ending'), endingWords())
    get('ending').className = code !== 0 ? 'wrong-end' : bracket ? '' : 'fine'
    get('go').hidden = !editor.fault
    write(get('bracket'), bracket?.message ?? '')
    get('bracket').hidden = get('go-bracket').hidden = !bracket
    write(get('code'), String(code))
    write(get('count'), grouped(count))
    write(get('place'), `byte ${grouped(place)}`)
    write(get('size'), `${grouped(byteLength)} bytes`)
    showCaret()
    announceSoon()
}

/** How the reading ended. */
function endingWords() {
    const words = ENDINGS.get(editor.document.code)
    return editor.fault?.message ?? `${words[0].toUpperCase()}${words.slice(1)}.`
}

/** What a screen reader says by itself: how the reading ended and which bracket is wrong, where that has changed. */
function announce() {
    write(get('announced'), `${endingWords()} ${editor.wrongBracket?.message ?? ''}`.trim())
}

function showCaret() {
    if (get('inside').open && editor.document) showRecords(editor.document, editor.caret)
}

await start()
