// The page that editor.py drives: one editor, and what the trials compare it with.
// ?bare: without the reader. ?beside: another without it. ?input=STYLE: textarea or contenteditable.
import * as sroviemat from '../sroviemat.js'
import * as adapter from '../codemirror.js'

const { MODULE_WITH_COMMENTS, PythonDocument, STRIDE } = sroviemat
const asked = new URLSearchParams(location.search)
await sroviemat.load()
const options = {
    theme: 'sroviemat',
    lineNumbers: true,
    inputStyle: asked.get('input') ?? 'textarea',
    indentUnit: 4,
    smartIndent: false,
    extraKeys: adapter.FOLD_KEYS,
}
const cm = CodeMirror(document.body, options)
/** Beside it, an editor without the reader. */
const bare = asked.has('beside') ? CodeMirror(document.body, options) : null

// ---- the time from a key to the editor's `changes`, to behind the next frame, and to the reading

const times = new Map([[cm, []], [bare, []]])
let timing = null
const channel = new MessageChannel()
const shown = []
channel.port1.onmessage = () => {
    const mine = shown.shift()
    mine.frame = performance.now() - mine.pressed
}
addEventListener('keydown', () => (timing = { pressed: performance.now() }), true)
function changed(editor) {
    if (!timing || timing.work) return
    const mine = timing
    mine.work = performance.now() - mine.pressed
    mine.read ??= mine.work
    times.get(editor).push(mine)
    requestAnimationFrame(() => {
        shown.push(mine)
        channel.port2.postMessage(0)
    })
}
cm.on('changes', changed)
bare?.on('changes', changed)

const reader = asked.has('bare') ? null : new adapter.EditorReader(cm)
let readings = 0
const countReadings = () => readings
reader?.onRead(() => {
    readings++
    if (timing) timing.read = performance.now() - timing.pressed
})

// ---- what a trial compares

/** The string as the document has it: U+FFFD for each lone half. */
const plain = (text) => text.replace(/[\ud800-\udbff](?![\udc00-\udfff])|(?<![\ud800-\udbff])[\udc00-\udfff]/g, '\ufffd')

/** The sort of a kind, by the numbers of docs/API.md. */
function sortOf(kind) {
    if (kind <= 2 || kind === 8) return ''
    if (kind === 7) return 'comment'
    return kind <= 3 ? 'name' : kind <= 6 ? 'number' : kind <= 23 ? 'string' : kind <= 76 ? 'operator' : 'keyword'
}

const merged = (parts) => {
    const row = []
    for (const [sort, letters] of parts) {
        if (row.at(-1)?.[0] === sort) row.at(-1)[1] += letters
        else row.push([sort, letters])
    }
    return plain(row.map((part) => part.join(' ')).join(' | '))
}

/** Sort and letters of each token of each line, from a whole reading. */
function wantedLines(text) {
    const whole = new PythonDocument(text, MODULE_WITH_COMMENTS)
    const row = whole.utf16()
    const lines = whole.text.split('\n').map(() => [])
    let line = 0
    let at = 0
    for (let i = 0; i < row.length; i += STRIDE) {
        for (; at < row[i + 1]; at++) if (whole.text[at] === '\n') line++
        if (!sortOf(row[i])) continue
        whole.text.slice(row[i + 1], row[i + 2]).split('\n').forEach((letters, k) => letters && lines[line + k].push([sortOf(row[i]), letters]))
    }
    return lines.map(merged)
}

/** Sort and letters of each coloured part of each line in view, as drawn; `stale` and `unread` are said too. */
function drawnLines() {
    return [...document.querySelectorAll('.CodeMirror-code pre.CodeMirror-line')].map((line) =>
        merged(
            [...line.querySelectorAll('span[class*=cm-]')].map((part) => {
                const names = [...part.classList].filter((name) => name.startsWith('cm-')).map((name) => name.slice(3))
                return [names.join('+'), part.textContent.replaceAll('\u200b', '')]
            })
        )
    )
}

/** What differs between the editor, the adapter and a whole reading: '' where nothing does. */
function differs({ colours = true } = {}) {
    const text = plain(cm.getValue())
    const found = reader.document
    if (found.text !== text) return `text: ${JSON.stringify([plain(found.text.slice(0, 200)), plain(text.slice(0, 200))])}`
    const fresh = new PythonDocument(text, MODULE_WITH_COMMENTS)
    if (fresh.code !== found.code || String(fresh.records()) !== String(found.records())) return `records: ${fresh.code} ${found.code} ${fresh.count} ${found.count}`
    if (String(fresh.utf16()) !== String(reader.row)) return 'row'
    const bracket = fresh.audit()
    if (JSON.stringify(bracket) !== JSON.stringify(reader.wrongBracket)) return `bracket: ${JSON.stringify([reader.wrongBracket, bracket])}`
    for (const [name, wanted] of [['sroviemat-wrong-bracket', bracket], ['sroviemat-met-opener', bracket?.opener]]) {
        const marked = marksOf(name).map(({ from, to }) => `${cm.indexFromPos(from)}..${cm.indexFromPos(to)}`)
        if (String(marked) !== (wanted ? `${wanted.start}..${wanted.end}` : '')) return `${name}: ${marked} ${JSON.stringify(wanted)}`
    }
    for (let i = 0; i < reader.row.length; i += STRIDE) {
        const [start, line] = [reader.row[i + 1], reader.row[i + 3]]
        if (reader.editorLine(line) !== reader.position(start).line) return `the line of record ${i / STRIDE}: ${line} is ${reader.editorLine(line)}, not ${reader.position(start).line}`
    }
    for (const line of [cm.firstLine(), (cm.firstLine() + cm.lastLine()) >> 1, cm.lastLine()]) {
        const place = { line, ch: cm.getLine(line).length }
        if (reader.offset(place) !== cm.indexFromPos(place)) return `the offset of line ${line}`
        if (CodeMirror.cmpPos(reader.position(reader.offset(place)), place)) return `the position of line ${line}`
    }
    if (!colours || found.code !== 0) return ''
    const { from, to } = cm.getViewport()
    const wanted = wantedLines(text).slice(from - cm.firstLine(), to - cm.firstLine())
    const drawn = drawnLines()
    const i = wanted.findIndex((line, i) => line !== drawn[i])
    return i < 0 && drawn.length === wanted.length ? '' : `line ${from + i}: drawn ${drawn[i]}; wanted ${wanted[i]}; ${drawn.length} of ${wanted.length} lines`
}

/** Where the letters stand that are marked with a class. */
const marksOf = (name) => cm.getAllMarks().filter((mark) => mark.className === name).map((mark) => mark.find())

/** The first and last lines of what is folded. */
function folded() {
    const ranges = cm.getAllMarks().filter((mark) => mark.__isFold).map((mark) => mark.find())
    return ranges.map(({ from, to }) => [from.line, to.line]).sort((a, b) => a[0] - b[0])
}

/** The lines that have an arrow to fold them. */
function arrows() {
    const lines = [...Array(cm.lineCount()).keys()].map((i) => cm.firstLine() + i)
    return lines.filter((line) => cm.getLineHandle(line).gutterMarkers?.['CodeMirror-foldgutter']).join()
}

/** Numbers that look random, the same in each run. */
function chance(seed) {
    return (n) => Math.floor(((seed = (seed * 48271) % 2147483647) / 2147483647) * n)
}

export { adapter, arrows, chance, cm, differs, drawnLines, plain, reader, sroviemat }
export { countReadings as readings }

// What editor.py asks.
Object.assign(window, { arrows, bare, cm, differs, drawnLines, folded, reader, readings: countReadings, sroviemat, times })
