// bindings/web/test/folds.mjs [TEXTS [SEED]]: which lines fold, under Node: the drawn table (bindings/folds-cases.txt), random
// texts (3000), and what the Rust crate says of them and of the machine's Python files, where its example `folds` is built
// (bindings/rust/test). The last line is `N passed, N failed`; the status is 1 if any failed.
import { spawnSync } from 'node:child_process'
import { existsSync, mkdtempSync, readdirSync, readFileSync, rmSync, writeFileSync } from 'node:fs'
import { tmpdir } from 'node:os'
import { join } from 'node:path'
import { numbers, report, same, test } from './checks.mjs'
import { wasm } from './frames.mjs'
import { foldsOf } from '../folds.js'
import { EXPRESSION_WITH_COMMENTS, INTERACTIVE_WITH_COMMENTS, load, MODULE, MODULE_WITH_COMMENTS, PythonDocument, STRIDE, tokenize } from '../sroviemat.js'

const TEXTS = Number(process.argv[2] ?? 3_000)
const SEED = Number(process.argv[3] ?? 1)
const FILES = 2_000
const MODES = [MODULE_WITH_COMMENTS, INTERACTIVE_WITH_COMMENTS, EXPRESSION_WITH_COMMENTS]
const ROOT = new URL('../../../', import.meta.url)
const RUST = new URL('bindings/rust/target/debug/examples/folds', ROOT).pathname

const said = (folds) => folds.map(({ startLine, endLine, kind }) => `${startLine} ${endLine} ${kind}`).join('\n')
const foldsIn = (text, mode = MODULE_WITH_COMMENTS) => foldsOf(tokenize(text, mode).utf16(), text)
const count = (folds, kind) => folds.filter((fold) => fold.kind === kind).length

// ---- the table

const DRAWN = { B: 'block', K: 'bracket', C: 'comments' }

/** The cases of the table; its form stands at its head. */
function cases() {
    const all = []
    for (const line of readFileSync(new URL('bindings/folds-cases.txt', ROOT), 'utf8').split('\n')) {
        const [, margin, text] = /^([^|]*)\| ?(.*)$/.exec(line) ?? []
        if (line === '' || line.startsWith('#')) continue
        if (margin === undefined) all.push({ title: line, lines: [], folds: [], open: [] })
        else draw(all.at(-1), margin, text)
    }
    for (const { title, folds, open } of all) {
        if (open.some(Boolean)) throw new Error(`${title}: something is not closed`)
        folds.sort((a, b) => a.startLine - b.startLine || b.endLine - a.endLine)
    }
    return all
}

/** The next line of a case, with its margin. */
function draw({ title, lines, folds, open }, margin, text) {
    for (const [column, letter] of [...margin].entries()) {
        const kind = DRAWN[letter.toUpperCase()]
        if (kind && letter === letter.toUpperCase()) open[column] = { startLine: lines.length, kind }
        else if (kind) {
            if (open[column]?.kind !== kind) throw new Error(`${title}: ${letter} closes nothing`)
            folds.push({ ...open[column], endLine: lines.length })
            open[column] = undefined
        } else if (letter !== ' ' && !(letter === ':' && open[column])) throw new Error(`${title}: ${margin}`)
    }
    lines.push(text.replaceAll('→', '\t').replaceAll('␌', '\f'))
}

/** The text with each line end, with and without one at its end, with and without a BOM. */
function* texts(lines) {
    for (const end of ['\n', '\r\n', '\r']) {
        for (const last of ['', end]) {
            for (const bom of ['', '\ufeff']) yield bom + lines.join(end) + last
        }
    }
}

function table() {
    const all = cases()
    if (all.length < 30) throw new Error(`only ${all.length} cases`)
    let asked = 0
    for (const { title, lines, folds } of all) {
        if (title.endsWith('.py')) same(`${lines.join('\n')}\n`, readFileSync(new URL(title, ROOT), 'utf8'), () => title)
        for (const text of texts(lines)) {
            const what = () => `${title}: ${JSON.stringify(text)}`
            const bytes = new TextEncoder().encode(text)
            for (const mode of MODES) {
                same(said(foldsIn(text, mode)), said(folds), what)
                same(said(foldsOf(tokenize(bytes, mode).records(), bytes)), said(folds), what)
                const document = new PythonDocument(text, mode)
                same(said(foldsOf(document.utf16(), document.text)), said(folds), what)
                asked++
            }
        }
    }
    return `${all.length} cases, ${asked} texts`
}

/** Without comments in the list, what is left folds to the last token. */
function withoutComments() {
    const text = '# a\n# b\nwith c:\n    f(\n# d\n    )\n    # e\n'
    same(said(foldsIn(text, MODULE)), '2 5 block\n3 5 bracket', () => 'mode 0')
    same(said(foldsIn(text)), '0 1 comments\n2 6 block\n3 5 bracket', () => 'mode 3')
    same(said(foldsOf([], '')), '', () => 'nothing')
}

/** Within brackets a comment behind a string that ends in its line is no comment line. */
function behindStrings() {
    for (const end of ['\n', '\r\n', '\r']) {
        same(said(foldsIn("f('''a\nb''' # c\n# d\n)\n".replaceAll('\n', end))), '0 3 bracket', () => 'in the same line')
        same(said(foldsIn("f('''a\nb'''\n# c\n# d\n)\n".replaceAll('\n', end))), '0 4 bracket\n2 3 comments', () => 'in the next line')
    }
}

/** Records that are no reading's, or another text's: some folds or none. */
function anyRecords() {
    const random = numbers(SEED)
    for (let i = 0; i < 2_000; i++) {
        const records = Array.from({ length: random.below(90) }, (_, at) => (at % STRIDE ? random.below(40) : random.of([0, 1, 2, 3, 7, 8, 57, 58])))
        foldsOf(records, random.of(['', 'a\n\n# b\r\n\t(é\n', '# c\n'.repeat(9)]))
    }
}

/** Many levels, brackets and comments: the time is by the length of the text, whatever its form. */
function longTexts() {
    const levels = Array.from({ length: 100 }, (_, i) => `${' '.repeat(i)}if a:\n`).join('')
    const comments = Array.from({ length: 100 }, (_, i) => `${' '.repeat(100 - i)}# c\n`).join('')
    const times = [
        ['(\n'.repeat(500_000), 499_999],
        ['(\n'.repeat(500_000) + ')'.repeat(500_000), 500_000],
        [`${levels}${' '.repeat(100)}b\n${comments}`.repeat(100), 10_000],
        [`${levels}${' '.repeat(100)}b\n${'# c\n'.repeat(250_000)}`, 101],
        ['#\n'.repeat(500_000), 1],
        ['with a:\n    b(1,\n      2)\n    # c\n\n'.repeat(30_000), 60_000],
    ].map(([text, folds]) => {
        const utf16 = tokenize(text, MODULE_WITH_COMMENTS).utf16()
        const began = performance.now()
        same([foldsOf(utf16, text).length], [folds], () => JSON.stringify(text.slice(0, 40)))
        return ((performance.now() - began) / text.length) * 1e6
    })
    return `${times.map((time) => time.toFixed(0)).join(', ')} ns a character`
}

// ---- random texts

const STATEMENTS = ['x = 1', 'f(a, b)', 'g(\n  1,\n# c\n  # d\n 2)', 'h([\n', '])', "'''s\n# t\n'''", "i('''s\n''' # t\n# u\n)", 'y \\\n  + 1', 'z  # e', '"é😀"', '(a)(\n)', '\\', '$', ')']

/** A program with blocks, brackets, strings, comments at any indentation and, now and then, a fault. */
function randomText(random) {
    const end = random.of(['\n', '\n', '\r\n', '\r'])
    const levels = ['']
    const lines = []
    for (let left = random.below(30); left > 0; left--) {
        const blanks = levels.at(-1)
        const choice = random.below(20)
        if (choice < 5) {
            lines.push(`${blanks}${random.of(['if a:', 'else:', 'with b:  # c', 'def f(\n  x\n):'])}`)
            levels.push(blanks + random.of(['  ', '    ', '\t', ' ']))
            if (random.below(3)) continue
            levels.pop()
        } else if (choice < 8) levels.length = 1 + random.below(levels.length)
        else if (choice < 10) lines.push(random.of(['', '', '   ', '\f']))
        else if (choice < 15) lines.push(`${random.of([random.of(levels), ' '.repeat(random.below(9)), ''])}# ${left}`)
        else lines.push(blanks + STATEMENTS[random.below(random.below(4) ? 6 : STATEMENTS.length)])
    }
    return random.of(['', '', '\ufeff']) + lines.join('\n').replaceAll('\n', end) + random.of(['', end])
}

/** Folds that stand in order, nest, and are within the text's lines. */
function checkShape(folds, text) {
    const what = () => `${JSON.stringify(text)}\n${said(folds)}`
    const lines = text.split(/\r\n|\r|\n/).length
    folds.forEach((fold, i) => {
        const next = folds[i + 1]
        if (!(fold.startLine < fold.endLine && fold.endLine < lines)) throw new Error(`no lines: ${what()}`)
        if (next && !(fold.startLine < next.startLine || (fold.startLine === next.startLine && fold.endLine > next.endLine))) throw new Error(`no order: ${what()}`)
    })
    if (!nest(folds, 1) || !nest(folds.filter(({ kind }) => kind !== 'bracket'), 0)) throw new Error(`not nested: ${what()}`)
}

/** Whether any two folds are one within the other, or share no more than so many lines. They stand in order. */
function nest(folds, shared) {
    const open = []
    return folds.every(({ startLine, endLine }) => {
        while (open.length && open.at(-1) < startLine + shared) open.pop()
        const within = !open.length || endLine <= open.at(-1)
        open.push(endLine)
        return within
    })
}

function randomTexts() {
    const random = numbers(SEED)
    const kinds = { block: 0, bracket: 0, comments: 0 }
    for (let i = 0; i < TEXTS; i++) {
        const text = randomText(random)
        const folds = foldsIn(text)
        checkShape(folds, text)
        for (const kind in kinds) kinds[kind] += count(folds, kind)
        const document = new PythonDocument(text, MODULE_WITH_COMMENTS)
        const at = random.below(text.length + 1)
        if (!/[\udc00-\udfff]/.test(text[at] ?? '')) document.edit(at, at, random.of(['\n', '#', '(', ' ']))
        same(said(foldsOf(document.utf16(), document.text)), said(foldsIn(document.text)), () => JSON.stringify(text))
    }
    return `${TEXTS} texts: ${Object.entries(kinds).map(([kind, number]) => `${number} ${kind}`).join(', ')}`
}

// ---- beside the Rust crate

/** Python files below a folder. */
function* pythonFiles(folder) {
    for (const entry of readdirSync(folder, { withFileTypes: true })) {
        const path = join(folder, entry.name)
        if (entry.isDirectory()) yield* pythonFiles(path)
        else if (entry.isFile() && entry.name.endsWith('.py')) yield path
    }
}

/** The first files of the machine's Python library that can be read. */
function library() {
    const files = []
    for (const name of readdirSync('/usr/lib').filter((name) => /^python3(\.\d+)?$/.test(name))) {
        for (const path of pythonFiles(`/usr/lib/${name}`)) {
            if (files.length === FILES) return files
            const { code } = tokenize(readFileSync(path))
            if (code === 0 || code >= 20) files.push(path)
        }
    }
    return files
}

/** What both say of the same files. */
function compareRust(files) {
    if (files.length < 2) return 'there are none here'
    const { status, stdout, stderr } = spawnSync(RUST, files, { maxBuffer: 1 << 30 })
    if (status !== 0) throw new Error(`folds ended with status ${status}: ${stderr}`)
    const ours = files.map((file) => {
        const bytes = new Uint8Array(readFileSync(file))
        const text = new TextDecoder('utf-8', { ignoreBOM: true }).decode(bytes)
        const folds = foldsIn(text)
        checkShape(folds, text)
        return [file, ...(folds.length ? [said(folds)] : [])].join('\n')
    })
    const theirs = stdout.toString().trimEnd().split('\n')
    const lines = ours.join('\n').split('\n')
    const at = lines.findIndex((line, i) => line !== theirs[i])
    if (at >= 0 || lines.length !== theirs.length) throw new Error(`behind ${lines.slice(0, at).findLast((line) => line.startsWith('/'))}: ${lines[at]}, and ${theirs[at]}`)
    return `${files.length} files, ${theirs.length - files.length} folds`
}

function randomBesideRust() {
    const random = numbers(SEED + 1)
    const folder = mkdtempSync(join(tmpdir(), 'folds-'))
    try {
        const files = Array.from({ length: TEXTS }, (_, i) => join(folder, `${i}.py`))
        for (const file of files) writeFileSync(file, randomText(random))
        return compareRust(files)
    } finally {
        rmSync(folder, { recursive: true })
    }
}

await load(wasm())
await test('the table', table)
await test('a mode without comments', withoutComments)
await test('comments behind strings', behindStrings)
await test('any records', anyRecords)
await test('long texts', longTexts)
await test('random texts', randomTexts)
if (existsSync(RUST)) {
    await test('random texts beside the Rust crate', randomBesideRust)
    await test('Python files beside the Rust crate', () => compareRust(library()))
} else console.log('beside the Rust crate: its example is not built (bindings/rust/test)')
report()
