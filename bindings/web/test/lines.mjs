// bindings/web/test/lines.mjs [TEXTS [SEED]]: the line of each record under Node, beside a plain count of line ends: of random texts
// (3000) with LF, CR, CR LF and all of them, in all modes, as strings and as bytes, and of edited documents; and what the door
// srv_reread makes of rows whose lines were altered. The last line is `N passed, N failed`; the status is 1 if any failed.
import { numbers, report, same, test } from './checks.mjs'
import { wasm } from './frames.mjs'
import { ANSWER, KIND, sortOf } from '../names.js'
import { load, PythonDocument, STRIDE, tokenize } from '../sroviemat.js'

const TEXTS = Number(process.argv[2] ?? 3_000)
const SEED = Number(process.argv[3] ?? 1)
const MODES = [0, 1, 2, 3, 4, 5]
const NAMES = { '\n': 'LF', '\r': 'CR', '\r\n': 'CR LF' }
const EVERY_END = Object.keys(NAMES)
const UNSOUND = [6, 0, 0, 0]

const encode = (text) => new TextEncoder().encode(text)
const latin1 = (bytes) => Buffer.from(bytes).toString('latin1')
const isInside = (text, at) => /[\udc00-\udfff]/.test(text[at] ?? '')

// ---- the rule, plainly

const LINE_END = /\r\n|\r|\n/g

/** Where the line ends of letters end: LF, CR LF as one, and a lone CR. */
const endsOf = (letters) => Array.from(letters.matchAll(LINE_END), (end) => end.index + end[0].length)

/** The line of a place: how many line ends end at or before it. */
const lineAt = (ends, place) => ends.filter((end) => end <= place).length

/** The records of a row: kind, start, end, line. */
const recordsOf = (row) => Array.from({ length: row.length / STRIDE }, (_, i) => row.slice(STRIDE * i, STRIDE * (i + 1)))

/** The lines of a row. */
const linesOf = (row) => recordsOf(row).map((record) => record[3])

/** The lines that a row should have, whose places are those of these letters. */
function plainLines(row, letters) {
    const ends = endsOf(letters)
    return recordsOf(row).map(([, start]) => lineAt(ends, start))
}

// ---- texts

/** What stands in lines, with a sign for each line end within. */
const PIECES = [
    ...['x = 1', 'é = "中😀"', '# ü', '', '', '  ', '\f', '    y', '\tz', 'match x:', 'type X = 1', 'if a: b  # c', 'if a:⏎    b⏎    # c⏎'],
    ...["'''a⏎b⏎'''", 'f("""⏎"""), c', "'a\\⏎b' + d", 'rb"a\\⏎b"', 'f(1,⏎  2)', '[⏎# c⏎⏎]', 'x = 1 + \\⏎  2', '\\⏎y', 'def f(⏎):⏎  return """⏎⏎"""'],
]

const FAULTS = ['$', ')', '(', "'s", "'''s", '\\']

/** A text whose line ends are of one sort or of all. */
function randomText(random) {
    const ends = random.of([...EVERY_END.map((end) => [end]), EVERY_END])
    const lines = Array.from({ length: random.below(9) }, () => random.of(random.below(40) ? PIECES : FAULTS))
    return random.of(['', '', '\ufeff']) + (lines.join('⏎') + random.of(['', '⏎'])).replace(/⏎/g, () => random.of(ends))
}

/** What was met: each must have been. */
class Tally {
    #met = new Map()

    add(name, many = 1) {
        this.#met.set(name, (this.#met.get(name) ?? 0) + many)
    }

    said(...names) {
        for (const name of names) if (!this.#met.get(name)) throw new Error(`no ${name}`)
        return names.map((name) => `${this.#met.get(name)} ${name}`).join(', ')
    }
}

/** A reading's lines are right: in bytes, in UTF-16 and of tokens, and as `positionOf` counts them. */
function checkLines(reading, tally) {
    const { text, mode } = reading
    const what = () => `${JSON.stringify(text)} in mode ${mode}`
    const [bytes, units] = [reading.records(), reading.utf16()]
    const wanted = plainLines(bytes, latin1(encode(text)))
    same(linesOf(bytes), wanted, what)
    same(linesOf(units), wanted, what)
    same(plainLines(units, text), wanted, what)
    same(Array.from(reading, ({ line }) => line), wanted, what)
    same(recordsOf(units).map(([, start]) => reading.positionOf(start).line - 1), wanted, what)
    tally.add('records', wanted.length)
    for (const [end] of text.matchAll(LINE_END)) tally.add(NAMES[end])
    for (const { kind, text: letters } of reading) if (sortOf(kind) === 'string' && /[\r\n]/.test(letters)) tally.add('strings over lines')
    if (/\\[\r\n]/.test(text)) tally.add('texts with continuations')
    tally.add(reading.code === 0 ? 'read to the end' : 'with a fault')
}

const MET = ['records', ...Object.values(NAMES), 'strings over lines', 'texts with continuations', 'read to the end', 'with a fault']

function readings() {
    const random = numbers(SEED)
    const tally = new Tally()
    for (let i = 0; i < TEXTS; i++) {
        const text = randomText(random)
        for (const mode of MODES) for (const given of [text, encode(text)]) checkLines(tokenize(given, mode), tally)
    }
    return tally.said(...MET)
}

/** Edits that put line ends in and take them out, between CR and LF too; no row that was written is ever refused. */
function edits() {
    const random = numbers(SEED + 1)
    const tally = new Tally()
    for (let i = 0; i < TEXTS; i++) {
        const document = new PythonDocument(randomText(random), random.of(MODES))
        for (let turn = 0; turn < 6; turn++) {
            const { text } = document
            const from = random.below(text.length + 1)
            const to = Math.min(text.length, from + random.of([0, 0, 1, 2, 9]))
            if (isInside(text, from) || isInside(text, to)) continue
            if (text[from - 1] === '\r' && text[to] === '\n') tally.add('between CR and LF')
            document.edit(from, to, random.of([...EVERY_END, 'x', '', randomText(random)]))
            if (document.code >= 1 && document.code <= 6) throw new Error(`code ${document.code}: ${JSON.stringify(document.text)}`)
            checkLines(document, tally)
            tally.add('edits')
        }
    }
    return tally.said('edits', 'between CR and LF', ...MET)
}

// ---- the doors themselves

async function rawDoors() {
    const { exports } = (await WebAssembly.instantiate(wasm())).instance
    exports.memory.grow(1)
    const answerAt = exports.__heap_base.value + 16
    const textAt = answerAt + 4 * ANSWER
    const ask = (text, row, question) => {
        const rowAt = textAt + Math.ceil(text.length / 4) * 4
        new Uint8Array(exports.memory.buffer, textAt, text.length).set(text)
        const lent = new Uint32Array(exports.memory.buffer, rowAt, row.length)
        lent.set(row)
        question(rowAt, BigInt(text.length), BigInt(row.length))
        return { answer: [...new Uint32Array(exports.memory.buffer, answerAt, ANSWER)], row: [...lent] }
    }
    return {
        read: (text, mode, start, row) => ask(text, row, (rowAt, bytes, room) => exports.srv_read(textAt, bytes, mode, start, rowAt, room, answerAt)),
        reread: (text, mode, row, old, a) => ask(text, row, (rowAt, bytes, room) => exports.srv_reread(textAt, bytes, mode, rowAt, room, old, a, answerAt)),
    }
}

/** The number that is added to places is not added to lines. */
async function starts() {
    const { read } = await rawDoors()
    const random = numbers(SEED + 2)
    for (let i = 0; i < TEXTS; i++) {
        const text = encode(randomText(random))
        const mode = random.of(MODES)
        const start = random.of([1, 5, 0xffff0000])
        const wanted = tokenize(text, mode).records()
        const { row } = read(text, mode, start, new Uint32Array(wanted.length))
        same(row, recordsOf(wanted).flatMap(([kind, from, to, line]) => [kind, start + from, start + to, line]), () => `${JSON.stringify(latin1(text))} in mode ${mode} at ${start}`)
    }
    return `${TEXTS} texts`
}

/** The index of the cut: the last Newline among the first `old` records that ends below `a`; -1 for none. */
const cutOf = (records, old, a) => records.slice(0, old).findLastIndex(([kind, , end]) => kind === KIND.Newline && end < a)

/** A cut whose line is another is refused; any other kept record stays as it was given, and what is read on has its lines from the text. */
async function alteredRows() {
    const { reread } = await rawDoors()
    const random = numbers(SEED + 3)
    const tally = new Tally()
    for (let i = 0; i < 4 * TEXTS; i++) {
        const text = encode(randomText(random))
        const mode = random.of(MODES)
        const records = recordsOf([...tokenize(text, mode).records()])
        const a = random.below(text.length + 1)
        const old = random.below(3) ? records.length : random.below(records.length + 1)
        const cut = cutOf(records, old, a)
        const given = records.map((record) => [...record])
        const altered = given.length ? random.below(given.length) : -1
        if (altered >= 0) given[altered][3] = random.of([given[altered][3] + 1, given[altered][3] - 1, 0xffffffff, 0]) >>> 0
        const what = () => `${JSON.stringify(latin1(text))} in mode ${mode} old ${old} a ${a} record ${altered} with line ${given[altered]?.[3]}`
        const { answer, row } = reread(text, mode, given.flat(), old, a)
        if (cut >= 0 && given[cut][3] !== records[cut][3]) {
            same(answer, UNSOUND, what)
            same(row, given.flat(), what)
            tally.add('refused')
            continue
        }
        same([answer[0] === 0 || answer[0] >= 20], [true], what)
        same(row, records.map((record, i) => (i <= cut ? given[i] : record)).flat(), what)
        if (altered >= 0 && altered < cut && given[altered][3] !== records[altered][3]) tally.add('kept as given')
        if (altered > cut && given[altered][3] !== records[altered][3]) tally.add('read again')
    }
    return tally.said('refused', 'kept as given', 'read again')
}

await load(wasm())
await test('readings', readings)
await test('edits of documents', edits)
await test('other starts', starts)
await test('altered rows', alteredRows)
report()
