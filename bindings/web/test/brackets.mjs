// bindings/web/test/brackets.mjs [TEXTS [SEED]]: the bracket audit under Node: the door on any rows (20000), and what `audit` says of
// readings and of edited documents, both beside a plain statement of the rule; the drawn table (bindings/brackets-cases.txt); and
// what the Rust crate says of random texts, where its example `tokens` is built (bindings/rust/test). The last line is
// `N passed, N failed`; the status is 1 if any failed.
import { numbers, report, same, test } from './checks.mjs'
import { cases as drawnCases, texts } from './drawn.mjs'
import { wasm } from './frames.mjs'
import { rustAtHand, toldByRust } from './rust.mjs'
import { wrongBracketOf } from '../brackets.js'
import { ANSWER, CLOSERS, KIND, KINDS, OPENERS, STRIDE } from '../names.js'
import { placed } from '../sentences.js'
import { load, PythonDocument, tokenize } from '../sroviemat.js'

const TEXTS = Number(process.argv[2] ?? 20_000)
const SEED = Number(process.argv[3] ?? 1)
const MODES = [0, 1, 2, 3, 4, 5]
const TABLE = new URL('../../brackets-cases.txt', import.meta.url)
const MOST_OPEN = 200
const UNTOUCHED = 0xeeeeeeee

const encode = (text) => new TextEncoder().encode(text)
const kindsOf = (row) => [...row].filter((_, i) => i % STRIDE === 0)
const isPair = (opener, closer) => ['()', '[]', '{}'].includes((KINDS.get(opener) + KINDS.get(closer)).replaceAll('Operator ', ''))

/** The rule: the code and place of the answer, and which opener a wrong closer meets (undefined for none). */
function plainAudit(kinds) {
    const open = []
    for (const [place, kind] of kinds.entries()) {
        if (OPENERS.has(kind) && open.length === MOST_OPEN) return { code: 34, place }
        if (OPENERS.has(kind)) open.push(place)
        if (!CLOSERS.has(kind)) continue
        const met = open.pop()
        if (met === undefined || !isPair(kinds[met], kind)) return { code: 0, place, met }
    }
    return { code: 0, place: kinds.length }
}

// ---- the door itself

/** srv_audit on a row of so many numbers; the row and what lies behind it stay as they are. */
async function rawDoor() {
    const { exports } = (await WebAssembly.instantiate(wasm())).instance
    exports.memory.grow(1)
    const answerAt = exports.__heap_base.value + 16
    const rowAt = answerAt + 4 * ANSWER
    return (row, old) => {
        const lent = new Uint32Array(exports.memory.buffer, rowAt, row.length + 4).fill(UNTOUCHED)
        lent.set(row)
        const answer = new Uint32Array(exports.memory.buffer, answerAt, ANSWER).fill(UNTOUCHED)
        exports.srv_audit(rowAt, BigInt(row.length), old, answerAt)
        same(lent, [...row, ...Array(4).fill(UNTOUCHED)], () => 'the row was written')
        return answer
    }
}

const SIGNS = ['(', ')', '[', ']', '{', '}'].map((sign) => KIND[`Operator ${sign}`])

/** Kinds in any order, or mostly nested; deep ones come past 200. */
function randomKinds(random) {
    const opens = random.of([0, 30, 60, 97])
    const others = random.of([0, 20])
    const right = random.of([50, 100])
    const open = []
    return Array.from({ length: random.below(random.of([5, 12, 40, 400])) }, () => {
        if (random.below(100) < others) return random.of([0, 3, 7, 8, 56, 63, 255, 57 + 2 ** 16, 0xffffffff])
        if (random.below(100) < opens) open.push(random.of(SIGNS.filter((kind) => OPENERS.has(kind))))
        else return open.length && random.below(100) < right ? open.pop() + 1 : random.of(SIGNS)
        return open.at(-1)
    })
}

async function anyRows() {
    const door = await rawDoor()
    const random = numbers(SEED)
    const seen = new Map()
    for (let i = 0; i < TEXTS; i++) {
        const kinds = randomKinds(random)
        // Neither places nor lines are looked at.
        const row = [...kinds.flatMap((kind) => [kind, random.below(99), random.below(99), random.below(99)]), ...Array(random.below(STRIDE)).fill(SIGNS[1])]
        const old = random.below(4) ? kinds.length : random.below(kinds.length + 3)
        const what = () => `${kinds.join(' ')} old ${old}`
        if (old > kinds.length) {
            same(door(row, old), [5, 0, 0, 0], what)
            continue
        }
        const { code, place, met } = plainAudit(kinds.slice(0, old))
        same(door(row, old), [code, 0, place, 0], what)
        const name = code === 34 ? 'too-many' : place === old ? 'right' : met === undefined ? 'unopened' : 'mismatched'
        seen.set(name, (seen.get(name) ?? 0) + 1)
    }
    for (const name of ['right', 'unopened', 'mismatched', 'too-many']) if (!(seen.get(name) > TEXTS / 200)) throw new Error(`only ${seen.get(name)} ${name}`)
    return `${TEXTS} rows: ${[...seen].map(([name, many]) => `${many} ${name}`).join(', ')}`
}

// ---- what is said

/** A wrong bracket in a line: what is wrong, index, offsets, the opener's, and the sentence. */
function told(bracket) {
    if (!bracket) return 'null'
    const { fault, index, start, end, opener, at, message } = bracket
    const met = opener ? ` ${opener.index} ${opener.start}..${opener.end}` : ''
    if (!message.includes(` at ${at.line}:${at.column} `)) throw new Error(`${message} is not at ${at.line}:${at.column}`)
    return `${fault} ${index} ${start}..${end}${met}: ${message}`
}

const RIGHT = ['', 'x', '()', '([{}])', '()[]{}', '(\n[\n]\n)\n', 'f(")", [1])', 'f( # ]\n)', 'a[1](2){3}\n', '({[', "f('"]

const WRONG = [
    ['([)]', 'mismatched 2 2..3 1 1..2: `)` at 1:3 does not close `[` at 1:2, the latest bracket that is open.'],
    ['(]', 'mismatched 1 1..2 0 0..1: `]` at 1:2 does not close `(` at 1:1, the latest bracket that is open.'],
    ['{)', 'mismatched 1 1..2 0 0..1: `)` at 1:2 does not close `{` at 1:1, the latest bracket that is open.'],
    ['[}', 'mismatched 1 1..2 0 0..1: `}` at 1:2 does not close `[` at 1:1, the latest bracket that is open.'],
    // Only the first, and the opener that is open, not one that is closed.
    ['(]\n[)\n', 'mismatched 1 1..2 0 0..1: `]` at 1:2 does not close `(` at 1:1, the latest bracket that is open.'],
    ['{[]()]\n', 'mismatched 5 5..6 0 0..1: `]` at 1:6 does not close `{` at 1:1, the latest bracket that is open.'],
    ['()\n[]\nf({},\n  []}\n', 'mismatched 13 16..17 7 7..8: `}` at 4:5 does not close `(` at 3:2, the latest bracket that is open.'],
    // Characters of several bytes and of two halves, other line ends, a mark at the start.
    ['é = "😀", ([)]\n', 'mismatched 6 12..13 5 11..12: `)` at 1:12 does not close `[` at 1:11, the latest bracket that is open.'],
    ["x\r\ny = ['é',\r\n '😀')\r\n", 'mismatched 8 19..20 4 7..8: `)` at 3:5 does not close `[` at 2:5, the latest bracket that is open.'],
    ['\ufeff([)]', 'mismatched 2 3..4 1 2..3: `)` at 1:3 does not close `[` at 1:2, the latest bracket that is open.'],
    // Before a fault, whose closer is in no list.
    ['(])', 'mismatched 1 1..2 0 0..1: `]` at 1:2 does not close `(` at 1:1, the latest bracket that is open.'],
    ['([) $', 'mismatched 2 2..3 1 1..2: `)` at 1:3 does not close `[` at 1:2, the latest bracket that is open.'],
]

/** The same text as a document in the reader's memory, as one that another displaced, and as two readings. */
function* everywhere(text, mode) {
    const away = new PythonDocument(text, mode)
    yield new PythonDocument(text, mode)
    yield away
    yield tokenize(text, mode)
    yield tokenize(encode(text), mode)
}

function cases() {
    for (const [text, wanted] of [...RIGHT.map((text) => [text, 'null']), ...WRONG]) {
        for (const mode of MODES) {
            for (const reading of everywhere(text, mode)) {
                const what = () => `${JSON.stringify(text)} in mode ${mode}`
                // With comments the newlines within brackets are records too.
                const unnumbered = (words) => (mode < 3 ? words : words.replace(/^(\S+) \d+ (\S+) \d+/, '$1 $2'))
                same(unnumbered(told(reading.audit())), unnumbered(wanted), what)
                if (reading.audit() !== reading.audit()) throw new Error(`${what()}: worked out twice`)
            }
        }
    }
    same(told(tokenize('f( # ]\n [)]', 3).audit()), 'mismatched 5 9..10 4 8..9: `)` at 2:3 does not close `[` at 2:2, the latest bracket that is open.', () => 'with comments')
    return `${RIGHT.length} right, ${WRONG.length} wrong`
}

/** The drawn table, as strings and as bytes. */
function table() {
    const all = drawnCases(TABLE)
    let asked = 0
    for (const one of all) {
        for (const { given, text, inUnits } of texts(one)) {
            for (const mode of MODES) {
                for (const reading of [tokenize(text, mode), tokenize(given, mode), new PythonDocument(text, mode)]) {
                    const { fault, start, end, message } = reading.audit() ?? {}
                    same(`${fault} ${start}..${end} ${message}`, `${one.name} ${inUnits.start}..${inUnits.end} ${one.message}`, () => `${one.title}: ${JSON.stringify(text)} in mode ${mode}`)
                    asked++
                }
            }
        }
    }
    return `${all.length} cases, ${asked} audits`
}

/** No reading lists a closer that meets nothing: it is the reading's own fault. The sentence is there for any other list. */
function unopened() {
    for (const text of [')', 'x]\n', '()}', '([]))']) {
        const reading = tokenize(text)
        same([reading.code, reading.fault.cause, reading.audit()], [22, 'closer', null], () => text)
    }
    const bracket = wrongBracketOf({ code: 0, place: 7 }, Uint32Array.of(57, 0, 1, 8, 58, 1, 2, 8, 60, 2, 3, 8), '()]')
    same(told(bracket), 'unopened 7 2..3: `]` at 9:3 closes no bracket.', () => 'a list of another')
    for (const text of ['x'.repeat(17_000_000), Uint8Array.of(0x28, 0x5d, 0xff)]) same([tokenize(text).audit()], [null], () => 'what is not read has no brackets')
    same([tokenize('(]', 6).audit(), new PythonDocument('(]', 6).audit()], [null, null], () => 'a mode that there is not')
    same([new PythonDocument('x'.repeat(17_000_000)).audit()], [null], () => 'a document that is too long')
}

function depths() {
    const open = (many) => '([{'.repeat(67).slice(0, many)
    const closed = (opened) => [...opened].reverse().map((sign) => ')]}'['([{'.indexOf(sign)]).join('')
    const tooMany = (sign, index) => `too-many ${index} ${index}..${index + 1}: \`${sign}\` at 1:${index + 1} is the 201st bracket that is open; 200 are the most.`
    for (const [text, wanted] of [
        [open(200), 'null'],
        [open(200) + closed(open(200)), 'null'],
        [open(200) + closed(open(200).slice(100)) + open(200).slice(100), 'null'],
        [open(201), tooMany('{', 200)],
        [open(201) + closed(open(201)), tooMany('{', 200)],
        [`${open(200)}][(`, tooMany('(', 202)],
        // Whichever comes first.
        [`${open(200)}}((`, 'mismatched 200 200..201 199 199..200: `}` at 1:201 does not close `[` at 1:200, the latest bracket that is open.'],
        [`${open(201)}]`, tooMany('{', 200)],
    ]) {
        for (const reading of everywhere(text, 0)) same(told(reading.audit()), wanted, () => text)
    }
    same(told(tokenize(`é = '😀'\n${open(201)}`).audit()), 'too-many 204 209..210: `{` at 2:201 is the 201st bracket that is open; 200 are the most.', () => 'offsets')
}

/** Readings and documents that are audited later, in another order: each has its own records. */
function apart() {
    const made = WRONG.flatMap(([text, wanted]) => [[tokenize(text), wanted], [new PythonDocument(text), wanted], [tokenize('([])'), 'null']])
    for (const [reading, wanted] of made.toReversed()) same(told(reading.audit()), wanted, () => JSON.stringify(reading.text))
    return `${made.length} audits`
}

// ---- random texts and edits

const PIECES = ['x', ' ', '\n', '\n', '\r\n', ', ', '()', '[]', '{}', '(', ')', '[', ']', '{', '}', 'é', '中', '"😀"', '# )\n', '# [', 'with a:\n b\n', '\ufeff', '$', '\\\n']

/** What `audit` must say of a reading, by all of its records. */
function plainly(reading) {
    const row = reading.utf16()
    const { code, place, met } = plainAudit(kindsOf(row))
    if (place === row.length / STRIDE) return 'null'
    const start = row[STRIDE * place + 1]
    const at = (offset) => (({ line, column }) => `${line}:${column}`)(reading.positionOf(offset))
    const sign = `\`${reading.text[start]}\` at ${at(start)}`
    if (code === 34) return `too-many ${place} ${start}..${start + 1}: ${sign} is the 201st bracket that is open; 200 are the most.`
    const opened = row[STRIDE * met + 1]
    return `mismatched ${place} ${start}..${start + 1} ${met} ${opened}..${opened + 1}: ${sign} does not close \`${reading.text[opened]}\` at ${at(opened)}, the latest bracket that is open.`
}

/** Several documents in turn, each with a reading of its text; what is asked of one displaces another. */
function edits() {
    const random = numbers(SEED)
    const made = () => new PythonDocument(Array.from({ length: random.below(25) }, () => random.of(PIECES)).join(''), random.below(MODES.length))
    const documents = Array.from({ length: 3 }, made)
    const turns = Math.min(TEXTS, 6_000)
    let wrong = 0
    let changed = 0
    for (let i = 0; i < turns; i++) {
        if (random.below(15) === 0) documents[random.below(3)] = made()
        const document = documents[random.below(3)]
        const before = document.audit()
        const places = [...document.text].reduce((all, character) => [...all, all.at(-1) + character.length], [0])
        const from = random.below(places.length)
        document.edit(places[from], places[Math.min(places.length - 1, from + random.below(3))], random.of(PIECES))
        const what = () => `${JSON.stringify(document.text)} in mode ${document.mode}`
        same(told(document.audit()), plainly(document), what)
        same(told(tokenize(document.text, document.mode).audit()), plainly(document), what)
        const other = random.of(documents)
        same(told(other.audit()), plainly(other), what)
        if (document.audit()) wrong++
        if (!document.audit() !== !before) changed++
    }
    if (!(wrong > turns / 10 && changed > turns / 40)) throw new Error(`only ${wrong} wrong, ${changed} changed`)
    return `${turns} edits, ${wrong} with a wrong bracket, ${changed} that broke or mended one`
}

/** The Rust crate's line, column and sentence, behind those of the fault if there is one, and the mark below its line. */
function besideRust() {
    const random = numbers(SEED + 1)
    const wanted = Math.min(TEXTS, 500)
    let wrong = 0
    let right = 0
    while (wrong < wanted) {
        const text = Array.from({ length: 1 + random.below(20) }, () => random.of(PIECES)).join('')
        const reading = tokenize(text, 3)
        const bracket = reading.audit()
        if (!bracket && right === wanted) continue
        const ours = [reading.fault, bracket].filter(Boolean)
        const { status, told } = toldByRust(text)
        const what = () => JSON.stringify(text)
        same([status, ...told.map(({ at, message }) => `${at} ${message}`)], [ours.length ? 1 : 0, ...ours.map(({ at, message }) => `${placed(at)} ${message}`)], what)
        if (bracket) same(told.at(-1).marks, '^', what)
        bracket ? wrong++ : right++
    }
    return `${wrong} texts with a wrong bracket, ${right} without`
}

function mended() {
    const document = new PythonDocument('x = ([1, 2])\ny = 3\n')
    same([document.audit()], [null], () => 'right')
    document.edit(10, 12, ')]')
    same(told(document.audit()), 'mismatched 7 10..11 3 5..6: `)` at 1:11 does not close `[` at 1:6, the latest bracket that is open.', () => 'broken')
    same([document.code, document.fault], [0, null], () => 'the reading does not change')
    document.edit(0, 0, "'é😀'\n")
    same(told(document.audit()), 'mismatched 9 16..17 5 11..12: `)` at 2:11 does not close `[` at 2:6, the latest bracket that is open.', () => 'moved')
    document.edit(16, 18, '])')
    same([document.audit()], [null], () => 'mended')
}

/** A megabyte: what an editor asks after each key, and how long that takes. */
function figures() {
    const line = '    colour = texture("f12r.png", [3])  # é gold\n'
    const document = new PythonDocument(`with gold:\n${line.repeat(22_000)}`, 3)
    const turns = 50
    const times = { right: 0, wrong: 0 }
    for (let i = 0; i < turns; i++) {
        for (const [name, text] of [['wrong', '([)]'], ['right', '([])']]) {
            document.edit(11 + line.length * 22_000, document.text.length, text)
            const began = performance.now()
            const bracket = document.audit()
            times[name] += performance.now() - began
            same([bracket?.at.line], [name === 'wrong' ? 22_002 : undefined], () => name)
        }
    }
    return `${document.count} records: ${Object.entries(times).map(([name, time]) => `${name} ${(time / turns).toFixed(3)} ms`).join(', ')}`
}

await load(wasm())
await test('the door on any rows', anyRows)
await test('cases', cases)
await test('the table', table)
await test('closers that meet nothing', unopened)
await test('200 open brackets', depths)
await test('audits afterwards', apart)
await test('broken and mended', mended)
await test('edits of documents', edits)
await test('a megabyte', figures)
if (rustAtHand()) await test('beside the Rust crate', besideRust)
else console.log('beside the Rust crate: its example is not built (bindings/rust/test)')
report()
