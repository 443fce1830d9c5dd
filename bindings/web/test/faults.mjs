// bindings/web/test/faults.mjs [TEXTS [SEED]]: what is said of faults, under Node: the drawn table (bindings/faults-cases.txt),
// what holds for random texts (20000), and what the Rust crate says of some of them, where its example `tokens` is built
// (bindings/rust/test). The last line is `N passed, N failed`; the status is 1 if any failed.
import { numbers, report, same, test } from './checks.mjs'
import { cases, encoded, texts, utf8 } from './drawn.mjs'
import { wasm } from './frames.mjs'
import { rustAtHand, toldByRust } from './rust.mjs'
import { faultOf } from '../faults.js'
import { placed } from '../sentences.js'
import { load, STRIDE, tokenize } from '../sroviemat.js'

const TEXTS = Number(process.argv[2] ?? 20_000)
const SEED = Number(process.argv[3] ?? 1)
const MODES = [0, 1, 2, 3, 4, 5]
const TABLE = new URL('../../faults-cases.txt', import.meta.url)

const inUnits = (reading, text) => faultOf({ code: reading.code, place: reading.placeUtf16, detail: reading.detail }, reading.utf16(), text)
const inBytes = (reading, bytes) => faultOf(reading, reading.records(), bytes)

// ---- the table

const said = ({ code, start, end, message }) => `${code} ${start}..${end} ${message}`

function table() {
    const all = cases(TABLE)
    if (all.length < 70) throw new Error(`only ${all.length} cases`)
    let asked = 0
    let strings = 0
    for (const { name: code, message, ...one } of all) {
        for (const { given, text, ...marked } of texts(one)) {
            for (const mode of MODES) {
                const what = () => `${one.title}: ${JSON.stringify(text ?? given.toString('latin1'))} in mode ${mode}`
                same(said(inBytes(tokenize(given, mode), given) ?? {}), said({ code, message, ...marked.inBytes }), what)
                asked++
                // A byte of no character has no string.
                if (text === null) continue
                same(said(inUnits(tokenize(text, mode), text) ?? {}), said({ code, message, ...marked.inUnits }), what)
                strings++
            }
        }
    }
    return `${all.length} cases, ${asked} texts and modes, ${strings} of them as strings too`
}

/** What the table cannot draw: too many levels, endings that are no fault. */
function others() {
    const levels = Array.from({ length: 102 }, (_, level) => `${' '.repeat(level)}if a:\n`).join('')
    same(said(inUnits(tokenize(levels), levels)), `33 ${levels.lastIndexOf('\n', levels.length - 2) + 1}..${levels.length - 6} Line 102 opens a 101st level of indentation; 100 are the most.`, () => 'levels')
    for (const code of [0, 1, 2, 4, 5, 6]) if (faultOf({ code, place: 0, detail: 0 }, [], '') !== null) throw new Error(`code ${code} is no fault`)
}

// ---- random texts

const PIECES = [
    ...'x|y1| |  |\t|\n|\n|\r|\r\n|\f|if a:\n |def f():\n\t|    y\n|match |case |type |=|==|(|)|[|]|{|}|:|,|...|.|lambda '.split('|'),
    ...'\'s\'|"|\'|\'\'\'|"""|u\'\'|rb\'\\\'\'|0x1|0x|1.e|1e5|1_0|0_7|00|1._|j|#c|#d\n|x # e\r\n|\n\n|\\|\\\n|!|!=|é|😀|中|\ufeff|$'.split('|'),
]

/** A fault is about a part of the text before the place or at it, the same in every mode and in bytes. */
function randomTexts() {
    const random = numbers(SEED)
    const causes = new Map()
    for (let i = 0; i < TEXTS; i++) {
        const text = Array.from({ length: random.below(20) }, () => random.of(PIECES)).join('')
        const reading = tokenize(text, 0)
        const fault = inUnits(reading, text)
        const what = () => JSON.stringify(text)
        if ((fault === null) !== reading.code < 20) throw new Error(`a fault or none: ${what()}`)
        if (!fault) continue
        causes.set(fault.cause, (causes.get(fault.cause) ?? 0) + 1)
        if (!(0 <= fault.start && fault.start < fault.end && fault.start <= reading.placeUtf16 && fault.end <= text.length)) throw new Error(`${said(fault)}: ${what()}`)
        if (/[{}]at|line}|text}|undefined|NaN/.test(fault.message)) throw new Error(`${fault.message}: ${what()}`)
        const encoded = new TextEncoder().encode(text)
        const other = inBytes(tokenize(encoded, 0), encoded)
        same(other.message, fault.message, what)
        same([other.start, other.end], [fault.start, fault.end].map((at) => utf8(text.slice(0, at))), what)
        const mode = 1 + random.below(5)
        const again = tokenize(text, mode)
        if (again.code === fault.code) same(said(inUnits(again, text)), said(fault), what)
    }
    return `${TEXTS} texts: ${[...causes].map(([cause, count]) => `${count} ${cause}`).join(', ')}`
}

/** Bytes of no character, to be cut by what stands behind them. */
const BYTES = ['80', 'a9', 'c0', 'c3', 'e080', 'e180', 'e9', 'eda0', 'f080', 'f09080', 'f490', 'f6'].map((hex) => Buffer.from(hex, 'hex'))

/** The Rust crate's line, column and sentence, and the marks below its line. Every third text has bytes in it that are no UTF-8. */
function besideRust() {
    const random = numbers(SEED + 2)
    const wanted = Math.min(TEXTS, 1_000)
    let faults = 0
    let ofBytes = 0
    while (faults < wanted) {
        const pieces = Array.from({ length: 1 + random.below(20) }, () => random.of(PIECES))
        if (random.below(3) === 0) pieces.splice(random.below(pieces.length), 1, random.of(BYTES))
        const given = Buffer.concat(pieces.map(encoded))
        const { code, text, fault } = tokenize(given, 3)
        if (!fault) continue
        faults++
        if (code === 3) ofBytes++
        // A wrong bracket may be told behind it.
        const { status, told } = toldByRust(given)
        const what = () => JSON.stringify(given.toString('latin1'))
        same(`${status} ${told[0]?.at} ${told[0]?.message}`, `1 ${placed(fault.at)} ${fault.message}`, what)
        const marked = text.slice(fault.start, fault.end).split(/\r\n|\r|\n/)[0]
        same(told[0].marks, `^${'~'.repeat(Math.max(0, [...marked].length - 1))}`, what)
    }
    return `${faults} faults, ${ofBytes} of them of bytes`
}

/** Records and answers of another text: no exception, and a span within the text. */
function anyRecords() {
    const random = numbers(SEED + 1)
    for (let i = 0; i < 5_000; i++) {
        const text = Array.from({ length: random.below(6) }, () => random.of(PIECES)).join('')
        const records = Uint32Array.from({ length: STRIDE * random.below(5) }, () => random.below(100))
        const fault = faultOf({ code: 20 + random.below(14), place: random.below(100), detail: random.below(0x10ffff) }, records, text)
        if (!(0 <= fault.start && fault.start <= fault.end && fault.end <= text.length)) throw new Error(`${said(fault)}: ${JSON.stringify(text)}`)
    }
}

/** A long text is gone through once. */
function longTexts() {
    const times = [250_000, 1_000_000].map((count) => {
        const text = 'x = 1\n'.repeat(count / 6) + '#\n'.repeat(count / 2) + '0'.repeat(count) + '1 '
        const reading = tokenize(text)
        const began = performance.now()
        same(inUnits(reading, text).cause, 'number', () => 'a long number')
        return performance.now() - began
    })
    return times.map((time) => `${time.toFixed(1)} ms`).join(', ')
}

await load(wasm())
await test('the table', table)
await test('what the table cannot draw', others)
await test('random texts', randomTexts)
await test('any records', anyRecords)
await test('long texts', longTexts)
if (rustAtHand()) await test('beside the Rust crate', besideRust)
else console.log('beside the Rust crate: its example is not built (bindings/rust/test)')
report()
