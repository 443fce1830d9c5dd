// bindings/web/test/bytes.mjs [TEXTS [SEED]]: what is said of bytes that are no UTF-8, under Node: each fault by cases, all short
// texts of the bytes at the borders, and random texts (20000), beside a plain statement of the faults. The last line is
// `N passed, N failed`; the status is 1 if any failed.
import { readFileSync } from 'node:fs'
import { numbers, report, same, test } from './checks.mjs'
import { wasm } from './frames.mjs'
import { faultOf } from '../faults.js'
import { ANSWER, BYTES, HINTS, SHOWN } from '../names.js'
import { load, tokenize } from '../sroviemat.js'

const TEXTS = Number(process.argv[2] ?? 20_000)
const SEED = Number(process.argv[3] ?? 1)
const MODES = [0, 1, 2, 3, 4, 5]
const CARD = new URL('../../../examples/latin-1/old_card.py', import.meta.url)
const TWO = new Set(['overlong', 'surrogate', 'too-large'])

const bytesOf = (hex) => Uint8Array.from(hex.split(' ').filter(Boolean), (byte) => parseInt(byte, 16))
const encode = (text) => new TextEncoder().encode(text)
const latin1 = (text) => Uint8Array.from(text, (character) => character.codePointAt(0))
const shown = (bytes) => () => Buffer.from(bytes).toString('hex').slice(-80)
const joined = (...parts) => new Uint8Array(Buffer.concat(parts))

// ---- the faults, plainly

/** A character of UTF-8, and each fault where none stands, with a letter for each byte. The first that matches decides. */
const CHARACTER =
    /[\0-\x7f]|[\xc2-\xdf][\x80-\xbf]|\xe0[\xa0-\xbf][\x80-\xbf]|[\xe1-\xec\xee\xef][\x80-\xbf]{2}|\xed[\x80-\x9f][\x80-\xbf]|\xf0[\x90-\xbf][\x80-\xbf]{2}|[\xf1-\xf3][\x80-\xbf]{3}|\xf4[\x80-\x8f][\x80-\xbf]{2}/y
const FAULTS = [
    ['stray', /[\x80-\xbf]/y],
    ['unused', /[\xc0\xc1\xf5-\xff]/y],
    ['overlong', /\xe0[\x80-\x9f]|\xf0[\x80-\x8f]/y],
    ['surrogate', /\xed[\xa0-\xbf]/y],
    ['too-large', /\xf4[\x90-\xbf]/y],
    ['cut-by-end', /[\xc2-\xf4][\x80-\xbf]*$/y],
    ['cut-by-byte', /[\xc2-\xf4][\x80-\xbf]*/y],
]
const NUMBERS = new Map(BYTES.map(([number, name]) => [name, number]))

/** The first fault of bytes: its number, name, and where it starts and ends; null where there is none. */
function plainly(bytes) {
    const letters = Buffer.from(bytes).toString('latin1')
    const ends = (pattern, at) => ((pattern.lastIndex = at), pattern.test(letters) ? pattern.lastIndex : -1)
    let start = 0
    for (let end; start < letters.length && (end = ends(CHARACTER, start)) > 0; ) start = end
    if (start === letters.length) return null
    const [name, pattern] = FAULTS.find(([, pattern]) => ends(pattern, start) > 0)
    return { number: NUMBERS.get(name), name, start, end: ends(pattern, start) }
}

// ---- what is asked

let door

/** What srv_measure answers. */
function measured(bytes, mode) {
    const at = door.__heap_base.value + 16
    const short = at + 4 * ANSWER + bytes.length - door.memory.buffer.byteLength
    if (short > 0) door.memory.grow(Math.ceil(short / 65_536))
    new Uint8Array(door.memory.buffer).set(bytes, at + 4 * ANSWER)
    door.srv_measure(at + 4 * ANSWER, BigInt(bytes.length), mode, 0, at)
    return [...new Uint32Array(door.memory.buffer, at, ANSWER)]
}

/** Bytes are read and measured, and what is said of them is right in bytes and in UTF-16; the fault in bytes, or null. */
function asked(bytes, mode = 0) {
    const wanted = plainly(bytes)
    const reading = tokenize(bytes, mode)
    const what = shown(bytes)
    if (!wanted) {
        if (reading.code === 3) throw new Error(`UTF-8 was refused: ${what()}`)
        return null
    }
    const answer = [3, 0, wanted.start, wanted.number]
    same([reading.code, reading.count, reading.place, reading.detail], answer, what)
    same(measured(bytes, mode), answer, what)
    const fault = faultOf(reading, reading.records(), bytes)
    same([fault.code, fault.cause, fault.bytes, fault.start, fault.end, fault.origin], [3, 'bytes', wanted.name, wanted.start, wanted.end, null], what)
    compareUtf16(reading, fault, bytes)
    return fault
}

/** The reading's own fault is the same in offsets of its text, which has U+FFFD there. */
function compareUtf16(reading, inBytes, bytes) {
    const before = new TextDecoder('utf-8', { ignoreBOM: true }).decode(bytes.subarray(0, inBytes.start))
    const { start, end, ...other } = reading.fault
    same([start, end], [before.length, before.length + (TWO.has(inBytes.bytes) ? 2 : 1)], shown(bytes))
    same(reading.text.slice(0, end), before + '\ufffd'.repeat(end - start), shown(bytes))
    same([reading.placeUtf16], [start], shown(bytes))
    const { start: _, end: __, ...wanted } = inBytes
    same(JSON.stringify(other), JSON.stringify(wanted), shown(bytes))
    const lines = before.replace(/^\ufeff/, '').split(/\r\n|\r|\n/)
    same([other.at.line, other.at.column], [lines.length, [...lines.at(-1)].length + 1], shown(bytes))
}

// ---- cases

/** Bytes, the fault's name, how many of them it has, and the character of Latin-1 that is asked about. */
const CASES = [
    ['80', 'stray', 1, null], ['80 80', 'stray', 1, null], ['9F', 'stray', 1, null], ['A0', 'stray', 1, null], ['A1', 'stray', 1, '¡'],
    ['AC', 'stray', 1, '¬'], ['AD', 'stray', 1, null], ['AE', 'stray', 1, '®'], ['BF', 'stray', 1, '¿'], ['BF BF', 'stray', 1, null], ['BF C0', 'stray', 1, '¿'],
    ['C0', 'unused', 1, 'À'], ['C0 80', 'unused', 1, null], ['C1 41', 'unused', 1, 'Á'], ['F5', 'unused', 1, 'õ'], ['F6', 'unused', 1, 'ö'],
    ['F7 80 80 80', 'unused', 1, null], ['F8', 'unused', 1, 'ø'], ['FE', 'unused', 1, 'þ'], ['FF', 'unused', 1, 'ÿ'], ['FF FF', 'unused', 1, 'ÿ'],
    ['C2', 'cut-by-end', 1, 'Â'], ['D7', 'cut-by-end', 1, '×'], ['E0', 'cut-by-end', 1, 'à'], ['E9', 'cut-by-end', 1, 'é'], ['ED 9F', 'cut-by-end', 2, null],
    ['E1 80', 'cut-by-end', 2, null], ['F0 90', 'cut-by-end', 2, null], ['F1 80 80', 'cut-by-end', 3, null], ['F4 8F BF', 'cut-by-end', 3, null],
    ['C3 28', 'cut-by-byte', 1, 'Ã'], ['D7 33', 'cut-by-byte', 1, '×'], ['E9 0A', 'cut-by-byte', 1, 'é'], ['E0 41', 'cut-by-byte', 1, 'à'], ['E1 80 41', 'cut-by-byte', 2, null],
    ['F0 C0', 'cut-by-byte', 1, 'ð'], ['F0 90 80 0D', 'cut-by-byte', 3, null], ['E2 82 C3 A9', 'cut-by-byte', 2, null], ['ED C0', 'cut-by-byte', 1, 'í'], ['F4 FF', 'cut-by-byte', 1, 'ô'],
    ['E0 80', 'overlong', 2, null], ['E0 9F BF', 'overlong', 2, null], ['F0 80', 'overlong', 2, null], ['F0 8F BF BF', 'overlong', 2, null],
    ['ED A0', 'surrogate', 2, null], ['ED A0 80', 'surrogate', 2, null], ['ED BF 41', 'surrogate', 2, null],
    ['F4 90', 'too-large', 2, null], ['F4 90 80 80', 'too-large', 2, null], ['F4 BF 41', 'too-large', 2, null],
]

/** What may stand before: nothing, a BOM, line ends, characters of each length, and so much that offsets are counted in steps. */
const BEFORE = ['', '\ufeff', 'x = 1\n', '\ufeffé\r\n中😀', '\r', '\r\n', `\ufeff${'# é中😀\r\n'.repeat(3_000)}x😀`, 'a😀'.repeat(3_000), 'é\r'.repeat(3_000)]

function cases() {
    for (const [hex, name, length, character] of CASES) {
        for (const before of BEFORE) {
            const start = encode(before)
            const bytes = joined(start, bytesOf(hex))
            for (const mode of before.length > 99 ? [3] : MODES) {
                const fault = asked(bytes, mode)
                same([fault.bytes, fault.start, fault.end, fault.latin1], [name, start.length, start.length + length, character], shown(bytes))
            }
        }
    }
    return `${CASES.length} cases, ${BEFORE.length} texts before each`
}

const SENTENCES = [
    ['80', 'Byte 80 at 1:1 is not UTF-8: it continues a character, and none is open there.'],
    ['78 0D 0A F5 80', 'Byte F5 at 2:1 is not UTF-8: no character has this byte.'],
    ['C3 A9 E1 80', 'Byte E1 at 1:2 is not UTF-8: it begins a character that the end of the text cuts off.'],
    ['23 E1 80 0A', 'Byte E1 at 1:2 is not UTF-8: it begins a character that byte 0A cuts off.'],
    ['E0 80', 'Bytes E0 80 at 1:1 are not UTF-8: they begin a character in more bytes than it takes.'],
    ['EF BB BF ED A0 80', 'Bytes ED A0 at 1:1 are not UTF-8: they begin a surrogate, which is no character.'],
    ['0A 20 F4 90', "Bytes F4 90 at 2:2 are not UTF-8: they begin a number above 10FFFF, the last character's."],
    ['78 0A E9 74 E9 0A', 'Byte E9 at 2:1 is not UTF-8: it begins a character that byte 74 cuts off. Byte E9 alone is é in Latin-1: is the file in that encoding?'],
    ['FF FE 78 00', 'Byte FF at 1:1 is not UTF-8: no character has this byte. A text in UTF-16 begins so: is the file in that encoding?'],
    ['FE FF 00 78', 'Byte FE at 1:1 is not UTF-8: no character has this byte. A text in UTF-16 begins so: is the file in that encoding?'],
    ['78 FF FE', 'Byte FF at 1:2 is not UTF-8: no character has this byte. Byte FF alone is ÿ in Latin-1: is the file in that encoding?'],
    ['32 D7', 'Byte D7 at 1:2 is not UTF-8: it begins a character that the end of the text cuts off. Byte D7 alone is × in Latin-1: is the file in that encoding?'],
]

function sentences() {
    for (const [hex, message] of SENTENCES) same(asked(bytesOf(hex)).message, message, () => hex)
    const card = readFileSync(CARD)
    const { message, at } = tokenize(card).fault
    same(message, 'Byte E9 at 2:27 is not UTF-8: it begins a character that byte 65 cuts off. Byte E9 alone is é in Latin-1: is the file in that encoding?', () => 'the card')
    same([at.line, at.column], [2, 27], () => 'the card')
    const text = new TextDecoder('latin1').decode(card)
    same([tokenize(text).code, text.split('é').length], [0, 2], () => 'the card as Latin-1')
}

/** The character is asked about exactly where it is above ASCII, is shown, and stands alone. */
function hints() {
    const isShown = (byte) => SHOWN.some(([first, last]) => first <= byte && byte <= last)
    const wanted = [...Array(0xac - 0xa0).keys()].map((i) => 0xa1 + i).concat([...Array(0x100 - 0xae).keys()].map((i) => 0xae + i))
    same(Array.from({ length: 128 }, (_, i) => 0x80 + i).filter(isShown), wanted, () => 'the characters of Latin-1 that are shown')
    for (let byte = 0x80; byte < 0x100; byte++) {
        const character = wanted.includes(byte) ? String.fromCharCode(byte) : null
        for (const behind of [[], [0x0a], [0x7f], [0xc0], [0xff], [byte]]) {
            const fault = asked(Uint8Array.of(0x78, byte, ...behind))
            const alone = !behind.some((next) => next >= 0x80 && next < 0xc0)
            same([fault.latin1, fault.message.includes('Latin-1')], alone && character ? [character, true] : [null, false], shown([byte, ...behind]))
            if (fault.latin1 && !fault.message.endsWith(` ${HINTS.latin1.replace('{byte}', byte.toString(16).toUpperCase()).replace('{text}', character)}`)) throw new Error(fault.message)
        }
        if (byte < 0xc0) continue
        for (const next of [0x80, 0xbf]) same([asked(Uint8Array.of(byte, next, 0x0a, 0x80)).latin1], [null], shown([byte, next]))
    }
}

// ---- all short texts, and random ones

const BORDERS = [0x00, 0x41, 0x7f, 0x80, 0x8f, 0x90, 0x9f, 0xa0, 0xbf, 0xc0, 0xc1, 0xc2, 0xdf, 0xe0, 0xe1, 0xec, 0xed, 0xee, 0xef, 0xf0, 0xf1, 0xf3, 0xf4, 0xf5, 0xff]

function shortTexts() {
    const found = new Map()
    let count = 0
    const ask = (...bytes) => {
        const fault = asked(Uint8Array.from(bytes))
        count++
        if (fault) found.set(fault.bytes, (found.get(fault.bytes) ?? 0) + 1)
    }
    for (let a = 0; a < 256; a++) for (let b = 0; b < 256; b++) ask(a, b)
    for (const a of BORDERS) for (const b of BORDERS) for (const c of BORDERS) ask(a, b, c)
    for (const a of BORDERS.filter((byte) => byte >= 0xe0)) for (const b of BORDERS) for (const c of BORDERS) for (const d of BORDERS) ask(a, b, c, d)
    same([found.size], [BYTES.length], () => 'faults found')
    return `${count} texts: ${[...found].map(([name, many]) => `${many} ${name}`).join(', ')}`
}

const PIECES = ['x', ' ', '\n', '\r', '\r\n', '\ufeff', 'é', 'ÿ', '中', '\uffff', '😀', "'", '# ', '\t', '\ufffd'].map(encode)

function randomTexts() {
    const random = numbers(SEED)
    let faults = 0
    for (let i = 0; i < TEXTS; i++) {
        const wild = () => Uint8Array.from({ length: 1 + random.below(3) }, () => random.of(BORDERS))
        const bytes = joined(...Array.from({ length: random.below(30) }, () => (random.below(25) ? random.of(PIECES) : wild())))
        if (asked(bytes, random.of(MODES))) faults++
    }
    return `${TEXTS} texts, ${faults} faults`
}

// ---- answers of another text

/** Any answer and any text: no exception; null, or a span within the bytes and a sentence without gaps. */
function anyAnswers() {
    const random = numbers(SEED + 1)
    let told = 0
    for (let i = 0; i < 20_000; i++) {
        const bytes = Uint8Array.from({ length: random.below(6) }, () => random.of(BORDERS))
        const fault = faultOf({ code: 3, place: random.below(8), detail: random.below(10) }, [], bytes)
        if (!fault) continue
        told++
        if (!(0 <= fault.start && fault.start < fault.end && fault.end <= bytes.length)) throw new Error(JSON.stringify(fault))
        if (/[{}]|undefined|null|NaN/.test(fault.message)) throw new Error(fault.message)
    }
    const e9 = Uint8Array.of(0xe9)
    for (const place of [1, -1, 0.5, NaN, Infinity, 2 ** 40, undefined]) same([faultOf({ code: 3, place, detail: 1 }, [], e9)], [null], () => `place ${place}`)
    for (const detail of [0, 8, -1, 1.5, NaN, undefined, 4, 5]) same([faultOf({ code: 3, place: 0, detail }, [], e9)], [null], () => `detail ${detail}`)
    for (const text of ['', 'é', '\ufffd', '\ud800']) for (let detail = 0; detail < 9; detail++) same([faultOf({ code: 3, place: 0, detail }, [], text)], [null], () => 'a string')
    return `${told} told`
}

/** Bytes that were given are copied: who changes them afterwards changes nothing that is said. */
function kept() {
    const bytes = latin1('x = "é"\n')
    const reading = tokenize(bytes)
    bytes.fill(0x41)
    same(reading.fault.message, 'Byte E9 at 1:6 is not UTF-8: it begins a character that byte 22 cuts off. Byte E9 alone is é in Latin-1: is the file in that encoding?', () => 'changed afterwards')
    same([reading.fault === reading.fault], [true], () => 'worked out once')
}

await load(wasm())
door = (await WebAssembly.instantiate(wasm())).instance.exports
await test('cases', cases)
await test('sentences', sentences)
await test('Latin-1', hints)
await test('all short texts', shortTexts)
await test('random texts', randomTexts)
await test('answers of another text', anyAnswers)
await test('bytes that are changed afterwards', kept)
report()
