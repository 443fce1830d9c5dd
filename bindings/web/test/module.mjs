// bindings/web/test/module.mjs [SEED]: the ES module's calls under Node, with right values and with any others.
//
// Each call with a wrong value is an error of a kind that the declarations name, and changes nothing. Lines, ranges and
// tokens are compared with plain walks through the text. The last line is `N passed, N failed`; the status is 1 if any failed.
import { spawnSync } from 'node:child_process'
import { createServer } from 'node:http'
import { copyFileSync, mkdtempSync, rmSync, writeFileSync } from 'node:fs'
import { tmpdir } from 'node:os'
import { join } from 'node:path'
import { pathToFileURL } from 'node:url'
import { setFlagsFromString } from 'node:v8'
import { runInNewContext } from 'node:vm'
import { numbers, rejects, report, same, test, throws } from './checks.mjs'
import { wasm } from './frames.mjs'
import { faultOf } from '../faults.js'
import { KINDS } from '../names.js'
import { load, MODULE_WITH_COMMENTS, PythonDocument, STRIDE, tokenize } from '../sroviemat.js'

const SEED = Number(process.argv[2] ?? 1)
const encode = (text) => new TextEncoder().encode(text)

// ---- both classes, in the memory and away

const TEXT = 'é = [ # 😀\r\n]\nwith a:\n    b("中"]\n'

/** The same text as a document in the reader's memory, as one that another displaced, and as two readings. */
function* everywhere(text = TEXT, mode = MODULE_WITH_COMMENTS) {
    const away = new PythonDocument(text, mode)
    yield ['a document', new PythonDocument(text, mode)]
    yield ['a document that was displaced', away]
    yield ['a reading of a string', tokenize(text, mode)]
    yield ['a reading of bytes', tokenize(encode(text), mode)]
}

/** What is no index and no offset. */
const WRONG = [-1, NaN, Infinity, -Infinity, 1.5, -0.5, '1', '', null, 1n, true, {}, [], [1], Symbol('1'), () => 1, new Date(1)]

function wrongNumbers() {
    let asked = 0
    const refused = (work, name) => {
        throws(RangeError, work, new RegExp(`^${name} must be an integer from \\d+ (to \\d+|on), not `))
        asked++
    }
    for (const [, reading] of everywhere()) {
        const { length } = reading.text
        for (const call of ['records', 'utf16', 'tokens']) {
            for (const wrong of [...WRONG, reading.count + 1, 2 ** 40]) refused(() => reading[call](wrong), 'first')
            for (const wrong of WRONG) refused(() => reading[call](0, wrong), 'after')
            refused(() => reading[call](2, 1), 'after')
        }
        for (const wrong of [...WRONG, undefined, length + 1, 2 ** 40]) {
            refused(() => reading.byteOf(wrong), 'offset')
            refused(() => reading.positionOf(wrong), 'offset')
            refused(() => reading.between(wrong, 2), 'from')
            refused(() => reading.between(0, wrong), 'to')
            if (!reading.edit) continue
            refused(() => reading.edit(wrong, 2, 'x'), 'from')
            refused(() => reading.edit(0, wrong, 'x'), 'to')
        }
        for (const wrong of [...WRONG, undefined, reading.byteLength + 1, 2 ** 40]) {
            refused(() => reading.utf16Of(wrong), 'byte')
            refused(() => reading.recordBehind(wrong), 'byte')
        }
        refused(() => reading.between(3, 2), 'to')
        if (reading.edit) refused(() => reading.edit(3, 2, 'x'), 'to')
        same(reading.text, TEXT, () => 'a refused edit changed the text')
    }
    return `${asked} calls`
}

/** What stands inside a character is refused, by its bytes and by its halves. */
function insideCharacters() {
    const half = TEXT.indexOf('😀') + 1
    for (const [, reading] of everywhere()) {
        for (const call of ['byteOf', 'positionOf']) throws(RangeError, () => reading[call](half), /two halves/)
        throws(RangeError, () => reading.between(half, half + 1), /two halves/)
        throws(RangeError, () => reading.between(0, half), /two halves/)
        throws(RangeError, () => reading.utf16Of(1), /inside a character/)
        for (const byte of [1, 2, 3]) throws(RangeError, () => reading.utf16Of(reading.byteOf(half - 1) + byte), /inside a character/)
    }
}

/** All members say the same everywhere; an `after` behind the last record stands for it. */
function sameEverywhere() {
    const [[, first], ...others] = everywhere()
    same(first.records(3, first.count + 9), first.records(3), () => 'after')
    same(first.records(0, 2 ** 40), first.records(), () => 'after')
    same(first.records(first.count), [], () => 'no record')
    same(first.records(undefined, undefined), first.records(), () => 'undefined')
    for (const [name, other] of others) {
        const what = () => name
        for (const member of ['text', 'mode', 'byteLength', 'code', 'count', 'place', 'detail', 'placeUtf16', 'fault']) same([other[member]], [first[member]], what)
        for (const range of [[], [0], [2], [2, 5], [1, 2 ** 40]]) {
            same(other.records(...range), first.records(...range), what)
            same(other.utf16(...range), first.utf16(...range), what)
            same(JSON.stringify([...other.tokens(...range)]), JSON.stringify([...first.tokens(...range)]), what)
        }
        same(JSON.stringify(other.audit()), JSON.stringify(first.audit()), what)
    }
}

/** What is given out is a copy: nobody can change the records. */
function copies() {
    for (const [name, reading] of everywhere()) {
        const before = [...reading.records()]
        reading.records().fill(9)
        reading.utf16().fill(9)
        same(reading.records(), before, () => name)
    }
}

// ---- wrong types

function wrongTypes() {
    const document = new PythonDocument('x')
    const texts = [5, null, {}, [], 1n, Symbol('x'), true, new String('x'), new Date(0), ['x']]
    for (const wrong of texts) {
        throws(TypeError, () => new PythonDocument(wrong), /^text must be a string, not /)
        throws(TypeError, () => document.edit(0, 0, wrong), /^text must be a string, not /)
        throws(TypeError, () => tokenize(wrong), /^text must be a string or a Uint8Array, not /)
    }
    throws(TypeError, () => document.edit(0, 0), /^text must be a string, not undefined$/)
    throws(TypeError, () => tokenize(), /, not undefined$/)
    for (const wrong of [new ArrayBuffer(2), new Uint16Array(2), new Int8Array(2), new Uint8ClampedArray(2), new DataView(new ArrayBuffer(2))]) {
        throws(TypeError, () => tokenize(wrong), /^text must be a string or a Uint8Array, not \[object /)
    }
    for (const wrong of ['module', '0', -1, 1.5, NaN, Infinity, null, 2 ** 32, 0n, {}, Symbol('m')]) {
        throws(TypeError, () => tokenize('x', wrong), /^mode must be a number such as MODULE, not /)
        throws(TypeError, () => new PythonDocument('x', wrong), /^mode must be a number such as MODULE, not /)
    }
    throws(TypeError, () => tokenize(5), /^text must be a string or a Uint8Array, not 5 \(number\)$/)
    throws(TypeError, () => new PythonDocument(['x'.repeat(500)]), /^text must be a string, not \[object Array\] \(object\)$/)
    throws(TypeError, () => tokenize('x', 'y'.repeat(500)), /^.{1,120}$/)
    same(document.text, 'x', () => 'a refused edit')
}

/** Bytes whose buffer went away, is shared, or changes its length; those of another realm; Node's own. */
function buffers() {
    const wanted = tokenize('x = 1\n').records()
    const given = encode('x = 1\n')
    same(tokenize(Buffer.from('x = 1\n')).records(), wanted, () => 'Buffer')
    same(tokenize(Buffer.from('__x = 1\n__').subarray(2, 8)).records(), wanted, () => 'a part of a Buffer')
    same(tokenize(runInNewContext("Uint8Array.of(0x78, 0x20, 0x3d, 0x20, 0x31, 0x0a)")).records(), wanted, () => 'another realm')
    const shared = new Uint8Array(new SharedArrayBuffer(given.length))
    shared.set(given)
    const reading = tokenize(shared)
    shared.fill(0x28)
    same(reading.records(), wanted, () => 'a shared buffer')
    same(reading.text, 'x = 1\n', () => 'a shared buffer that was changed afterwards')
    const resizable = new ArrayBuffer(9, { maxByteLength: 99 })
    const tracking = new Uint8Array(resizable)
    const fixed = new Uint8Array(resizable, 0, 9)
    resizable.resize(given.length)
    tracking.set(given)
    same(tokenize(tracking).records(), wanted, () => 'a buffer that was made shorter')
    throws(TypeError, () => tokenize(fixed), /^text has a buffer that is detached, or shorter than it was$/)
    structuredClone(given.buffer, { transfer: [given.buffer] })
    throws(TypeError, () => tokenize(given), /^text has a buffer that is detached, or shorter than it was$/)
    same(tokenize(new Uint8Array(0)).records(), [], () => 'no bytes')
}

/** Bytes that are no UTF-8: what stands before them can be asked for, what stands behind cannot. */
function illFormed() {
    const bytes = Uint8Array.of(0xc3, 0xa9, 0x0a, ...Array(9_000).fill(0x80))
    const reading = tokenize(bytes)
    same([reading.code, reading.count, reading.place, reading.detail, reading.placeUtf16, reading.byteLength], [3, 0, 3, 1, 2, bytes.length], () => 'ill-formed')
    same([reading.byteOf(2), reading.utf16Of(3), reading.recordBehind(3), ...reading.between(0, 9)], [3, 2, 0, 0, 0], () => 'before')
    throws(RangeError, () => reading.byteOf(3), /not known to be UTF-8 before it/)
    throws(RangeError, () => reading.utf16Of(4), /from 0 to 3/)
    same(reading.text, 'é\n' + '\ufffd'.repeat(9_000), () => 'text')
    same([reading.fault.start, reading.fault.end, reading.fault.at.line, reading.fault.at.column, reading.fault.bytes], [2, 3, 2, 1, 'stray'], () => 'fault')
    throws(RangeError, () => tokenize(Uint8Array.of(0x61, 0xff)).byteOf(2), /not known to be UTF-8 before it/)
    // In a mode that there is not, nobody has looked at the bytes.
    const unread = tokenize(Uint8Array.of(0x80, 0x61), 6)
    same([unread.code, unread.placeUtf16, unread.utf16Of(0), unread.byteOf(0), ...unread.between(0, 2)], [2, 0, 0, 0, 0, 0], () => 'not read')
    throws(RangeError, () => unread.utf16Of(1), /from 0 to 0/)
    same([tokenize('é\n', 6).byteOf(1), new PythonDocument('é\n', 6).byteOf(1)], [2, 2], () => 'a string that is not read')
    const long = tokenize('é'.repeat(9_000_000))
    same([long.code, long.byteLength, long.placeUtf16, long.byteOf(0), ...long.between(0, 5), long.positionOf(7).column], [1, 0, 0, 0, 0, 0, 8], () => 'too long')
    throws(RangeError, () => long.byteOf(1), /too long to be read/)
    const document = new PythonDocument('a\nb\nc')
    same([document.positionOf(4).line], [3], () => 'before it is too long')
    document.edit(0, 3, 'x'.repeat(17_000_000))
    same([document.code, document.positionOf(17_000_000).line, document.positionOf(17_000_001).line], [1, 1, 2], () => 'a document that became too long')
    document.edit(1, 17_000_000, 'é')
    same([document.code, document.positionOf(3).line, document.byteOf(3)], [0, 2, 4], () => 'short again')
}

// ---- tokens, ranges, lines

const PIECES = ['x', ' ', 'é = 1', '()', '\n', '\n', '\r', '\r\n', '\r\n', '#', '"中"', '(x)', ':', 'é', '中', 'with a:\n b\n', '# 😀\n', '\\\n']
const RARE = ['    ', '\t', "'", '"""', '(', ')', '\n    ', '😀', '\ufeff', '$', '1.', '\\']
const randomPiece = (random) => random.of(random.below(40) ? PIECES : RARE)
const randomText = (random, most) => random.of(['', '', '\ufeff']) + Array.from({ length: random.below(most) }, () => randomPiece(random)).join('')
const isInside = (text, at) => /[\udc00-\udfff]/.test(text[at] ?? '')

/** Documents that are edited, each with a reading of its text. */
function* randomReadings(count) {
    const random = numbers(SEED)
    let document = new PythonDocument()
    for (let i = 0; i < count; i++) {
        if (i % 20 === 0) document = new PythonDocument(randomText(random, 60), random.below(6))
        const at = random.below(document.text.length + 1)
        if (!isInside(document.text, at)) document.edit(at, at, randomText(random, 4))
        yield [document, random]
        yield [tokenize(document.text, document.mode), random]
    }
}

function tokens() {
    let listed = 0
    for (const [reading] of randomReadings(3_000)) {
        const row = reading.utf16()
        const wanted = Array.from({ length: row.length / STRIDE }, (_, i) => {
            const [kind, start, end, line] = row.subarray(i * STRIDE, (i + 1) * STRIDE)
            return { kind, name: KINDS.get(kind), start, end, line, text: reading.text.slice(start, end) }
        })
        same(JSON.stringify([...reading]), JSON.stringify(wanted), () => reading.text)
        listed += wanted.length
    }
    const document = new PythonDocument('a = b\n')
    const seen = []
    for (const { text } of document) {
        seen.push(text)
        document.edit(0, document.text.length, '((((')
    }
    same(seen.join(), 'a,=,b,\n', () => 'edited meanwhile')
    return `${listed} tokens`
}

/** The records of a range, by a walk through all of them. */
function ranges() {
    let found = 0
    for (const [reading, random] of randomReadings(3_000)) {
        const { text } = reading
        const from = random.below(text.length + 1)
        const to = from + random.below(text.length + 1 - from)
        if (isInside(text, from) || isInside(text, to)) continue
        const all = [...reading]
        const wanted = all.filter(({ start, end }) => (start < to && end > from) || (start === end && from <= start && start <= to))
        same(JSON.stringify([...reading.tokens(...reading.between(from, to))]), JSON.stringify(wanted), () => `${JSON.stringify(text)} ${from} ${to}`)
        const behind = all.findIndex(({ end }) => end > from)
        same([reading.recordBehind(reading.byteOf(from))], [behind < 0 ? all.length : behind], () => `${JSON.stringify(text)} ${from}`)
        found += wanted.length
    }
    return `${found} records`
}

/** The line and column by what stands before the offset. */
function plainPosition(text, offset) {
    const before = text.slice(0, offset)
    const ends = [...before.matchAll(/\r\n|\r(?!\n)|\n/g)]
    // Between CR and LF the line has not ended.
    if (before.endsWith('\r') && text[offset] === '\n') ends.pop()
    const lineStart = ends.length ? ends.at(-1).index + ends.at(-1)[0].length : 0
    const column = [...before.slice(lineStart)].length + (ends.length === 0 && before.startsWith('\ufeff') ? 0 : 1)
    return [ends.length + 1, column, lineStart]
}

function positions() {
    let asked = 0
    const check = (reading, offset) => {
        const { line, column, lineStart } = reading.positionOf(offset)
        same([line, column, lineStart], plainPosition(reading.text, offset), () => `${JSON.stringify(reading.text)} ${offset}`)
        asked++
    }
    for (const [reading, random] of randomReadings(4_000)) {
        for (let i = 0; i < 4; i++) {
            const offset = random.below(reading.text.length + 1)
            if (!isInside(reading.text, offset)) check(reading, offset)
        }
    }
    // Lines longer than what is counted at a time, with characters of two halves at every place of it.
    const long = new PythonDocument(`\ufeff${'a😀é'.repeat(5_000)}\r\n${'😀'.repeat(9_000)}`)
    for (let offset = 0; offset < long.text.length; offset += 997) if (!isInside(long.text, offset)) check(long, offset)
    long.edit(8_193, 8_193, '\n😀')
    for (const offset of [0, 1, 8_192, 8_193, 8_194, 8_196, 20_000, long.text.length]) check(long, offset)
    long.edit(100, 100, 'x'.repeat(1_000))
    for (const offset of [100, 9_001, 21_000, long.text.length]) check(long, offset)
    // CR before an edit and LF behind it become one line end, and come apart again.
    const cr = new PythonDocument('a\r')
    check(cr, 2)
    cr.edit(2, 2, '\n')
    for (const offset of [0, 1, 2, 3]) check(cr, offset)
    cr.edit(2, 2, 'x')
    for (const offset of [2, 3, 4]) check(cr, offset)
    return `${asked} positions`
}

/** A fault is what faultOf says with all records at hand, and its line and column are those of its start. */
function faults() {
    let found = 0
    for (const [reading] of randomReadings(4_000)) {
        const { code, placeUtf16: place, detail, fault } = reading
        const wanted = faultOf({ code, place, detail }, reading.utf16(), reading.text)
        same(JSON.stringify(fault), JSON.stringify(wanted), () => JSON.stringify(reading.text))
        if (!fault) continue
        same([fault.at.line, fault.at.column], plainPosition(reading.text, fault.start).slice(0, 2), () => `${JSON.stringify(reading.text)} ${fault.start}`)
        found++
    }
    const document = new PythonDocument('a(\n')
    same(document.fault.message, '`(` at 1:2 is never closed.', () => 'fault')
    document.edit(2, 2, ')')
    same([document.fault], [null], () => 'mended')
    return `${found} faults`
}

/** A megabyte with a fault at its end: what an editor asks after each key, and how long that takes. */
function figures() {
    const line = '    colour = texture("f12r.png", 3)  # é gold\r\n'
    const document = new PythonDocument(`with gold:\n${line.repeat(23_000)}`, MODULE_WITH_COMMENTS)
    const { length } = document.text
    const times = { edit: 0, fault: 0, position: 0, range: 0 }
    const timed = (name, work) => {
        const began = performance.now()
        const answer = work()
        times[name] += performance.now() - began
        return answer
    }
    const turns = 50
    for (let i = 0; i < turns; i++) {
        timed('edit', () => document.edit(length, document.text.length, '('.repeat(1 + (i % 7))))
        same(timed('fault', () => document.fault).message, `\`(\` at 23002:${1 + (i % 7)} is never closed.`, () => 'fault')
        const at = 11 + line.length * i * 400 + 4
        same([timed('position', () => document.positionOf(at)).line], [2 + i * 400], () => 'position')
        same([document.utf16(...timed('range', () => document.between(at, at + 6)))[1]], [at], () => 'range')
    }
    return Object.entries(times).map(([name, time]) => `${name} ${(time / turns).toFixed(3)} ms`).join(', ')
}

// ---- memory

setFlagsFromString('--expose-gc')
const collect = runInNewContext('gc')

/** Collects what nobody holds; a turn of the loop lets go what the last one held. */
async function collected() {
    for (let i = 0; i < 5; i++) {
        await new Promise((done) => setTimeout(done))
        collect()
    }
}

/** The memories of a module's instances that are made while some work goes on. */
async function memoriesOf(work) {
    const memories = []
    const { instantiate } = WebAssembly
    WebAssembly.instantiate = async (...words) => {
        const made = await instantiate(...words)
        memories.push(new WeakRef(made.exports.memory))
        return made
    }
    try {
        await work()
    } finally {
        WebAssembly.instantiate = instantiate
    }
    return memories
}

/** What `tokenize` reads does not come where a document is. */
async function ownMemory() {
    const reader = await import('../sroviemat.js?own')
    const memories = await memoriesOf(() => reader.load(wasm()))
    const document = new reader.PythonDocument('a_document = 1\n')
    const has = (memory, text) => Buffer.from(memory.deref().buffer).includes(text)
    const home = memories.find((memory) => has(memory, 'a_document'))
    reader.tokenize('another_text = 2\n'.repeat(1_000))
    if (!has(home, 'a_document = 1\n') || has(home, 'another_text')) throw new Error('tokenize displaced a document')
    same(document.edit(13, 14, '3').text, 'a_document = 3\n', () => 'edited')
}

async function unloading() {
    const reader = await import('../sroviemat.js?unloading')
    same([reader.memoryBytes()], [0], () => 'not loaded')
    const memories = await memoriesOf(() => reader.load(wasm()))
    const small = reader.memoryBytes()
    const text = 'é = 1\n'.repeat(200_000)
    const documents = [new reader.PythonDocument(text), new reader.PythonDocument('ü\n')]
    const [asked, other] = [reader.tokenize('(]'), reader.tokenize('(]')]
    const bracket = asked.audit()
    const wanted = reader.tokenize(text).records()
    const large = reader.memoryBytes()
    if (!(large > small + 40_000_000)) throw new Error(`only ${large} bytes`)
    reader.unload()
    reader.unload()
    same([reader.memoryBytes()], [0], () => 'unloaded')
    await collected()
    if (memories.length !== 2 || memories.some((memory) => memory.deref())) throw new Error('the memory is still held')
    same(documents[0].records(), wanted, () => 'the records of a document')
    same(documents[1].text, 'ü\n', () => 'its text')
    throws(reader.CannotStart, () => documents[1].edit(0, 0, 'x'), /not loaded/)
    throws(reader.CannotStart, () => reader.tokenize('x'), /not loaded/)
    throws(reader.CannotStart, () => new reader.PythonDocument('x'), /not loaded/)
    // What was asked is known, what was not is the reader's to say.
    same([asked.audit()], [bracket], () => 'an audit that was asked for')
    for (const reading of [other, documents[1]]) throws(reader.CannotStart, () => reading.audit(), /not loaded/)
    same(documents[1].text, 'ü\n', () => 'a refused edit')
    await reader.load(wasm())
    same([reader.memoryBytes()], [small], () => 'loaded again')
    for (const document of documents) {
        document.edit(0, 0, 'x')
        same(document.records(), reader.tokenize(document.text).records(), () => 'edited')
    }
    same([other.audit().message, documents[1].audit()], [bracket.message, null], () => 'audits')
    return `${large} bytes, then 0, then ${small}`
}

async function freeing() {
    const held = async () => (await collected(), process.memoryUsage().heapUsed)
    const document = new PythonDocument('中'.repeat(5_000_000)).edit(0, 0, '文')
    const before = await held()
    document.free()
    document.free()
    const given = before - (await held())
    if (!(given > 9_000_000)) throw new Error(`only ${given} bytes were given back`)
    const reading = tokenize('x')
    reading[Symbol.dispose]()
    for (const freed of [document, reading]) {
        for (const member of ['text', 'code', 'count', 'fault']) throws(Error, () => freed[member], /was freed/)
        for (const call of ['records', 'utf16', 'tokens', 'audit']) throws(Error, () => freed[call](), /was freed/)
        for (const call of ['byteOf', 'utf16Of', 'recordBehind', 'positionOf']) throws(Error, () => freed[call](0), /was freed/)
        throws(Error, () => [...freed], /was freed/)
        throws(Error, () => freed.between(0, 0), /was freed/)
    }
    throws(Error, () => document.edit(0, 0, 'x'), /was freed/)
    return `${given} bytes given back`
}

// ---- starting

/** Of a Name and a Newline: kind, start, end, line. */
const RECORDS_OF_X = [3, 0, 1, 0, 0, 1, 1, 0]
const LEB = (number) => (number < 0x80 ? [number] : [(number & 0x7f) | 0x80, ...LEB(number >> 7)])
const section = (id, ...bytes) => [id, ...LEB(bytes.length), ...bytes]
const named = (name) => [name.length, ...encode(name)]
const program = (...sections) => Uint8Array.of(0, 97, 115, 109, 1, 0, 0, 0, ...sections.flat())

/** A .wasm with a function of this name, which answers a number or, for null, fails; and maybe an import. */
function wasmWith(name, answer, imports = []) {
    const type = section(1, 1, 0x60, 0, 1, 0x7f)
    const imported = imports.length ? [section(2, 1, ...named('env'), ...named(imports[0]), 0, 0)] : []
    const code = answer === null ? [0, 0, 0x0b] : [0, 0x41, answer, 0x0b]
    return program(type, ...imported, section(3, 1, 0), section(7, 1, ...named(name), 0, imports.length), section(10, 1, code.length, ...code))
}

async function wrongFiles() {
    const reader = await import('../sroviemat.js?wrong')
    const refused = (source, words) => rejects(reader.CannotStart, () => reader.load(source), words)
    const right = wasm()
    await refused(new Uint8Array(0), /^The \.wasm is empty\.$/)
    for (let length = 1; length < right.length; length += length < 400 ? 1 : 4_999) {
        // What ends behind its head, or behind its types, is a whole program that does nothing.
        const part = right.subarray(0, length)
        await refused(part, WebAssembly.validate(part) ? /another program/ : new RegExp(`^The \\.wasm is cut short: it ends at byte ${length}\\.$`))
    }
    await refused(right.subarray(0, -1), /cut short/)
    await refused(encode('<!DOCTYPE html>\n<title>404</title>'), /page of HTML/)
    await refused(encode('\ufeff \n<html lang=en>'), /page of HTML/)
    await refused(encode('version https://'), /^The \.wasm is no \.wasm: its first bytes are 76 65 72 73, not 00 61 73 6d\.$/)
    await refused(Uint8Array.of(1), /no \.wasm: its first bytes are 01,/)
    await refused(Buffer.concat([right, right]), /damaged/)
    const damaged = Uint8Array.from(right)
    damaged.fill(0xff, 600, 700)
    await refused(damaged, /damaged/)
    await refused(wasmWith('other', 5), /^The \.wasm is not the reader but another program\.$/)
    await refused(wasmWith('srv_version', 5, ['f']), /another program/)
    await refused(wasmWith('srv_version', null), /does not start: unreachable/)
    for (const version of [1, 2, 3, 4, 6]) await refused(wasmWith('srv_version', version), new RegExp(`^The \\.wasm has interface ${version}, and 5 is needed: build it anew \\(tools/build-wasm\\)\\.$`))
    await refused(wasmWith('srv_version', 5), /has no memory, __heap_base, srv_read, srv_reread, srv_audit/)
    await refused(await WebAssembly.compile(wasmWith('other', 5)), /another program/)
    for (const wrong of [null, 5, {}, true, Symbol('x')]) {
        await rejects(TypeError, () => reader.load(wrong), /^source must be a URL, a string, bytes or a WebAssembly\.Module, not /)
    }
    const gone = new Uint8Array(right)
    structuredClone(gone.buffer, { transfer: [gone.buffer] })
    await rejects(TypeError, () => reader.load(gone), /^source has a buffer that is detached$/)
    const shared = new Uint8Array(new SharedArrayBuffer(right.length))
    shared.set(right)
    await reader.load(shared)
    same(reader.tokenize('x').records(), RECORDS_OF_X, () => 'loaded')
}

/** By itself, by URLs and by paths. */
async function places() {
    const folder = mkdtempSync(join(tmpdir(), 'sroviemat é #'))
    const file = join(folder, 'a reader.wasm')
    copyFileSync(new URL('../sroviemat.wasm', import.meta.url), file)
    writeFileSync(join(folder, 'empty.wasm'), '')
    const server = createServer((request, response) => {
        const answers = { '/reader.wasm': [200, wasm()], '/page.wasm': [200, '<!doctype html><p>Not found'], '/short.wasm': [200, wasm().subarray(0, 9_000)] }
        const [status, body] = answers[request.url] ?? [404, 'Not found']
        response.writeHead(status).end(body)
    })
    await new Promise((done) => server.listen(0, '127.0.0.1', done))
    const site = `http://127.0.0.1:${server.address().port}`
    let turn = 0
    const anew = () => import(`../sroviemat.js?place${turn++}`)
    try {
        for (const source of [undefined, pathToFileURL(file), pathToFileURL(file).href, file, `${site}/reader.wasm`, new URL(`${site}/reader.wasm`)]) {
            const reader = await anew()
            await reader.load(source)
            same(reader.tokenize('x').records(), RECORDS_OF_X, () => String(source))
        }
        const reader = await anew()
        const refused = (source, words) => rejects(reader.CannotStart, () => reader.load(source), words)
        await refused(join(folder, 'none.wasm'), /none\.wasm cannot be read: ENOENT/)
        await refused(pathToFileURL(join(folder, 'none.wasm')), /^file:.*none\.wasm cannot be read: ENOENT/)
        await refused('file:', /cannot be read/)
        await refused(folder, /cannot be read: EISDIR/)
        await refused(join(folder, 'empty.wasm'), /empty\.wasm is empty\.$/)
        await refused(`${site}/none.wasm`, /none\.wasm cannot be fetched: 404/)
        await refused(`${site}/page.wasm`, /page\.wasm is a page of HTML/)
        await refused(`${site}/short.wasm`, /short\.wasm is cut short: it ends at byte 9000/)
        await refused('http://127.0.0.1:1/none.wasm', /cannot be fetched/)
        await refused('nothing://x', /cannot be fetched/)
    } finally {
        server.close()
        rmSync(folder, { recursive: true })
    }
}

/** An engine without SIMD: this one on a machine without SSE 4.1. */
function withoutSimd() {
    const script = `import(${JSON.stringify(new URL('../sroviemat.js', import.meta.url).href)}).then((reader) => reader.load()).catch((error) => console.log(error.name, error.message))`
    const { stdout, stderr } = spawnSync(process.execPath, ['--no-enable-sse4-1', '-e', script], { encoding: 'utf8' })
    if (process.arch !== 'x64') return 'only tried on x64'
    if (!stdout.startsWith('CannotStart This engine has no SIMD instructions of WebAssembly, which the reader needs')) throw new Error(stdout + stderr)
}

/** Two calls at once, of which the first ends last and changes nothing, and a call after it is loaded. */
async function twice() {
    const reader = await import('../sroviemat.js?twice')
    const { compile } = WebAssembly
    let goOn
    WebAssembly.compile = (bytes) => new Promise((done) => (goOn = done)).then(() => compile(bytes))
    const first = reader.load(wasm())
    WebAssembly.compile = compile
    await reader.load()
    const document = new reader.PythonDocument('x')
    goOn()
    await first
    await reader.load(null)
    same(document.edit(1, 1, 'y').records(), [3, 0, 2, 0, 0, 2, 2, 0], () => 'edited')
}

await load(wasm())
await test('wrong indices, offsets and bytes', wrongNumbers)
await test('inside a character', insideCharacters)
await test('in the memory and away, documents and readings', sameEverywhere)
await test('what is given out is a copy', copies)
await test('wrong types', wrongTypes)
await test('buffers', buffers)
await test('ill-formed and too long', illFormed)
await test('tokens', tokens)
await test('ranges of offsets', ranges)
await test('lines and columns', positions)
await test('faults', faults)
await test('a megabyte', figures)
await test("tokenize's own memory", ownMemory)
await test('unloading', unloading)
await test('freeing', freeing)
await test('wrong files', wrongFiles)
await test('where the .wasm is', places)
await test('an engine without SIMD', withoutSimd)
await test('loading twice', twice)
report()
