// bindings/web/test/node.mjs [TEXTS [SEED]]: the .wasm and the ES module over it, under Node, against the original's answers.
//
// The fixed list of the original's answers is always gone through; where the oracle is built (oracle/build), so are TEXTS
// random texts (100000) and the texts of random edits. The last line is `N passed, N failed`; the status is 1 if any failed.
import { numbers, report, same, test, throws } from './checks.mjs'
import { ask, classes, fixedList, oracleAtHand, randomList, wasm } from './frames.mjs'
import { ANSWER, KIND, KINDS, sortOf } from '../names.js'
import { EXPRESSION, EXPRESSION_WITH_COMMENTS, INTERACTIVE, INTERACTIVE_WITH_COMMENTS, load, MODULE, MODULE_WITH_COMMENTS, MOST_BYTES, PythonDocument, STRIDE, tokenize } from '../sroviemat.js'

const TEXTS = Number(process.argv[2] ?? 100_000)
const SEED = Number(process.argv[3] ?? 1)
const EDITS = 20_000
const UNTOUCHED = 0xeeeeeeee
const MODES = 6
const decoder = new TextDecoder('utf-8', { ignoreBOM: true })

const numbersOf = (answer) => [answer.code, answer.count, answer.place, answer.detail]
const shown = (text, more) => () => `${JSON.stringify(Buffer.from(text).toString('latin1'))} ${more}`
const encode = (text) => new TextEncoder().encode(text)
const wellFormed = (text) => decoder.decode(encode(text))

// ---- the doors themselves

/** srv_read on a frame's text and a row of its length, with every number of the row and behind it; then srv_measure. */
async function rawDoor() {
    const { exports } = (await WebAssembly.instantiate(wasm())).instance
    exports.memory.grow(4)
    const answerAt = exports.__heap_base.value + 16
    const textAt = answerAt + 4 * ANSWER
    return ({ text, mode, start, row }) => {
        const rowAt = textAt + Math.ceil(text.length / 4) * 4
        new Uint8Array(exports.memory.buffer, textAt, text.length).set(text)
        const lent = new Uint32Array(exports.memory.buffer, rowAt, row + 4).fill(UNTOUCHED)
        const answer = new Uint32Array(exports.memory.buffer, answerAt, ANSWER).fill(UNTOUCHED)
        exports.srv_read(textAt, BigInt(text.length), mode, start, rowAt, BigInt(row), answerAt)
        const read = answer.slice()
        exports.srv_measure(textAt, BigInt(text.length), mode, start, answerAt)
        return { read, lent, measured: answer }
    }
}

/**
 * Code, count, place, detail, every record, and that the rest of the row and what lies behind it stay as they were;
 * measuring answers the same, and the count where there was no room.
 */
function compareRaw(door, frame) {
    const { read, lent, measured } = door(frame)
    const where = shown(frame.text, `mode ${frame.mode} start ${frame.start} row ${frame.row}`)
    same(read, numbersOf(frame), where)
    if (frame.code === 4) same([measured[1]], [frame.count], where)
    else same(measured, numbersOf(frame), where)
    same(lent.subarray(0, frame.records.length), frame.records, where)
    if (lent.subarray(frame.records.length).some((x) => x !== UNTOUCHED)) throw new Error(`${where()}: the row's rest was written`)
}

/** The same through `tokenize`, which is at start 0 and always has room. */
function compareApi(frame) {
    if (frame.start !== 0 || frame.code === 4) return 0
    const reading = tokenize(frame.text, frame.mode)
    same(numbersOf(reading), numbersOf(frame), shown(frame.text, `mode ${frame.mode}`))
    same(reading.records(), frame.records, shown(frame.text, `mode ${frame.mode}`))
    if (frame.code !== 3) compareUtf16(frame, reading)
    return 1
}

/** The string of the same text reads the same, and each position's UTF-16 offset is the length of what stands before it. */
function compareUtf16({ text, mode }, reading) {
    const string = tokenize(decoder.decode(text), mode)
    same(string.records(), reading.records(), shown(text, 'as a string'))
    const isPlace = (i) => i % STRIDE === 1 || i % STRIDE === 2
    const units = reading.records().map((x, i) => (isPlace(i) ? decoder.decode(text.subarray(0, x)).length : x))
    same(reading.utf16(), units, shown(text, 'UTF-16'))
    same(string.utf16(), units, shown(text, 'UTF-16 of the string'))
    same([reading.placeUtf16], [decoder.decode(text.subarray(0, reading.place)).length], shown(text, "the place's UTF-16"))
}

async function compareList(list) {
    const door = await rawDoor()
    const codes = new Set()
    const modes = new Set()
    let texts = 0
    let read = 0
    for (const frame of list) {
        compareRaw(door, frame)
        read += compareApi(frame)
        codes.add(frame.code)
        if (frame.code === 0 || frame.code >= 20) modes.add(frame.mode)
        texts++
    }
    return `${texts} answers as the original's, ${read} of them through tokenize as well; ${codes.size} codes, modes ${[...modes].sort().join(' ')}`
}

/** Every number up to past the last character, by the classes' door; what is no character has none. */
async function compareClasses() {
    const { exports } = (await WebAssembly.instantiate(wasm())).instance
    const theirs = classes()
    for (let c = 0; c < 0x110010; c++) {
        same([exports.srv_class(c)], [theirs.get(c) ?? 0], () => `number ${c}`)
    }
    return `${theirs.size} characters`
}

// ---- documents

const PIECES = ['x', ' ', '    ', '\t', '\n', '\n', '\n    ', '\r', '\r\n', '#', "'", '"""', '(', ')', ':', '=', '\\', 'é', '中', '😀', '\ufeff', '$', '0x', '1.', 'match x: y', 'type X = 1', 'with a:\n ']

/** Edits of several documents in turn; each is what a whole reading of its text is, and what the original answers. */
function compareEdits(texts, edits, original) {
    const random = numbers(SEED)
    const documents = Array.from({ length: 5 }, () => new PythonDocument(random.of(texts), random.below(MODES)))
    const questions = []
    const answers = []
    for (let i = 0; i < edits; i++) {
        if (random.below(20) === 0) documents[random.below(5)] = new PythonDocument(random.of(texts), random.below(MODES))
        const document = random.below(3) === 0 ? documents[random.below(5)] : documents[0]
        randomEdit(document, random)
        const whole = tokenize(document.text, document.mode)
        same(numbersOf(document), numbersOf(whole), shown(encode(document.text), `mode ${document.mode}`))
        same(document.records(), whole.records(), shown(encode(document.text), `mode ${document.mode}`))
        same(document.utf16(), whole.utf16(), shown(encode(document.text), 'UTF-16'))
        same([document.placeUtf16], [whole.placeUtf16], shown(encode(document.text), "the place's UTF-16"))
        questions.push({ text: encode(document.text), mode: document.mode })
        answers.push([...numbersOf(document), ...document.records()])
    }
    if (original) {
        ask(questions).forEach((theirs, i) => same(answers[i], [...numbersOf(theirs), ...theirs.records], shown(questions[i].text, 'edited')))
    }
    return `${edits} edits as whole readings${original ? ' and as the original answers' : ''}`
}

/** An edit somewhere; where an offset is inside a character it must be refused and change nothing. */
function randomEdit(document, random) {
    const before = document.text
    const from = random.below(before.length + 1)
    const to = Math.min(before.length, from + (random.below(2) ? 0 : random.below(12)))
    const put = random.below(4) ? random.of(PIECES) : before.slice(0, random.below(40))
    const inside = [from, to].some((at) => /[\udc00-\udfff]/.test(before[at] ?? ''))
    if (inside) {
        const records = document.records()
        throws(RangeError, () => document.edit(from, to, put))
        same(document.records(), records, shown(encode(before), 'refused'))
        if (document.text !== before) throw new Error('a refused edit changed the text')
        return
    }
    document.edit(from, to, put)
    const wanted = before.slice(0, from) + wellFormed(put) + before.slice(to)
    if (document.text !== wanted) throw new Error(`the text is ${JSON.stringify(document.text)}, not ${JSON.stringify(wanted)}`)
}

/** A long document of wide characters, edited here and there: offsets of bytes and of UTF-16 agree everywhere. */
function longDocument() {
    const random = numbers(SEED)
    const document = new PythonDocument('with surface("pâte"):\n    ✨ = to_linear("😀中")\n'.repeat(8_000))
    for (let i = 0; i < 60; i++) {
        let at = random.below(document.text.length)
        if (/[\udc00-\udfff]/.test(document.text[at])) at++
        document.edit(at, at, random.of(['a', 'é', '😀', '#']))
        const whole = tokenize(document.text)
        same(numbersOf(document), numbersOf(whole), () => `edit ${i}`)
        if (Buffer.compare(Buffer.from(document.records().buffer), Buffer.from(whole.records().buffer))) throw new Error(`edit ${i}: records`)
        if (Buffer.compare(Buffer.from(document.utf16().buffer), Buffer.from(whole.utf16().buffer))) throw new Error(`edit ${i}: UTF-16`)
        const byte = document.byteOf(at)
        same([byte, document.utf16Of(byte)], [encode(document.text.slice(0, at)).length, at], () => `offset ${at}`)
        const index = document.recordBehind(byte)
        const [, , end] = document.records(index, index + 1)
        const [, , endBefore] = index > 0 ? document.records(index - 1, index) : [0, 0, 0]
        if (index < document.count && !(end > byte && endBefore <= byte)) throw new Error(`record ${index} is not the first behind ${byte}`)
    }
    return `${document.byteLength} bytes, ${document.count} records`
}

/** Both sides of the limit, by reading and by editing, and the way back. */
function limits() {
    const line = 'x = 1\n'
    const text = line.repeat(Math.floor(MOST_BYTES / line.length)) + '#'.repeat(MOST_BYTES % line.length)
    const whole = tokenize(text)
    same([whole.code, whole.place], [0, MOST_BYTES], () => 'the longest text')
    for (const longer of [`${text}#`, encode(`${text}#`), 'é'.repeat(MOST_BYTES / 2) + 'x']) {
        same(numbersOf(tokenize(longer)), [1, 0, 0, 0], () => 'one byte more')
    }
    const document = new PythonDocument(text)
    same(numbersOf(document), numbersOf(whole), () => 'a document of the longest text')
    document.edit(0, 0, '#')
    same([...numbersOf(document), ...document.records()], [1, 0, 0, 0], () => 'a document of one byte more')
    document.edit(5, 5, 'y').edit(0, 1, '')
    same(numbersOf(document), [1, 0, 0, 0], () => 'still one byte more')
    document.edit(0, MOST_BYTES + 1 - line.length, '')
    same([...numbersOf(document)], numbersOf(tokenize(document.text)), () => 'short again')
    document.edit(0, document.text.length, '☕')
    same(document.utf16(), tokenize('☕').utf16(), () => 'replaced')
}

/** The door itself refuses a text that is one byte too long, as the module above it does without asking. */
async function limitOfTheDoor() {
    const { exports } = (await WebAssembly.instantiate(wasm())).instance
    exports.memory.grow(Math.ceil((MOST_BYTES + 128) / 65_536))
    const at = exports.__heap_base.value
    for (const [length, code] of [[MOST_BYTES + 1, 1], [MOST_BYTES, 26]]) {
        exports.srv_read(at + 64, BigInt(length), 0, 0, at + 32, 0n, at)
        same([new Uint32Array(exports.memory.buffer, at, 1)[0]], [code], () => `${length} bytes of NUL`)
    }
}

function surrogates() {
    for (const text of ['\ud800', 'a\udc00', '"\ud83d" + "\ude00"', '\ude00\ud83d', '#\ud83d']) {
        const replaced = wellFormed(text)
        same(tokenize(text).records(), tokenize(replaced).records(), () => JSON.stringify(text))
        same(tokenize(text).utf16(), tokenize(replaced).utf16(), () => JSON.stringify(text))
        if (new PythonDocument(text).text !== replaced) throw new Error('a document keeps a lone surrogate')
    }
    const halves = new PythonDocument("'\ud83d'").edit(2, 2, '\ude00')
    if (halves.text !== "'\ufffd\ufffd'") throw new Error('halves that came apart were joined')
    same(halves.records(), tokenize(halves.text).records(), () => 'halves')
}

function refusals() {
    const document = new PythonDocument('a😀b')
    for (const [from, to] of [[-1, 0], [0, 5], [2, 1], [2, 2], [0, 2], [2, 4], [0.5, 1], [NaN, 1], ['0', 1], [undefined, 1]]) {
        throws(RangeError, () => document.edit(from, to, 'x'))
    }
    throws(TypeError, () => document.edit(0, 0, 5))
    throws(TypeError, () => tokenize(5))
    throws(TypeError, () => tokenize('x', 'module'))
    throws(TypeError, () => tokenize('x', -1))
    throws(TypeError, () => new PythonDocument(5))
    throws(RangeError, () => document.utf16Of(7))
    if (document.text !== 'a😀b') throw new Error('a refused edit changed the text')
    same(numbersOf(tokenize('x', MODES)), [2, 0, 0, 0], () => `mode ${MODES}`)
    same(numbersOf(new PythonDocument('x', MODES)), [2, 0, 0, 0], () => `a document in mode ${MODES}`)
    same(numbersOf(tokenize(Uint8Array.of(0x61, 0xed, 0xa0, 0x80))), [3, 0, 1, 6], () => 'ill-formed')
}

/** The modes by their names, and what those with comments add to the others. */
function modes() {
    const plain = [MODULE, INTERACTIVE, EXPRESSION]
    const full = [MODULE_WITH_COMMENTS, INTERACTIVE_WITH_COMMENTS, EXPRESSION_WITH_COMMENTS]
    same([...plain, ...full], Array.from({ length: MODES }, (_, mode) => mode), () => 'modes')
    const text = 'é = [ # ü\n]\r\n\r\n'
    const kinds = (records) => [...records].filter((_, i) => i % STRIDE === 0).map((kind) => KINDS.get(kind))
    same(kinds(tokenize(text, MODULE_WITH_COMMENTS).records()).join(), 'Name,Operator =,Operator [,Comment,NonLogicalNewline,Operator ],Newline,NonLogicalNewline', () => text)
    for (const mode of full) {
        const listed = tokenize(text, mode)
        const document = new PythonDocument(text, mode)
        same(document.utf16(), listed.utf16(), () => text)
        const isAdded = (kind) => kind === KIND.Comment || kind === KIND.NonLogicalNewline
        const others = listed.records().filter((_, i, row) => !isAdded(row[i - (i % STRIDE)]))
        same(others, tokenize(text, mode - 3).records(), () => text)
    }
    same([KIND.Comment, KIND.NonLogicalNewline], [7, 8], () => 'kinds')
    same([7, 8, 0, 6, 10].map(sortOf).join(), 'comment,blank,blank,number,string', () => 'sorts')
}

/** Where the page can have no more memory: an edit is refused and changes nothing, or code 4 tells the records needed. */
async function noMemory() {
    const reader = await import('../sroviemat.js?small')
    await reader.load(wasm())
    const { grow } = WebAssembly.Memory.prototype
    const without = (work) => {
        WebAssembly.Memory.prototype.grow = () => {
            throw new RangeError('no more')
        }
        try {
            work()
        } finally {
            WebAssembly.Memory.prototype.grow = grow
        }
    }
    const [one, two] = [new reader.PythonDocument('a\nb\n'), new reader.PythonDocument('c\n')]
    without(() => {
        throws(RangeError, () => one.edit(2, 2, 'x\n'.repeat(1_000_000)))
        throws(RangeError, () => reader.tokenize('x\n'.repeat(1_000_000)))
    })
    same(one.records(), tokenize('a\nb\n').records(), () => 'a refused edit')
    same(two.edit(0, 0, 'd').records(), tokenize('dc\n').records(), () => 'another document')
    const size = 3_000_000
    const three = new reader.PythonDocument('#'.repeat(size))
    without(() => three.edit(0, size, '('.repeat(size)))
    same([...numbersOf(three), ...three.records()], [4, size, 0, 0], () => 'no room for the records')
    same(numbersOf(three.edit(0, 1, '[')), [21, size, size, 0], () => 'room again')
    same(one.edit(2, 3, 'bb').records(), tokenize('a\nbb\n').records(), () => 'the first document again')
    // An audit needs room for the records.
    const long = reader.tokenize('()'.repeat(500_000))
    reader.unload()
    await reader.load(wasm())
    without(() => throws(RangeError, () => long.audit()))
    same([long.audit()], [null], () => 'room for an audit')
}

/** What stands in a reading stays, whatever is read afterwards. */
function keeps() {
    const bytes = encode('é = 1\n')
    const reading = tokenize(bytes)
    const document = new PythonDocument('ü = 2\n')
    const before = [...reading.records()]
    bytes.fill(0x28)
    tokenize('('.repeat(100_000))
    new PythonDocument('[\n'.repeat(50_000)).edit(0, 0, ')')
    same(reading.records(), before, () => 'records')
    const wanted = [[3, 0, 1, 0], [30, 2, 3, 0], [4, 4, 5, 0], [0, 5, 6, 0]].flat()
    same(reading.utf16(), wanted, () => 'UTF-16')
    same(document.utf16(), wanted, () => 'a document that was displaced')
}

/** A .wasm whose door srv_version answers this number, and which has nothing else. */
function wasmOfInterface(version) {
    const name = [...encode('srv_version')]
    const section = (id, ...bytes) => [id, bytes.length, ...bytes]
    const type = section(1, 1, 0x60, 0, 1, 0x7f)
    const exported = section(7, 1, name.length, ...name, 0, 0)
    const code = section(10, 1, 4, 0, 0x41, version, 0x0b)
    return Uint8Array.of(0, 97, 115, 109, 1, 0, 0, 0, ...type, ...section(3, 1, 0), ...exported, ...code)
}

async function starting() {
    const another = await import('../sroviemat.js?another')
    throws(another.CannotStart, () => another.tokenize('x'))
    throws(another.CannotStart, () => new another.PythonDocument('x'))
    const refused = async (source, words) => {
        const error = await another.load(source).catch((error) => error)
        if (!(error instanceof another.CannotStart) || !words.test(error.message)) throw new Error(`not refused as it should be: ${error}`)
    }
    await refused(Uint8Array.of(0, 97, 115, 109), /cut short/)
    await refused(Uint8Array.of(0, 97, 115, 109, 1, 0, 0, 0), /another program/)
    for (const version of [1, 2, 3, 4, 6]) await refused(wasmOfInterface(version), new RegExp(`interface ${version}, and 5 is needed`))
    await refused('http://127.0.0.1:1/none.wasm', /cannot be fetched/)
    const engine = globalThis.WebAssembly
    delete globalThis.WebAssembly
    await refused(wasm(), /no WebAssembly/)
    globalThis.WebAssembly = engine
    const module = await WebAssembly.compile(wasm())
    if (WebAssembly.Module.imports(module).length) throw new Error('the .wasm imports something')
    await another.load(module)
    same(another.tokenize('x').records(), [3, 0, 1, 0, 0, 1, 1, 0], () => 'after loading')
}

const original = oracleAtHand()
await load(wasm())
await test('the fixed list', () => compareList(fixedList()))
if (original) await test('random texts', () => compareList(randomList(TEXTS, SEED)))
if (original) await test('classes', compareClasses)
else console.log('random texts, classes: the oracle is not built (oracle/build); the fixed list stands for it')
const texts = [...fixedList()].filter((frame) => frame.code !== 3).map((frame) => decoder.decode(frame.text))
await test('edits of documents', () => compareEdits(texts, EDITS, original))
await test('a long document', longDocument)
await test('the longest text', limits)
await test('the longest text, through the door', limitOfTheDoor)
await test('lone surrogates', surrogates)
await test('refusals', refusals)
await test('modes', modes)
await test('what was read stays', keeps)
await test('no more memory', noMemory)
await test('starting', starting)
report()
