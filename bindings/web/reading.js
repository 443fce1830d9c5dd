// What a reading answers, and what stands where in its text.
import { wrongBracketOf } from './brackets.js'
import { faultOf } from './faults.js'
import { decoded, written } from './held.js'
import { END, KIND, KINDS, LINE, START, STRIDE } from './names.js'
import { inUtf16, isInsideBytes } from './offsets.js'
import { checkOffset, checkWithin } from './values.js'

/** How a reading ended, its records, and what stands where in its text. */
export class Reading {
    #held
    #mode
    /** What was worked out of the reading with this answer. */
    #known = { answer: null }

    constructor(held, mode) {
        this.#held = held
        this.#mode = mode
    }

    get #here() {
        if (!this.#held) throw new Error('What was freed cannot be asked any more.')
        return this.#held
    }

    get mode() {
        return this.#mode
    }

    /** The text, with U+FFFD for lone surrogates and for what is no UTF-8. */
    get text() {
        return this.#here.text
    }

    /** The bytes of the text; 0 where it is too long to be read. */
    get byteLength() {
        return this.#here.byteLength
    }

    get code() {
        return this.#here.answer.code
    }

    get count() {
        return this.#here.answer.count
    }

    get place() {
        return this.#here.answer.place
    }

    get detail() {
        return this.#here.answer.detail
    }

    /** The place as a UTF-16 offset. */
    get placeUtf16() {
        return this.utf16Of(this.place)
    }

    /** What a person has to mend, in UTF-16 offsets; null where there is no fault. Worked out once a reading. */
    get fault() {
        return this.#once('fault', () => this.#findFault())
    }

    /** The first wrong bracket, in UTF-16 offsets; null where every closer is right. The reader is asked once a reading. */
    audit() {
        return this.#once('audit', () => this.#findWrongBracket())
    }

    #once(name, find) {
        const { answer } = this.#here
        if (this.#known.answer !== answer) this.#known = { answer }
        if (!(name in this.#known)) this.#known[name] = find()
        return this.#known[name]
    }

    #findFault() {
        if (this.code === 3) return this.#faultOfBytes()
        if (this.code < 20) return null
        const { code, placeUtf16: place, detail } = this
        return faultOf({ code, place, detail }, this.utf16(this.#newlineBefore(this.#records)), this.text)
    }

    /** What the bytes show that are no UTF-8; in the text U+FFFD stands for them, once or twice. */
    #faultOfBytes() {
        const { answer, given } = this.#here
        const start = this.placeUtf16
        const fault = faultOf(answer, [], given)
        return { ...fault, start, end: start + decoded(given.subarray(fault.start, fault.end)).length }
    }

    #findWrongBracket() {
        const answer = this.#here.audit()
        if (answer.place === this.#records) return null
        const first = this.#newlineBefore(answer.place)
        return wrongBracketOf(answer, this.utf16(first, answer.place + 1), this.text)
    }

    /** The index of the last Newline before a record, behind which the brackets are that are open there; without one, 0. */
    #newlineBefore(index) {
        const row = this.#row(0, index)
        let i = row.length - STRIDE
        while (i > 0 && row[i] !== KIND.Newline) i -= STRIDE
        return Math.max(0, i / STRIDE)
    }

    /** The records from one index to another: kind, start, end, line of each, in bytes, the line from 0. */
    records(first, after) {
        return this.#row(first, after).slice()
    }

    /** The same with UTF-16 offsets in place of bytes; kind and line stay. */
    utf16(first, after) {
        const row = this.#row(first, after)
        if (row.length === 0 || this.#isAscii) return row.slice()
        return inUtf16(row, this.#here.bytes, this.utf16Of(row[1]))
    }

    /** The same as objects: kind, name, start, end in UTF-16 offsets, line from 0, text. */
    tokens(first, after) {
        return tokensOf(this.utf16(first, after), this.text)
    }

    [Symbol.iterator]() {
        return this.tokens()
    }

    /** The indices of the records from one UTF-16 offset to another: the first, and the one behind the last. */
    between(from, to) {
        checkOffset('from', from, 0, this.text)
        checkOffset('to', to, from, this.text)
        if (this.#records === 0) return [0, 0]
        const [a, b] = [this.byteOf(from), this.byteOf(to)]
        return [this.#firstWith((start, end) => end > a || start >= a), this.#firstWith((start, end) => end > b && start >= b)]
    }

    /** The index of the first record that ends behind this byte. */
    recordBehind(byte) {
        checkWithin('byte', byte, 0, this.#here.bytes.length)
        return this.#firstWith((_, end) => end > byte)
    }

    /** The UTF-16 offset of a byte. */
    utf16Of(byte) {
        const { bytes, marks } = this.#here
        checkWithin('byte', byte, 0, bytes.length)
        if (isInsideBytes(bytes, byte)) throw new RangeError(`byte must not be inside a character, as ${byte} is`)
        return this.#isAscii ? byte : marks.unitOf(bytes, byte)
    }

    /** The byte of a UTF-16 offset. */
    byteOf(offset) {
        checkOffset('offset', offset, 0, this.text)
        const { bytes, marks } = this.#here
        const byte = this.#isAscii ? offset : marks.byteOf(bytes, offset)
        if (byte <= bytes.length) return byte
        throw new RangeError(`offset ${offset} has no byte: the text is too long to be read, or not known to be UTF-8 before it`)
    }

    /** Line and column of a UTF-16 offset, from 1, the column in characters; and the offset at which the line starts. */
    positionOf(offset) {
        checkOffset('offset', offset, 0, this.text)
        return this.#here.lines.positionOf(this.text, offset, this.#isAscii)
    }

    /** Gives back what this holds. Nothing can be asked afterwards. */
    free() {
        this.#held?.free()
        this.#held = null
    }

    get #isAscii() {
        return this.byteLength === this.text.length
    }

    get #records() {
        return written(this.#here.answer)
    }

    /** The records from one index to another, for a look. An `after` behind the last stands for all. */
    #row(first = 0, after = this.#records) {
        checkWithin('first', first, 0, this.#records)
        checkWithin('after', after, first, Infinity)
        return this.#here.row(first, Math.min(after, this.#records))
    }

    /** The index of the first record of which this holds, as it does of all behind it. */
    #firstWith(holds) {
        const row = this.#row()
        let low = 0
        let high = this.#records
        while (low < high) {
            const middle = (low + high) >> 1
            if (holds(row[STRIDE * middle + START], row[STRIDE * middle + END])) high = middle
            else low = middle + 1
        }
        return low
    }
}

if (Symbol.dispose) Reading.prototype[Symbol.dispose] = Reading.prototype.free

function* tokensOf(row, text) {
    for (let i = 0; i < row.length; i += STRIDE) {
        const kind = row[i]
        const start = row[i + START]
        const end = row[i + END]
        yield { kind, name: KINDS.get(kind), start, end, line: row[i + LINE], text: text.slice(start, end) }
    }
}
