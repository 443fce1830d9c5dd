// A text with its bytes, its row and its answer: one that stays, or one that is edited.
import { STRIDE } from './names.js'
import { Lines, Marks } from './offsets.js'
import { likelyRecords } from './room.js'

/** The most bytes that a text may have; a longer one is refused with code 1. */
export const MOST_BYTES = 16_777_216

/** Codes 1 to 6 write no records, whatever the count says. */
export const written = (answer) => (answer.code >= 1 && answer.code <= 6 ? 0 : answer.count)

/** The answer to a text that is too long. */
export const TOO_LONG = { code: 1, count: 0, place: 0, detail: 0 }
export const NOTHING = { bytes: new Uint8Array(0), row: new Uint32Array(0) }

const decoder = new TextDecoder('utf-8', { ignoreBOM: true })

/** Bytes as a string, with U+FFFD for each part that is no UTF-8. */
export const decoded = (bytes) => decoder.decode(bytes)

/** A text, its bytes and its row, which are copies here. */
export class Held {
    answer
    lines = new Lines()
    marks = new Marks()
    /** The text's bytes as far as they are known to be UTF-8, for a look. */
    bytes
    #text
    #bytes
    #row
    #home

    /**
     * The text is a string, or null: then it is what the bytes say, which are not looked at in a mode that there is not.
     * `home` tells the memory in which the row is audited.
     */
    constructor(text, { bytes, row }, answer, home) {
        const isUnknown = text === null && (answer.code === 2 || answer.code === 3)
        this.bytes = isUnknown ? bytes.subarray(0, answer.place) : bytes
        this.#text = text
        this.#bytes = bytes
        this.#row = row
        this.#home = home
        this.answer = answer
    }

    get text() {
        return (this.#text ??= decoded(this.#bytes))
    }

    /** All of the text's bytes, UTF-8 or not, for a look. */
    get given() {
        return this.#bytes
    }

    get byteLength() {
        return this.#bytes.length
    }

    /** The records from one index to another, for a look. */
    row(first, after) {
        return this.#row.subarray(STRIDE * first, STRIDE * after)
    }

    /** The answer of an audit of the row. */
    audit() {
        const room = this.#home()
        const records = this.#row.length / STRIDE
        room.make(0, records, 0)
        room.row(0, records).set(this.#row)
        return room.audit(records)
    }

    free() {}
}

const encoder = new TextEncoder()

/** A text whose bytes and row are in the documents' memory, or are copies while another text is there. */
export class Edited {
    text = ''
    byteLength = 0
    answer
    lines = new Lines()
    marks = new Marks()
    #mode
    #home
    #records = 0
    #room = null
    /** Copies of the bytes and the row, while another text is in the memory; null while it is this one. */
    #away = NOTHING
    /** Whether the text is too long to be read: it is kept as a string alone. */
    #long = false

    /** `home` tells the documents' memory. */
    constructor(text, mode, home) {
        this.#mode = mode
        this.#home = home
        this.replace(0, 0, text)
    }

    get bytes() {
        return this.#away ? this.#away.bytes : this.#room.text(this.byteLength)
    }

    row(first, after) {
        return this.#away ? this.#away.row.subarray(STRIDE * first, STRIDE * after) : this.#room.row(first, after)
    }

    /** The answer of an audit of the row. */
    audit() {
        this.#come(this.byteLength)
        return this.#room.audit(this.#records)
    }

    /** Another text is to be in the memory. */
    leave() {
        this.#away = { bytes: this.bytes.slice(), row: this.row(0, this.#records).slice() }
        this.#room = null
    }

    free() {
        this.#keepLong('')
    }

    /** Puts a text in place of what stands between two offsets, and re-reads. */
    replace(from, to, text) {
        const changed = this.text.slice(0, from) + text + this.text.slice(to)
        if (this.#long) return this.#renew(changed)
        if (changed.length > MOST_BYTES) return this.#keepLong(changed)
        const a = this.#byteOf(from)
        const b = this.#byteOf(to)
        const put = encoder.encode(text)
        const size = this.byteLength - (b - a) + put.length
        if (size > MOST_BYTES) return this.#keepLong(changed)
        this.#come(size)
        this.#room.text(Math.max(size, this.byteLength)).copyWithin(a + put.length, b, this.byteLength)
        this.#room.text(size).set(put, a)
        this.text = changed
        this.byteLength = size
        this.marks.forget(a)
        this.lines.forget(from)
        this.answer = this.#room.reread(size, this.#mode, this.#records, a)
        this.#records = written(this.answer)
    }

    #byteOf(offset) {
        return this.byteLength === this.text.length ? offset : this.marks.byteOf(this.bytes, offset)
    }

    /** The bytes and the row are in the documents' memory afterwards, with room for a text of another size. */
    #come(size) {
        const room = this.#home()
        room.give(this)
        room.make(Math.max(size, this.byteLength), Math.max(likelyRecords(size), this.#records), this.#away ? 0 : this.#records)
        this.#room = room
        if (!this.#away) return
        room.text(this.byteLength).set(this.#away.bytes)
        room.row(0, this.#records).set(this.#away.row)
        this.#away = null
    }

    /** The text is too long: nothing of it is in the memory. */
    #keepLong(text) {
        this.#room?.leave(this)
        this.#room = null
        this.#away = NOTHING
        this.byteLength = this.#records = 0
        this.marks.forget(0)
        this.lines.forget(0)
        this.#long = true
        this.text = text
        this.answer = TOO_LONG
    }

    /** A text that was too long, edited: it is read whole if it can be. */
    #renew(text) {
        const before = this.text
        this.#long = false
        this.text = ''
        try {
            this.replace(0, 0, text)
        } catch (error) {
            this.#keepLong(before)
            throw error
        }
    }
}
