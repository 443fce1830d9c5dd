// The memory of one instance of the reader, behind the reader's own data: an answer, a text, a row.
import { ANSWER, STRIDE } from './names.js'

const PAGE = 65_536
const NUMBER_BYTES = 4
const RECORD_BYTES = NUMBER_BYTES * STRIDE

/** What is asked for, or half as much again as there was, whichever is more. */
const grown = (had, needed) => (needed <= had ? had : Math.max(needed, had + (had >> 1)))

/** It holds one text at a time, that of its holder; a holder that another one displaces takes copies along (its `leave`). */
export class Room {
    #exports
    #holder = null
    #answerAt
    #textAt
    #textRoom = 0
    #rowRoom = 0

    constructor(exports) {
        this.#exports = exports
        this.#answerAt = Math.ceil(exports.__heap_base.value / 16) * 16
        this.#textAt = this.#answerAt + NUMBER_BYTES * ANSWER
    }

    /** The bytes that it takes. */
    get size() {
        return this.#exports.memory.buffer.byteLength
    }

    get #rowAt() {
        return this.#textAt + this.#textRoom
    }

    /** The place is given to another holder, or to none. */
    give(holder) {
        if (this.#holder === holder) return
        this.#holder?.leave()
        this.#holder = holder
    }

    /** A holder goes and takes nothing along. */
    leave(holder) {
        if (this.#holder === holder) this.#holder = null
    }

    /** Room for so many bytes and records; the text, and so many records of the row, stay as they are. A RangeError where there is none. */
    make(bytes, records, kept) {
        const textRoom = Math.ceil(grown(this.#textRoom, bytes) / NUMBER_BYTES) * NUMBER_BYTES
        const rowRoom = grown(this.#rowRoom, records)
        const rowAt = this.#textAt + textRoom
        const short = rowAt + rowRoom * RECORD_BYTES - this.#exports.memory.buffer.byteLength
        if (short > 0) this.#grow(Math.ceil(short / PAGE))
        if (rowAt !== this.#rowAt) {
            new Uint8Array(this.#exports.memory.buffer).copyWithin(rowAt, this.#rowAt, this.#rowAt + kept * RECORD_BYTES)
        }
        this.#textRoom = textRoom
        this.#rowRoom = rowRoom
    }

    #grow(pages) {
        try {
            this.#exports.memory.grow(pages)
        } catch (cause) {
            throw new RangeError('There is no more memory for the reader', { cause })
        }
    }

    /** The text's bytes; the view is good until the next `make`. */
    text(length) {
        return new Uint8Array(this.#exports.memory.buffer, this.#textAt, length)
    }

    /** The row's numbers from one record to another; the view is good until the next `make`. */
    row(first, after) {
        return new Uint32Array(this.#exports.memory.buffer, this.#rowAt + first * RECORD_BYTES, STRIDE * (after - first))
    }

    /** Re-reads the text of this length, of which the first `a` bytes are as they were when `old` records were written. */
    reread(length, mode, old, a) {
        return this.#asked(length, old, () =>
            this.#exports.srv_reread(this.#textAt, BigInt(length), mode, this.#rowAt, this.#numbers, old, a, this.#answerAt)
        )
    }

    /** Reads the text of this length. */
    read(length, mode) {
        return this.#asked(length, 0, () =>
            this.#exports.srv_read(this.#textAt, BigInt(length), mode, 0, this.#rowAt, this.#numbers, this.#answerAt)
        )
    }

    /** Audits the brackets of the row's first records, so many. */
    audit(records) {
        this.#exports.srv_audit(this.#rowAt, this.#numbers, records, this.#answerAt)
        return this.#answer
    }

    get #numbers() {
        return BigInt(STRIDE * this.#rowRoom)
    }

    /** The answer to a question, which is put again with a longer row where code 4 says how long it must be. */
    #asked(length, kept, question) {
        question()
        if (this.#answer.code !== 4) return this.#answer
        try {
            this.make(length, this.#answer.count, kept)
        } catch {
            return this.#answer
        }
        question()
        return this.#answer
    }

    get #answer() {
        const [code, count, place, detail] = new Uint32Array(this.#exports.memory.buffer, this.#answerAt, ANSWER)
        return { code, count, place, detail }
    }
}

/**
 * Room to begin with for the records of a text. A text up to 2 MB gets room for all that it can have: it is then read
 * without being measured first, in half the time, and what is not written costs address space alone. A longer one gets
 * room for one record in two bytes, and more where code 4 asks for it.
 */
export const likelyRecords = (bytes) => (bytes <= 2 ** 21 ? 2 * bytes + 1 : bytes >> 1)
