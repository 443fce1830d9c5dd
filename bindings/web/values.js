// What callers hand over, and the errors that name it.
import { isInside } from './offsets.js'

/** A value in words, for the message of an error. */
export function described(value) {
    if (value === null || value === undefined) return String(value)
    const shown = typeof value === 'string' ? JSON.stringify(value.length > 40 ? `${value.slice(0, 40)}…` : value) : nameOf(value)
    return `${shown} (${typeof value})`
}

const nameOf = (value) => (typeof value === 'object' || typeof value === 'function' ? Object.prototype.toString.call(value) : String(value))

/** The string with U+FFFD for each lone surrogate. */
export const wellFormed = (text) => (text.isWellFormed?.() ? text : text.replace(/\p{Surrogate}/gu, '\ufffd'))

const encoder = new TextEncoder()

/** A copy of a text's bytes; null where they are more than so many. The text is well-formed, or is bytes already. */
export function bytesOf(text, most) {
    if (text.length > most) return null
    const bytes = typeof text === 'string' ? encoder.encode(text) : copied(text)
    return bytes.length > most ? null : bytes
}

function copied(bytes) {
    try {
        return new Uint8Array(bytes)
    } catch (cause) {
        throw new TypeError('text has a buffer that is detached, or shorter than it was', { cause })
    }
}

/** Whether it is a Uint8Array, of this realm or another. */
const isBytes = (value) => ArrayBuffer.isView(value) && value[Symbol.toStringTag] === 'Uint8Array'

export function checkString(name, value) {
    if (typeof value !== 'string') throw new TypeError(`${name} must be a string, not ${described(value)}`)
}

export function checkText(text) {
    if (typeof text !== 'string' && !isBytes(text)) throw new TypeError(`text must be a string or a Uint8Array, not ${described(text)}`)
}

/** A number of 32 bits, as the reader takes a mode. */
export function checkMode(mode) {
    if (Number.isInteger(mode) && mode >= 0 && mode <= 0xffffffff) return
    throw new TypeError(`mode must be a number such as MODULE, not ${described(mode)}`)
}

/** An integer between two bounds, which are among the allowed. */
export function checkWithin(name, value, least, most) {
    if (Number.isInteger(value) && value >= least && value <= most) return
    const range = most === Infinity ? `${least} on` : `${least} to ${most}`
    throw new RangeError(`${name} must be an integer from ${range}, not ${described(value)}`)
}

/** A UTF-16 offset of the text, between two characters. */
export function checkOffset(name, offset, least, text) {
    checkWithin(name, offset, least, text.length)
    if (isInside(text, offset)) throw new RangeError(`${name} must not be between the two halves of a character, as ${offset} is`)
}
