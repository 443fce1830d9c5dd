// What a person has to mend where a reading ended with a fault, and the sentence that says so; the reader need not be loaded.
//
//     import { faultOf } from './faults.js'
//     const { start, end, message } = faultOf(reading, reading.records(), bytes)
//
//     a string that is not closed    from its opening quote to its line's end; triple-quoted, to the text's end
//     an open bracket at the end     the innermost opener that is still open, by the reader's one count of all brackets
//     a character, a closer          itself
//     blanks                         those at the line's start
//     a number                       the literal from its start on
//     a backslash                    itself
//     bytes that are no UTF-8        up to the one that shows it, but not one that cuts a character off
//
// The place of an answer is where the reader stood when it gave up, which is often behind that, or on another line. What it
// gave up on begins behind the last record and the blanks, comments, newlines and continuations that follow it.
// (The Rust crate's explanation.rs says the same; bindings/faults-cases.txt has the cases for both.)
import { openIn } from './brackets.js'
import { BYTES, END, FAULTS, HINTS, LINE, START, STRIDE } from './names.js'
import { columnOf, isContinuation, lineEnds, lineStart } from './offsets.js'
import { filled, isShown, placed, shown } from './sentences.js'

/** What a code's faults are about, with the words of each. */
const WORDS = new Map(FAULTS.map(([code]) => [code, new Map(FAULTS.filter(([other]) => other === code).map(([, cause, words]) => [cause, words]))]))

/**
 * What is wrong with a text that was read to a fault; null where it was not (codes 0, 1, 2, 4, 5 and 6), and with code 3
 * where the text does not have those bytes, as no string has.
 * `answer`: code, place and detail. `records`: kind, start, end and line of each record. Both are in the units of `text`: UTF-16
 * offsets for a string, byte numbers for bytes. Of the records only the last is looked at, but with code 21 all are.
 */
export function faultOf({ code, place, detail }, records, text) {
    if (code === 3) return typeof text === 'string' ? null : faultOfBytes(place, detail, text)
    if (!WORDS.has(code)) return null
    const source = typeof text === 'string' ? new Units(text) : new Bytes(text)
    const { cause, start, end, record = records.length - STRIDE } = within(source.letters.length, found(code, place, detail, records, source))
    const at = { line: lineFrom(record, start, records, source.letters), column: source.column(start) }
    const message = filled(WORDS.get(code).get(cause), {
        at: () => placed(at),
        line: () => at.line,
        text: () => shown(code === 26 ? detail : source.letters.charCodeAt(start)),
    })
    return { code, cause, bytes: null, start, end, origin: ['string', 'tripled', 'bracket'].includes(cause) ? start : null, at, message, latin1: null }
}

/** Records of another text may lie outside this one. */
const within = (length, { start, end, ...more }) => ({ ...more, start: Math.min(start, length), end: Math.max(Math.min(start, length), Math.min(end, length)) })

/** The line of a place, from 1, counted on from a record before it or at it, or from the text's start where there is none. */
function lineFrom(record, place, records, letters) {
    const [start, line] = record < 0 ? [0, 0] : [records[record + START], records[record + LINE]]
    return line + lineEnds(letters, start, place) + 1
}

function found(code, place, detail, records, source) {
    if (code === 23 || code === 24 || code === 25 || code === 33) return blanksAt(place, source)
    const { item, backslash } = behind(lastEnd(records) ?? source.begin, source.letters)
    const one = (cause) => ({ cause, start: item, end: item + 1 })
    switch (code) {
        case 20:
            return { cause: 'string', start: quoteAt(item, source.letters), end: place }
        case 21:
            return atEnd(place, item, backslash, records, source.letters)
        case 22:
            return one('closer')
        case 26:
            return { cause: 'character', start: item, end: item + source.width(detail) }
        case 27:
            return one('backslash')
        case 28:
            return { cause: 'string', start: quoteAt(item, source.letters), end: beforeNewline(place, source.letters) }
        default:
            return { cause: 'number', start: item, end: numberEnd(item, source.letters) }
    }
}

/** The end of the last record. */
const lastEnd = (records) => records[records.length - STRIDE + END]

/** Where what stands between tokens ends, and the last backslash in it that goes on with a line (-1 for none). */
function behind(from, letters) {
    const between = /[ \t\f\r\n]+|#[^\r\n]*|\\(?:\r\n?|\n)/y
    let backslash = -1
    let item = from
    for (;;) {
        between.lastIndex = item
        if (!between.test(letters)) return { item, backslash }
        if (letters[item] === '\\') backslash = item
        item = between.lastIndex
    }
}

/** The end of a match at a place. */
function matched(pattern, place, letters) {
    pattern.lastIndex = place
    return pattern.test(letters) ? pattern.lastIndex : place
}

/** The opening quote of a string that begins at a place, behind the letters before it. */
const quoteAt = (item, letters) => matched(/[A-Za-z]{0,2}(?=['"])/y, item, letters)

const isTripled = (item, letters) => /'''|"""/.test(letters.slice(quoteAt(item, letters), quoteAt(item, letters) + 3))

const beforeNewline = (place, letters) => place - (letters[place - 1] === '\n' && letters[place - 2] === '\r' ? 2 : 1)

/** The end of a number: letters, digits, underscores and points, and a sign behind an e. */
function numberEnd(item, letters) {
    const end = matched(/[\w.]*/y, item, letters)
    return /[eE]/.test(letters[end - 1]) && /[+-]/.test(letters[end]) ? matched(/[\w.]*/y, end + 1, letters) : end
}

/** The text ends in a triple-quoted string, within brackets, or behind a backslash. */
function atEnd(place, item, backslash, records, letters) {
    if (isTripled(item, letters)) return { cause: 'tripled', start: quoteAt(item, letters), end: place }
    const open = openIn(records)
    if (open >= 0) return { cause: 'bracket', start: records[open + START], end: records[open + START] + 1, record: open }
    return backslash < 0 ? { cause: 'backslash', start: place, end: place } : { cause: 'backslash', start: backslash, end: backslash + 1 }
}

/** The blanks at the start of a place's line. */
function blanksAt(place, { letters, begin }) {
    const start = Math.max(begin, lineStart(letters, place))
    return { cause: 'blanks', start, end: matched(/[ \t\f]*/y, start, letters) }
}

// ---- bytes that are no UTF-8

/** The fault at a place, which the detail of code 3 numbers; null where the text has no such bytes. */
function faultOfBytes(start, detail, bytes) {
    const [, name, words] = BYTES.find(([number]) => number === detail) ?? []
    const { end, next } = shownBy(name, start, bytes)
    if (!name || bytes[start] === undefined || (words.includes('{next}') && next === undefined)) return null
    const source = new Bytes(bytes)
    const at = { line: lineEnds(source.letters, 0, start) + 1, column: source.column(start) }
    const utf16 = start === 0 && isUtf16(bytes)
    const latin1 = utf16 ? null : latin1At(start, bytes)
    const hint = utf16 ? HINTS.utf16 : latin1 ? HINTS.latin1 : ''
    const message = filled(`${words} ${hint}`.trim(), {
        byte: () => hex(bytes[start]),
        next: () => hex(next),
        at: () => placed(at),
        text: () => latin1,
    })
    return { code: 3, cause: 'bytes', bytes: name, start, end, origin: null, at, message, latin1 }
}

/** Where the bytes of a fault end, and the byte that shows it where it stands behind the first. */
function shownBy(name, start, bytes) {
    switch (name) {
        case 'stray':
        case 'unused':
            return { end: start + 1 }
        case 'cut-by-end':
            return { end: bytes.length }
        case 'cut-by-byte': {
            let end = start + 1
            while (isContinuation(bytes[end])) end++
            return { end, next: bytes[end] }
        }
        default:
            return { end: start + 2, next: bytes[start + 1] }
    }
}

/** Whether bytes begin as a text in UTF-16 does. */
const isUtf16 = ([first, second]) => (first === 0xff && second === 0xfe) || (first === 0xfe && second === 0xff)

/** The character that a byte with no continuation byte behind it is in Latin-1; null where that cannot be shown. */
function latin1At(place, bytes) {
    const byte = bytes[place]
    return byte < 0x80 || isContinuation(bytes[place + 1]) || !isShown(byte) ? null : String.fromCodePoint(byte)
}

/** A byte in two digits. */
const hex = (byte) => byte.toString(16).toUpperCase().padStart(2, '0')

// ---- texts

/** A string, in UTF-16 units. */
class Units {
    constructor(text) {
        this.letters = text
        this.begin = text.startsWith('\ufeff') ? 1 : 0
    }

    /** How many units a character has. */
    width(number) {
        return number > 0xffff ? 2 : 1
    }

    column(offset) {
        return columnOf(this.letters, offset)
    }
}

/** UTF-8, a letter for each byte. */
class Bytes {
    constructor(bytes) {
        this.letters = new TextDecoder('latin1').decode(bytes)
        this.bytes = bytes
        this.begin = bytes[0] === 0xef && bytes[1] === 0xbb && bytes[2] === 0xbf ? 3 : 0
    }

    width(number) {
        return number < 0x80 ? 1 : number < 0x800 ? 2 : number < 0x10000 ? 3 : 4
    }

    column(place) {
        let column = 1
        for (let i = Math.max(this.begin, lineStart(this.letters, place)); i < place; i++) if (!isContinuation(this.bytes[i])) column++
        return column
    }
}
