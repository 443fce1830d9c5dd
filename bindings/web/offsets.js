// Places in a text: bytes, UTF-16 offsets, lines and columns. Each table is filled as far as it is asked for.
import { END, LINE, sortOf, START, STRIDE } from './names.js'

/** Every so many bytes or offsets a count is kept. */
const MARK = 4096

const LF = 10
const CR = 13

/** Whether a byte goes on with a character. */
export const isContinuation = (byte) => (byte & 0xc0) === 0x80

const isLowHalf = (unit) => unit >= 0xdc00 && unit <= 0xdfff

/** Whether an offset stands between the two halves of a character. The text has no lone halves. */
export const isInside = (text, offset) => isLowHalf(text.charCodeAt(offset))

/** Whether a byte is behind the first of its character. */
export const isInsideBytes = (bytes, byte) => isContinuation(bytes[byte])

/** The index of the last number that is not above `x`, in numbers that rise; 0 where all are. */
function lastUpTo(numbers, x) {
    let low = 0
    let high = numbers.length
    while (high - low > 1) {
        const middle = (low + high) >> 1
        if (numbers[middle] <= x) low = middle
        else high = middle
    }
    return low
}

/** How many UTF-16 units the characters have that start in bytes `from` to `to`. */
function units(bytes, from, to) {
    let count = 0
    for (let i = from; i < to; i++) {
        const byte = bytes[i]
        if (!isContinuation(byte)) count += byte >= 0xf0 ? 2 : 1
    }
    return count
}

/** How many characters of two halves stand from one offset to another. */
function pairs(text, from, to) {
    let count = 0
    for (let i = from; i < to; i++) if (isLowHalf(text.charCodeAt(i))) count++
    return count
}

/** UTF-16 offsets of bytes, and bytes of UTF-16 offsets. */
export class Marks {
    /** The UTF-16 offset of every 4096th byte. */
    #units = [0]

    /** The text changes behind this byte. */
    forget(byte) {
        this.#units.length = Math.min(this.#units.length, Math.floor(byte / MARK) + 1)
    }

    unitOf(bytes, byte) {
        const mark = Math.floor(byte / MARK)
        while (this.#units.length <= mark) this.#add(bytes)
        return this.#units[mark] + units(bytes, mark * MARK, byte)
    }

    /** Infinity for an offset behind the bytes. */
    byteOf(bytes, offset) {
        while (this.#units.at(-1) < offset && this.#units.length * MARK <= bytes.length) this.#add(bytes)
        const mark = lastUpTo(this.#units, offset)
        let byte = mark * MARK
        let unit = this.#units[mark]
        // A mark may stand inside a character, which is counted before it.
        while (isContinuation(bytes[byte])) byte++
        while (unit < offset && byte < bytes.length) {
            const lead = bytes[byte]
            byte += lead < 0x80 ? 1 : lead < 0xe0 ? 2 : lead < 0xf0 ? 3 : 4
            unit += lead < 0xf0 ? 1 : 2
        }
        return unit < offset ? Infinity : byte
    }

    #add(bytes) {
        const last = this.#units.length - 1
        this.#units.push(this.#units[last] + units(bytes, last * MARK, (last + 1) * MARK))
    }
}

/** Whether a line ends behind the letter at a place: LF, or CR with no LF behind it. */
function endsLine(letters, place) {
    const unit = letters.charCodeAt(place)
    return unit === LF || (unit === CR && letters.charCodeAt(place + 1) !== LF)
}

/** How many line ends end behind one place and up to another. */
export function lineEnds(letters, from, to) {
    let count = 0
    for (let i = from; i < to; i++) if (endsLine(letters, i)) count++
    return count
}

/** Where the line of a place starts. */
export function lineStart(letters, place) {
    let start = place
    while (start > 0 && !endsLine(letters, start - 1)) start--
    return start
}

/** The column of an offset, from 1, in characters, of which a BOM at the text's start is none. It looks at one line alone. */
export function columnOf(text, offset) {
    const bom = text.startsWith('\ufeff') ? 1 : 0
    let column = 1
    for (let i = Math.max(lineStart(text, offset), bom); i < offset; i += text.codePointAt(i) > 0xffff ? 2 : 1) column++
    return column
}

/** The line of a record's last letter, from 0, as the record has that of its start: a string may have line ends within. */
export function lastLine(row, i, letters) {
    return row[i + LINE] + (sortOf(row[i]) === 'string' ? lineEnds(letters, row[i + START], row[i + END]) : 0)
}

/** A row with UTF-16 offsets in place of bytes: one pass from the first record's start, whose offset is `unit`. Lines stay. */
export function inUtf16(row, bytes, unit) {
    const other = row.slice()
    let byte = row[1]
    const to = (place) => {
        unit += place < byte ? -units(bytes, place, byte) : units(bytes, byte, place)
        byte = place
        return unit
    }
    for (let i = 0; i < row.length; i += STRIDE) {
        other[i + START] = to(row[i + START])
        other[i + END] = to(row[i + END])
    }
    return other
}

/** Lines and columns of UTF-16 offsets. A line ends with LF, CR or CR LF. */
export class Lines {
    /** The offsets at which lines start. */
    #starts = [0]
    /** Where the first LF and the first CR stand behind the last of them; -1 where that was not looked for. */
    #next = { lf: -1, cr: -1 }
    /** How many characters of two halves stand before every 4096th offset. */
    #pairs = [0]

    /** The text changes behind this offset. */
    forget(offset) {
        // A line that starts there starts elsewhere where LF comes to stand behind CR.
        this.#starts.length = lastUpTo(this.#starts, offset - 1) + 1
        this.#next = { lf: -1, cr: -1 }
        this.#pairs.length = Math.min(this.#pairs.length, Math.floor(offset / MARK) + 1)
    }

    /** Line and column from 1, the column in characters, of which a BOM is none; and the offset at which the line starts. */
    positionOf(text, offset, isAscii) {
        this.#fill(text, offset)
        const line = lastUpTo(this.#starts, offset)
        const lineStart = this.#starts[line]
        const bom = line === 0 && offset > 0 && text.startsWith('\ufeff') ? 1 : 0
        const halves = isAscii ? 0 : this.#pairsBetween(text, lineStart, offset)
        return { line: line + 1, column: offset - lineStart - halves - bom + 1, lineStart }
    }

    /** Lines up to that of an offset. */
    #fill(text, offset) {
        const starts = this.#starts
        let from = starts.at(-1)
        let { lf, cr } = this.#next
        while (from <= offset) {
            if (lf < from) lf = next(text, '\n', from)
            if (cr < from) cr = next(text, '\r', from)
            const newline = lf === cr + 1 ? lf : Math.min(lf, cr)
            if (newline === Infinity) break
            from = newline + 1
            starts.push(from)
        }
        this.#next = { lf, cr }
    }

    #pairsBetween(text, from, to) {
        return to - from <= MARK ? pairs(text, from, to) : this.#pairsBefore(text, to) - this.#pairsBefore(text, from)
    }

    #pairsBefore(text, offset) {
        const mark = Math.floor(offset / MARK)
        for (let last = this.#pairs.length - 1; last < mark; last++) {
            this.#pairs.push(this.#pairs[last] + pairs(text, last * MARK, (last + 1) * MARK))
        }
        return this.#pairs[mark] + pairs(text, mark * MARK, offset)
    }
}

/** Where a sign stands from an offset on, or Infinity. */
function next(text, sign, from) {
    const at = text.indexOf(sign, from)
    return at < 0 ? Infinity : at
}
