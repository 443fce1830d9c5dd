// The brackets of a list of records, and what is said of one that is wrong.
//
// A closer is right only if it closes the latest opener that is still open, of its own kind; up to 200 openers may be open.
// Which record breaks that first, the reader says (its door srv_audit); what is wrong with it stands here. (The Rust crate's
// brackets.rs says the same; bindings/brackets-cases.txt has the cases for both.)
import { BRACKETS, CLOSERS, END, LINE, OPENERS, START, STRIDE } from './names.js'
import { columnOf } from './offsets.js'
import { filled, placed, shown } from './sentences.js'

/** The code of an audit that came to a 201st open bracket. */
const TOO_MANY = 34

/** Where in a row the latest opener stands that is still open, all kinds counted as one; -1 where none is. */
export function openIn(row) {
    for (let i = row.length - STRIDE, closed = 0; i >= 0; i -= STRIDE) {
        if (CLOSERS.has(row[i])) closed++
        else if (OPENERS.has(row[i]) && closed-- === 0) return i
    }
    return -1
}

/**
 * What is wrong with the bracket that an audit answers with. `answer`: its code and place, the bracket's index. `row`: kind, start,
 * end and line of the records up to the bracket, from one on behind which all openers stand that are open there, in offsets of
 * `text`.
 */
export function wrongBracketOf({ code, place: index }, row, text) {
    const last = row.length - STRIDE
    // The closers before it are right: the latest opener that is open is found by their count.
    const met = code === TOO_MANY ? -1 : openIn(row.subarray(0, last))
    const record = (i) => ({ index: index - (last - i) / STRIDE, start: row[i + START], end: row[i + END] })
    const letter = ({ start }) => shown(text.charCodeAt(start))
    const position = (i) => ({ line: row[i + LINE] + 1, column: columnOf(text, row[i + START]) })
    const wrong = record(last)
    const opener = met < 0 ? null : record(met)
    const fault = code === TOO_MANY ? 'too-many' : opener ? 'mismatched' : 'unopened'
    const at = position(last)
    const message = filled(BRACKETS.get(fault), {
        text: () => letter(wrong),
        at: () => placed(at),
        opener: () => letter(opener),
        opened: () => placed(position(met)),
    })
    return { fault, ...wrong, opener, at, message }
}
