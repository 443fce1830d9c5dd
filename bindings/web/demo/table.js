// The table of the records near the caret.
import { KINDS, STRIDE } from '../names.js'
import { element, fromOne, get } from './page.js'

/** Records shown before and behind the caret's. */
const NEAR = 8
/** Letters of a record's text that are shown. */
const MOST_LETTERS = 40

/** Shows the records of a document near an offset; a wrong bracket and the opener that it meets are marked as in the text. */
export function showRecords(document, caret) {
    const bracket = document.audit()
    // A text that is too long has no bytes.
    const here = document.byteLength === 0 ? 0 : document.recordBehind(document.byteOf(caret))
    const first = Math.max(0, here - NEAR)
    const bytes = document.records(first, here + NEAR + 1)
    const units = document.utf16(first, here + NEAR + 1)
    const rows = []
    for (let i = 0; i < bytes.length; i += STRIDE) {
        const index = first + i / STRIDE
        const [kind, start, end, line] = bytes.subarray(i, i + STRIDE)
        const [, from, to] = units.subarray(i, i + STRIDE)
        const letters = document.text.slice(from, Math.min(to, from + MOST_LETTERS)) + (to > from + MOST_LETTERS ? '…' : '')
        const mark = index === bracket?.index ? 'sroviemat-wrong-bracket' : index === bracket?.opener?.index ? 'sroviemat-met-opener' : ''
        const cells = [index, fromOne(line), kind, KINDS.get(kind), `${start}–${end}`, `${from}–${to}`]
        rows.push(row(cells, element('code', mark, visible(letters)), index === here))
    }
    get('records').replaceChildren(...rows)
}

function row(cells, letters, isHere) {
    const made = element('tr', isHere ? 'here' : '')
    const text = element('td')
    text.append(letters)
    made.append(...cells.map((cell) => element('td', '', cell)), text)
    return made
}

/** A text with a sign for each newline and tab, and for each space where there is nothing else. */
const visible = (text) => text.replaceAll('\n', '⏎').replaceAll('\t', '⇥').replace(/^ +$/, (blanks) => '␣'.repeat(blanks.length))
