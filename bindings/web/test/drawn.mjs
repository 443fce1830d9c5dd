// The tables of cases that are drawn below their texts, for both bindings: bindings/faults-cases.txt, where the form stands at the
// head, and bindings/brackets-cases.txt.
import { readFileSync } from 'node:fs'

const LINE_ENDS = ['\n', '\r\n', '\r']

/** The cases of a table: the title, the lines, the first and the last place marked, and the name and message behind the exclamation mark. */
export function cases(table) {
    const all = []
    for (const line of readFileSync(table, 'utf8').split('\n')) {
        const last = all.at(-1)
        if (line === '' || line.startsWith('#')) continue
        if (line.startsWith('|')) last.lines.push(drawn(line.slice(2)))
        else if (line.startsWith(' ')) mark(last, line.slice(2))
        else if (line.startsWith('! ')) [, last.name, last.message] = /^! (\S+) (.*)$/.exec(line)
        else all.push({ title: line, lines: [], first: null, last: null })
    }
    return all
}

/** The characters of a drawn line, each with the columns that it is drawn in. A byte of no character is a Uint8Array. */
function drawn(line) {
    const characters = []
    let column = 0
    for (const [piece, byte, number] of line.matchAll(/⟪([0-9A-F]{2})⟫|⟨([0-9A-F]+)⟩|./gu)) {
        const letter = number ? String.fromCodePoint(parseInt(number, 16)) : piece.replace('→', '\t').replace('␌', '\f')
        const character = byte ? Uint8Array.of(parseInt(byte, 16)) : letter
        const width = [...piece].length
        characters.push({ character, column, width })
        column += width
    }
    return characters
}

/** The marks below the last line of a case: which of its characters they are under, the line end among them. */
function mark(one, marks) {
    const line = one.lines.length - 1
    const characters = one.lines[line]
    const end = characters.length ? characters.at(-1).column + characters.at(-1).width : 0
    for (const [column, sign] of [...marks].entries()) {
        if (sign === ' ') continue
        if (sign === '^' && one.first) throw new Error(`${one.title}: a second ^`)
        const at = column === end ? characters.length : characters.findIndex((c) => c.column <= column && column < c.column + c.width)
        if (at < 0) throw new Error(`${one.title}: a mark below nothing`)
        if (sign === '^') one.first = [line, at]
        one.last = [line, at]
    }
}

/** A case's text with each line end, with and without a BOM: its bytes, its string or null, and where it is marked in each. */
export function* texts(one) {
    for (const end of LINE_ENDS) {
        for (const bom of ['', '\ufeff']) {
            const [bytes, units] = [utf8, utf16].map((size) => written(one, end, bom, size))
            const isString = !units.pieces.some(isByte)
            yield { given: Buffer.concat(bytes.pieces.map(encoded)), text: isString ? units.pieces.join('') : null, inBytes: bytes.span, inUnits: units.span }
        }
    }
}

/** The pieces of a case's text, and where it is marked, in the units of `size`. */
function written({ lines, first, last }, end, bom, size) {
    const pieces = [bom]
    const starts = new Map()
    let at = size(bom)
    const put = (key, piece) => {
        starts.set(key, [at, at + size(piece)])
        pieces.push(piece)
        at += size(piece)
    }
    lines.forEach((characters, line) => {
        characters.forEach(({ character }, i) => put(`${line} ${i}`, character))
        if (line < lines.length - 1) put(`${line} ${characters.length}`, end)
    })
    return { pieces, span: { start: starts.get(first.join(' '))[0], end: starts.get(last.join(' '))[1] } }
}

const isByte = (piece) => typeof piece !== 'string'
const utf16 = (text) => text.length

/** The bytes of a piece, and how many. */
export const encoded = (piece) => (isByte(piece) ? piece : new TextEncoder().encode(piece))
export const utf8 = (piece) => encoded(piece).length
