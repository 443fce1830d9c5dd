// The reader for a page: the tokens of a Python text by the proved reader, compiled to WebAssembly (tools/build-wasm).
//
//     import { load, tokenize, PythonDocument } from './sroviemat.js'
//     await load()
//     for (const { name, start, end, line, text } of tokenize('x = 1\n')) ...
//     const document = new PythonDocument('x = 1\n')
//     document.edit(4, 5, '23')                // re-reads from the line before the edit on
//     document.utf16()                         // kind, start, end, line of each record, one after another, in UTF-16 offsets
//     document.audit()                         // the first wrong bracket, or null
//
// Strings go in as UTF-8. UTF-8 has no bytes for a lone surrogate: each becomes U+FFFD, one UTF-16 unit as well, so
// offsets stay what they are. names.js says kinds and codes in words.
import { Edited, Held, MOST_BYTES, NOTHING, TOO_LONG, written } from './held.js'
import { END, LINE, START, STRIDE } from './names.js'
import { Reading } from './reading.js'
import { likelyRecords, Room } from './room.js'
import { CannotStart, compiled, instance } from './starting.js'
import { bytesOf, checkMode, checkOffset, checkString, checkText, wellFormed } from './values.js'

export { CannotStart, END, LINE, MOST_BYTES, START, STRIDE }

/** The modes of a reading. Those with comments list them, and the newlines that end no logical line. */
export const MODULE = 0
export const INTERACTIVE = 1
export const EXPRESSION = 2
export const MODULE_WITH_COMMENTS = 3
export const INTERACTIVE_WITH_COMMENTS = 4
export const EXPRESSION_WITH_COMMENTS = 5

// ---- starting

/** Once the reader is loaded: the memory of the documents, and that of `tokenize`, which displaces none of them. */
let rooms = null

/**
 * Compiles the reader and makes it ready; later calls return at once.
 * `source`: the .wasm as bytes or as a compiled module, or where it is. By itself it is taken from beside this file.
 */
export async function load(source = new URL('./sroviemat.wasm', import.meta.url)) {
    if (rooms) return
    const module = await compiled(source)
    const [documents, whole] = await Promise.all([instance(module), instance(module)])
    rooms ??= { documents: new Room(documents), whole: new Room(whole) }
}

/** Gives all of the reader's memory back. Documents keep their texts and records; before the next edit `load` is needed again. */
export function unload() {
    rooms?.documents.give(null)
    rooms = null
}

/** How many bytes the reader's memory has, which grows with the longest texts; 0 where it is not loaded. */
export const memoryBytes = () => (rooms ? rooms.documents.size + rooms.whole.size : 0)

function loaded() {
    if (!rooms) throw new CannotStart('The reader is not loaded: wait for load() first.')
    return rooms
}

// ---- reading

/** The memory of `tokenize`, in which its readings are audited too. */
const wholeRoom = () => loaded().whole

/** Reads a whole text: a string, or bytes that should be UTF-8 (code 3 says where they are not, and how). */
export function tokenize(text, mode = MODULE) {
    const room = wholeRoom()
    checkText(text)
    checkMode(mode)
    const string = typeof text === 'string' ? wellFormed(text) : null
    const bytes = bytesOf(string ?? text, MOST_BYTES)
    if (!bytes) return new Reading(new Held(string ?? '', NOTHING, TOO_LONG, wholeRoom), mode)
    room.make(bytes.length, likelyRecords(bytes.length), 0)
    room.text(bytes.length).set(bytes)
    const answer = room.read(bytes.length, mode)
    return new Reading(new Held(string, { bytes, row: room.row(0, written(answer)).slice() }, answer, wholeRoom), mode)
}

/** A text with its records, which are re-read after each edit. Documents do not disturb each other. */
export class PythonDocument extends Reading {
    #edited

    constructor(text = '', mode = MODULE) {
        loaded()
        checkString('text', text)
        checkMode(mode)
        const edited = new Edited(wellFormed(text), mode, () => loaded().documents)
        super(edited, mode)
        this.#edited = edited
    }

    /**
     * Puts `text` in place of what stands from one UTF-16 offset to another, and re-reads. Throws a RangeError and
     * changes nothing where an offset is outside the text or between the two halves of a character, or where there is
     * no more memory.
     */
    edit(from, to, text) {
        checkString('text', text)
        checkOffset('from', from, 0, this.text)
        checkOffset('to', to, from, this.text)
        this.#edited.replace(from, to, wellFormed(text))
        return this
    }
}
