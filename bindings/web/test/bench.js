// How fast the reader is in this engine: the doors themselves, `tokenize`, and a document's edits. For Node and a page.
import { ANSWER } from '../names.js'
import { PythonDocument, STRIDE, tokenize } from '../sroviemat.js'

/** The best time of so many turns, each long enough for the clock, in nanoseconds. */
function best(turns, work) {
    let times = 1
    let least = Infinity
    for (let turn = 0; turn < turns; turn++) {
        const began = performance.now()
        for (let i = 0; i < times; i++) work()
        const took = performance.now() - began
        least = Math.min(least, took / times)
        if (took < 2) times *= 2
    }
    return least * 1e6
}

/** srv_read over a text in a memory of its own, with room for so many records. */
async function door(wasm, bytes, records) {
    const { exports } = (await WebAssembly.instantiate(wasm)).instance
    const answerAt = exports.__heap_base.value + 16
    const textAt = answerAt + 4 * ANSWER
    const rowAt = textAt + Math.ceil(bytes.length / 4) * 4
    exports.memory.grow(Math.ceil((bytes.length + 4 * STRIDE * records) / 65_536) + 2)
    new Uint8Array(exports.memory.buffer, textAt, bytes.length).set(bytes)
    return () => {
        exports.srv_read(textAt, BigInt(bytes.length), 0, 0, rowAt, BigInt(STRIDE * records), answerAt)
        const code = new Uint32Array(exports.memory.buffer, answerAt, 1)[0]
        if (code !== 0) throw new Error(`the reading ended with code ${code}`)
    }
}

/** Nanoseconds a byte, and milliseconds for an edit; the reader is loaded. */
export async function bench(wasm, text, turns) {
    const bytes = new TextEncoder().encode(text)
    const { count } = tokenize(text)
    const fits = await door(wasm, bytes, count)
    const ample = await door(wasm, bytes, 2 * bytes.length + 1)
    const a_byte = (nanoseconds) => nanoseconds / bytes.length
    const edited = (at) => {
        const document = new PythonDocument(text)
        let there = false
        const time = best(turns, () => {
            document.edit(at, there ? at + 1 : at, there ? '' : ' ')
            there = !there
        })
        return time / 1e6
    }
    const lineAt = (offset) => text.lastIndexOf('\n', offset) + 1
    return {
        bytes: bytes.length,
        records: count,
        fits: a_byte(best(turns, fits)),
        ample: a_byte(best(turns, ample)),
        tokenize: a_byte(best(turns, () => tokenize(text))),
        first: edited(0),
        middle: edited(lineAt(text.length / 2)),
        last: edited(text.length),
    }
}
