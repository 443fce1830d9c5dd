// The original's answers, from the fixed list and, where the oracle is built, for random texts.
import { spawnSync } from 'node:child_process'
import { existsSync, readFileSync } from 'node:fs'
import { ANSWER, STRIDE } from '../names.js'

const ROOT = new URL('../../../', import.meta.url)
const oracle = (program) => new URL(`oracle/target/release/${program}`, ROOT)
const MOST_OUTPUT = 1 << 30

export const wasm = () => readFileSync(new URL('bindings/web/sroviemat.wasm', ROOT))
export const oracleAtHand = () => existsSync(oracle('oracle')) && existsSync(oracle('make-list'))
export const fixedList = () => frames(readFileSync(new URL('crates/replay/stdin', ROOT)))
export const randomList = (count, seed) => frames(run('make-list', ['--random', count, seed]))

function run(program, words, input) {
    const { status, stdout, error } = spawnSync(oracle(program).pathname, words.map(String), { input, maxBuffer: MOST_OUTPUT })
    if (status !== 0) throw new Error(`${program} ended with status ${status}: ${error ?? ''}`)
    return stdout
}

/** The frames of a list; their form stands at the head of oracle/answers/src/bin/make-list.rs. */
function* frames(data) {
    const view = new DataView(data.buffer, data.byteOffset, data.byteLength)
    let at = 0
    const number = () => view.getUint32((at += 4) - 4, true)
    while (at < data.length) {
        const [mode, start, row, length, written] = Array.from({ length: 5 }, number)
        const [code, count, place, detail] = Array.from({ length: ANSWER }, number)
        const text = new Uint8Array(data.subarray(at, at + length))
        at += length
        const records = Array.from({ length: STRIDE * written }, number)
        yield { mode, start, row, text, code, count, place, detail, records }
    }
}

/**
 * The original's classes of every character: 1 for a start of identifiers, 2 for a continuation, 4 for an emoji, added.
 * The underscore is a start by lexer.rs itself, not by its table.
 */
export function classes() {
    const lines = run('oracle', ['--class', 0, 0x10ffff]).toString().trimEnd().split('\n')
    return new Map(lines.map((line) => line.split(' ').map(Number)).map(([c, start, more, emoji]) => [c, (c === 0x5f ? 1 : start) + 2 * more + 4 * emoji]))
}

/** The original's answers to whole texts at start 0 with room enough: code, count, place, detail, and the records. */
export function ask(questions) {
    const parts = questions.flatMap(({ text, mode }) => [new Uint8Array(Uint32Array.of(mode, 0, 0xffffffff, text.length).buffer), text])
    const lines = run('oracle', ['--batch'], Buffer.concat(parts)).toString().trimEnd().split('\n')
    return lines.map((line) => {
        const numbers = line.split(' ').map(Number)
        const [code, count, place, detail] = numbers
        return { code, count, place, detail, records: numbers.slice(ANSWER) }
    })
}
