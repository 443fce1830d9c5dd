// What the Rust crate says of a text: by its example `tokens`, where that is built (bindings/rust/test).
import { spawnSync } from 'node:child_process'
import { existsSync } from 'node:fs'

const TOKENS = new URL('../../rust/target/debug/examples/tokens', import.meta.url).pathname

export const rustAtHand = () => existsSync(TOKENS)

/** The status that it ends with, and of each thing that is to be mended its line and column, the sentence and the marks below its line. */
export function toldByRust(text) {
    const { status, stdout } = spawnSync(TOKENS, ['-'], { input: text })
    const lines = stdout.toString().split('\n')
    const told = lines.flatMap((line, i) => {
        const marks = /^ +\|\s+(\^~*)$/.exec(line)
        if (!marks) return []
        const [, at, message] = /^<stdin>:(\d+:\d+): (.*)$/.exec(lines[i - 2])
        return [{ at, message, marks: marks[1] }]
    })
    return { status, told }
}
