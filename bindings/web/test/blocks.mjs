// The blocks that the page marks (demo/blocks.js), drawn by hand: each text with the words of its blocks.
import { load, MODULE, MODULE_WITH_COMMENTS, PythonDocument } from '../sroviemat.js'
import { withBlocks, wordsOfBlock } from '../demo/blocks.js'
import { report, same, test } from './checks.mjs'
import { wasm } from './frames.mjs'

const FINISHED = [
    ['', ''],
    ['with a:\n    b\n', 'never'],
    ['with a:\n    to_linear(b)\n', 'once'],
    ['with a:\n    to_linear (to_linear(b))\n', '2 times'],
    ['with a: to_linear(b)\n', 'once'],
    ['with a: b', 'never'],
    ['with a:', 'never'],
    ['with a:\n    to_linear(b)', 'once'],
    ['with to_linear(a): to_linear(b)\n', '2 times'],
    ['with (a,\n      b):\n    to_linear(c)\n', 'once'],
    ['x = "é😀"; y\nwith a: to_linear(b)\n', 'once'],
    // Only at the start of a line, with no indent open.
    ['if x:\n    with a:\n        to_linear(b)\n', ''],
    ['async with a:\n    to_linear(b)\n', ''],
    ['x; with a: to_linear(b)\n', ''],
    ['with a:\n    with b:\n        to_linear(c)\nto_linear(d)\n', 'once'],
    // Comments and blank lines end nothing, and stand between a name and its bracket.
    ['with a:\n    b\n# at the margin\n    to_linear(c)\n', 'once'],
    ['with a:  # c\n\n    to_linear(b)\n\n# d\n\nto_linear(e)\n', 'once'],
    ['with a: b\n# c\n    # d\nto_linear(e)\n', 'never'],
    ['with a:\n    f(to_linear # c\n\n      (b))\n', 'once'],
    // The name alone, another name, a name on another line.
    ['with a:\n    to_linear\n    (b)\n', 'never'],
    ['with a:\n    to_linear.c(b); to_linear_(b); x.to_linear(b)\n', 'once'],
    // Behind the block there is a fault.
    ['with a: to_linear(b)\nx $\n', 'once'],
    ['with a:\n    to_linear(b)\nx $\n', 'once'],
]

const UNFINISHED = [
    ["with a:\n    b = 'c\n    to_linear(d)\n", 'unfinished'],
    ['with a: to_linear($)\n', 'unfinished'],
    ['with $\n', 'unfinished'],
    ['with a:\n    to_linear(b)\n    (\n', 'unfinished'],
    ['with a:\n    b\nwith c:\n    d)\nwith e: f\n', 'never unfinished'],
    // The last line was read, but not what closes the block.
    ['with a:\n    to_linear(b)\n  c\n', 'unfinished'],
    ['with a:\n    to_linear(b)\n$\n', 'unfinished'],
    ['with a: to_linear(b)\n$\n', 'unfinished'],
    ['with a: to_linear(b)\n# c\n\n$\n', 'unfinished'],
]

/** Tokens and statements of several lines. */
const OVER_LINES = ["with a: '''\n\n'''\nb\n", "with a: \\\n b\nwith c:\n  '''\n''' $", "with a: 'b\\\nc'", 'with a: f(\n# b\n\n)\nc\n']

function words(text, mode) {
    const document = new PythonDocument(text, mode)
    return withBlocks(document.utf16(), text, document.code === 0).map(wordsOfBlock).join(' ')
}

function compare(cases) {
    for (const mode of [MODULE, MODULE_WITH_COMMENTS]) for (const [text, wanted] of cases) same(words(text, mode), wanted, () => `${JSON.stringify(text)} in mode ${mode}`)
    return `${cases.length} texts`
}

/** A block begins in its keyword's line; with other line ends and a BOM it has the same lines. */
function lines() {
    const drawn = [...FINISHED, ...UNFINISHED].map(([text]) => text)
    let found = 0
    for (const text of [...drawn, ...OVER_LINES]) {
        const [wanted, ...others] = ['\n', '\r', '\r\n'].flatMap((end) => ['', '\ufeff'].map((bom) => linesOfBlocks(bom + text.replaceAll('\n', end))))
        for (const other of others) same(other, wanted, () => JSON.stringify(text))
        found += wanted.length / 2
    }
    return `${found} blocks`
}

/** The first and last lines of a text's blocks, one after another. */
function linesOfBlocks(text) {
    const document = new PythonDocument(text, MODULE_WITH_COMMENTS)
    return withBlocks(document.utf16(), text, document.code === 0).flatMap(({ start, startLine, endLine }) => {
        same([startLine], [document.positionOf(start).line - 1], () => JSON.stringify(text))
        if (!(startLine <= endLine && endLine < document.positionOf(text.length).line)) throw new Error(`lines ${startLine} to ${endLine} of ${JSON.stringify(text)}`)
        return [startLine, endLine]
    })
}

await load(wasm())
await test('blocks that were read to their end', () => compare(FINISHED))
await test('blocks that were not', () => compare(UNFINISHED))
await test('lines of blocks', lines)
report()
