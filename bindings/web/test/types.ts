// What a program in TypeScript writes; test/package.mjs compiles it against the package. A line behind @ts-expect-error must not compile.
import { CannotStart, load, memoryBytes, MODULE_WITH_COMMENTS, PythonDocument, STRIDE, tokenize, unload } from 'sroviemat'
import type { BracketFault, BytesFault, Code, Fault, Kind, KindName, Mode, Position, Reading, Token, WrongBracket } from 'sroviemat'
import { faultOf } from 'sroviemat/faults.js'
import { foldsOf } from 'sroviemat/folds.js'
import { BRACKETS, ENDINGS, KIND, KINDS, sortOf } from 'sroviemat/names.js'
import { BlockGutter, EditorReader } from 'sroviemat/codemirror.js'

declare global {
    interface SymbolConstructor {
        readonly dispose: unique symbol
    }
}

await load().catch((error: unknown) => {
    if (error instanceof CannotStart) console.log(error.message)
})
await load(new URL('file:///x'))
await load(new Uint8Array(8))

const mode: Mode = MODULE_WITH_COMMENTS
const document: PythonDocument = new PythonDocument('x', mode).edit(0, 1, 'y')
const readings: Reading[] = [document, tokenize('x'), tokenize(new Uint8Array(2), 0)]
for (const reading of readings) {
    const tokens: Token[] = [...reading, ...reading.tokens(0, 1), ...reading.tokens(...reading.between(0, 1))]
    const kinds: Kind[] = tokens.map(({ kind }) => kind)
    const lines: number[] = tokens.map(({ line }) => line)
    const names: (KindName | undefined)[] = [...kinds.map((kind) => KINDS.get(kind)), ...tokens.map(({ name }) => name)]
    const code: Code = reading.code
    const fault: Fault | null = reading.fault
    const bytes: BytesFault | null | undefined = fault?.bytes
    const latin1: string | null | undefined = fault?.latin1
    if (fault?.cause === 'bytes' && bytes === 'cut-by-byte' && reading.detail === 4) console.log(latin1?.length)
    const bracket: WrongBracket | null = reading.audit()
    const wrong: BracketFault | undefined = bracket?.fault
    if (wrong === 'mismatched') console.log(bracket?.opener?.index, bracket?.at.line, BRACKETS.get(wrong))
    const position: Position = reading.positionOf(0)
    const row: Uint32Array = reading.utf16(0, 1)
    for (let i = 0; i < row.length; i += STRIDE) console.log(row[i], names, lines, ENDINGS.get(code), fault?.message, position.line)
    foldsOf(reading.records(), reading.text)
    faultOf(reading, reading.records(), new Uint8Array(0))
}
if (readings[0].code === 26) console.log(sortOf(KIND['Keyword with']))
for (const { kind, name } of document) if (kind === 3 && name === 'Name') break
const bytes: number = memoryBytes()
document[Symbol.dispose]()
document.free()
unload()
new EditorReader(null as any).document.text
new EditorReader(null as any).wrongBracket?.message
const editorLine: number = new EditorReader(null as any).editorLine(0)
new BlockGutter(null as any, null as any).show([{ startLine: 0, endLine: editorLine, bar: 'a', words: 'b', mark: 'c' }])

// @ts-expect-error
new PythonDocument('x', 6)
// @ts-expect-error
new PythonDocument(new Uint8Array(2))
// @ts-expect-error
tokenize(5)
// @ts-expect-error
document.code = 1
// @ts-expect-error
if (document.code === 7) console.log(bytes)
// @ts-expect-error
if (document.fault?.bytes === 'cut') console.log(bytes)
// @ts-expect-error
if (document.audit()?.fault === 'unclosed') console.log(bytes)
// @ts-expect-error
document.audit()!.opener.index
// @ts-expect-error
for (const { name } of document) if (name === 'Nmae') break
// @ts-expect-error
KIND['Keyword wiht']
// @ts-expect-error
faultOf(document, [], 'x', () => ({ line: 1, column: 1 }))
// @ts-expect-error
new BlockGutter(null as any, null as any).show([{ start: 0, end: 1, bar: 'a', words: 'b', mark: 'c' }])
// @ts-expect-error
tokenize('x').edit(0, 0, 'y')
// @ts-expect-error
document.records('0')
