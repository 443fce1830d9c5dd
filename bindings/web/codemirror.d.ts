import type { Fault } from './faults.js'
import type { Mode, PythonDocument, WrongBracket } from './sroviemat.js'

/** A place in an editor, as CodeMirror.Pos. */
export interface Position {
    readonly line: number
    readonly ch: number
}

/** An editor of CodeMirror 5.65; of its many methods only these are named here. */
export interface Editor {
    getValue(separator?: string): string
    getOption(name: never): unknown
    operation<T>(run: () => T): T
}

/** The gutter of the signs. A page that wants it elsewhere than behind its own gutters names it in `gutters`. */
export declare const FAULT_GUTTER: 'sroviemat-faults'

/** The gutter of a BlockGutter's words, for a page that names its `gutters`. */
export declare const BLOCK_GUTTER: 'sroviemat-blocks'

/** What is shown beside the lines of a block. */
export interface ShownBlock {
    /** The first and the last line of the text, from 0, as records and folds have them. */
    readonly startLine: number
    readonly endLine: number
    /** The class of the bar down its lines. */
    readonly bar: string
    /** What stands in its first line, and the class of the element in which it does. */
    readonly words: string
    readonly mark: string
}

/** Blocks in a gutter of fixed width; what a block is, and what is said of it, is the page's. The editor's `gutters` name BLOCK_GUTTER. */
export declare class BlockGutter {
    constructor(editor: Editor, reader: EditorReader)
    /** Shows blocks, which stand in the order of their lines and have none in common, in place of those before. */
    show(blocks: readonly ShownBlock[]): void
    /** Takes everything off the editor again. */
    dispose(): void
}

/**
 * Keys for folding, for the editor's `extraKeys`: Ctrl-Shift-[ folds at the caret, Ctrl-Shift-] opens, Ctrl-K Ctrl-0 folds
 * all, Ctrl-K Ctrl-J opens all. They need CodeMirror's addon fold/foldcode.js.
 */
export declare const FOLD_KEYS: Readonly<Record<string, any>>

/**
 * Reads what an editor of CodeMirror 5.65 holds: colours it from the records, marks the fault and the first wrong bracket in the
 * text and in a gutter, and, where the addons fold/foldcode.js and fold/foldgutter.js are there, says what folds. The reader
 * must be loaded.
 */
export declare class EditorReader {
    /** Throws a TypeError where the editor is not one of CodeMirror 5.65. `mode`: MODULE_WITH_COMMENTS by itself. */
    constructor(editor: Editor, options?: { mode?: Mode })

    /**
     * The document of what the editor holds; after `setMode` and `swapDoc` it is another, and the one before is freed.
     * Like `row`, `fault` and `wrongBracket`, it is read first where that is still to be done: whoever does not want to wait
     * for it in a long text asks in `onRead`.
     */
    readonly document: PythonDocument
    /** All records with UTF-16 offsets, the line of each from 0, worked out once a reading. */
    readonly row: Uint32Array
    /** What is wrong with the text, or null. */
    readonly fault: Fault | null
    /** The first wrong bracket, or null: what the document's `audit` says. */
    readonly wrongBracket: WrongBracket | null

    /**
     * Calls back after each reading: before the editor draws, or, where a short change was made in a long text, behind the
     * next frame. Returns what ends it.
     */
    onRead(heard: () => void): () => void
    /** Reads the text in another mode. In a mode without comments these have no colour. */
    setMode(mode: Mode): void
    /** The editor's position of a UTF-16 offset. */
    position(offset: number): Position
    /** The UTF-16 offset of an editor's position. */
    offset(position: Position): number
    /**
     * The editor's line of a line of the text, which is from 0, as records and folds have it. Both are the same number, unless the
     * editor's document has another first line, or a `lineSeparator`: other line ends are then kept within a line.
     */
    editorLine(line: number): number
    /** Reads what is not read yet. */
    flush(): void
    /** Takes everything off the editor again: colours, marks, folds, gutters, options. Nothing can be asked afterwards. */
    dispose(): void
}
