import type { Fault } from './faults.js'
import type { BracketFault, Code, Kind, KindName } from './names.js'

export type { Fault } from './faults.js'
export type { BracketFault, BytesFault, Code, Kind, KindName } from './names.js'
export { END, LINE, START, STRIDE } from './names.js'

/** Mode 0: a module. */
export declare const MODULE: 0
/** Mode 1: a line typed at a prompt. */
export declare const INTERACTIVE: 1
/** Mode 2: an expression. */
export declare const EXPRESSION: 2
/** Mode 3: a module, with its comments (kind 7) and the newlines that end no logical line (kind 8) in the list. */
export declare const MODULE_WITH_COMMENTS: 3
/** Mode 4: a line typed at a prompt, with comments and all newlines. */
export declare const INTERACTIVE_WITH_COMMENTS: 4
/** Mode 5: an expression, with comments and all newlines. */
export declare const EXPRESSION_WITH_COMMENTS: 5

/** The number of a mode. */
export type Mode = 0 | 1 | 2 | 3 | 4 | 5

/** The most bytes that a text may have; a longer one is refused with code 1. */
export declare const MOST_BYTES: 16777216

/** The reader cannot start: the message says why, `cause` what the engine said. */
export declare class CannotStart extends Error {}

/**
 * Compiles the reader and makes it ready; later calls return at once. Throws CannotStart: there is no WebAssembly, or
 * without SIMD; the .wasm is missing, empty, cut short, damaged, no .wasm at all, another program, or of another interface.
 * `source`: the .wasm as bytes or as a compiled module, or where it is (under Node a `file:` URL and a path, too). By
 * itself it is taken from beside the JavaScript file.
 */
export declare function load(source?: URL | string | BufferSource | WebAssembly.Module): Promise<void>

/**
 * Gives all of the reader's memory back, which grows with the longest texts and does not shrink. Documents keep their
 * texts and records; before the next edit or `tokenize` the reader must be loaded again.
 */
export declare function unload(): void

/** How many bytes the reader's memory has; 0 where it is not loaded. */
export declare function memoryBytes(): number

/** A token or comment. */
export interface Token {
    readonly kind: Kind
    readonly name: KindName
    /** UTF-16 offsets. */
    readonly start: number
    readonly end: number
    /** The line of the start, from 0, as in the rows: `positionOf(start).line` is one more. */
    readonly line: number
    readonly text: string
}

/** Where an offset is, as people count. An editor that counts from 0 in UTF-16 has `line - 1` and `offset - lineStart`. */
export interface Position {
    /** From 1, where a record's line is from 0. A line ends with LF, CR or CR LF. */
    readonly line: number
    /** From 1, in characters, of which a BOM at the text's start is none. */
    readonly column: number
    /** The UTF-16 offset at which the line starts. */
    readonly lineStart: number
}

/** The first bracket of a list that is wrong: a closer, or the opener of a 201st open bracket. */
export interface WrongBracket {
    /**
     * mismatched: a closer does not close the latest opener that is still open, which is of another kind. unopened: none is
     * open; no reading has such a record, as it ends there with code 22. too-many: 200 brackets are open, and this opens another.
     */
    readonly fault: BracketFault
    /** The index of its record. */
    readonly index: number
    /** UTF-16 offsets. */
    readonly start: number
    readonly end: number
    /** The opener that a mismatched closer meets; null for other faults. */
    readonly opener: { readonly index: number; readonly start: number; readonly end: number } | null
    /** The line and column of `start`, from 1, the column in characters. A BOM at the text's start is none. */
    readonly at: { readonly line: number; readonly column: number }
    /** A sentence: "`)` at 1:3 does not close `[` at 1:2, the latest bracket that is open." */
    readonly message: string
}

/** `free` by its other name, for `using`, where the compiler knows `Symbol.dispose`. */
export type Freed = { [name in SymbolConstructor extends { readonly dispose: infer Name } ? Name & symbol : never]: () => void }

/**
 * How a reading ended, its records, and what stands where in its text.
 *
 * Offsets are UTF-16 offsets, as in a JavaScript string; a record's index is from 0. A number that is no integer, is out of
 * range or stands inside a character is a RangeError. Where a range is asked for, `first` goes up to the number of records,
 * and `after` is not below it; an `after` above that number stands for it, as in `slice`.
 */
export interface Reading extends Iterable<Token>, Freed {
    /** The text, with U+FFFD for lone surrogates and for what is no UTF-8; empty for bytes that are too long to be read. */
    readonly text: string
    readonly mode: Mode
    /** The bytes of the text; 0 where it is too long to be read. */
    readonly byteLength: number
    /** 0: read to the end. 1 to 4: refused, with no records. 20 to 33: how the reading ended before the text's end. */
    readonly code: Code
    /** How many records there are; with code 4, which only a lack of memory can bring, how many are needed. */
    readonly count: number
    /** In bytes: the text's end, or where the ending shows. */
    readonly place: number
    /** With code 3 what is wrong with the bytes (1 to 7), with code 26 the number of the character, otherwise 0. */
    readonly detail: number
    /** The place as a UTF-16 offset. */
    readonly placeUtf16: number
    /** What a person has to mend, in UTF-16 offsets; null where there is no fault. With code 3 it is U+FFFD, once or twice. */
    readonly fault: Fault | null

    /**
     * The first wrong bracket among the records; null where every closer closes the latest opener that is still open, of its own
     * kind, and no more than 200 are open at once. The reading itself counts all kinds as one: `([)]` ends with code 0.
     * The reader is asked once a reading, and must be loaded for it: CannotStart, or a RangeError where there is no more memory.
     */
    audit(): WrongBracket | null
    /**
     * The records from one index to another, all by itself: STRIDE numbers each, kind, start, end and line, the places in bytes.
     * The line is that of the start, from 0: the number of line ends (LF, CR, CR LF as one) that end at or before it, those
     * within strings among them. A copy.
     */
    records(first?: number, after?: number): Uint32Array
    /** The same with UTF-16 offsets in place of bytes; kind and line stay. */
    utf16(first?: number, after?: number): Uint32Array
    /** The same as objects, with UTF-16 offsets; what is edited meanwhile does not change them. */
    tokens(first?: number, after?: number): IterableIterator<Token>
    /**
     * The indices, `[first, after]`, of the records that have a character between two offsets, and of those without
     * characters that stand there, at the borders too: `tokens(...between(from, to))`.
     */
    between(from: number, to: number): [first: number, after: number]
    /** The index of the first record that ends behind this byte. */
    recordBehind(byte: number): number
    /** The UTF-16 offset of a byte. */
    utf16Of(byte: number): number
    /** The byte of a UTF-16 offset. */
    byteOf(offset: number): number
    /** Line and column of a UTF-16 offset, both from 1. */
    positionOf(offset: number): Position
    /** Gives back what this holds; anything asked of it afterwards is an Error. */
    free(): void
}

/**
 * Reads a whole text: a string, or bytes that should be UTF-8 (code 3 says where they are not, and how).
 * A lone surrogate in a string is read as U+FFFD. It has a memory of its own, apart from the documents'.
 */
export declare function tokenize(text: string | Uint8Array, mode?: Mode): Reading

/** A text with its records, which are re-read after each edit. Documents do not disturb each other. */
export declare class PythonDocument {
    constructor(text?: string, mode?: Mode)

    /**
     * Puts `text` in place of what stands from one UTF-16 offset to another, and re-reads. Throws a RangeError and
     * changes nothing where an offset is outside the text or between the two halves of a character, or where there is
     * no more memory.
     */
    edit(from: number, to: number, text: string): this
}
export interface PythonDocument extends Reading {}
