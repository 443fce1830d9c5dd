/** Lines that fold: the first stays in view, and those behind it up to the last, which is among them, can be hidden. From 0. */
export interface Fold {
    /** The line that stays in view. */
    readonly startLine: number
    /** The last line that can be hidden; it is behind `startLine`. */
    readonly endLine: number
    /** A block, a pair of brackets, or comment lines that follow one another. */
    readonly kind: 'block' | 'bracket' | 'comments'
}

/**
 * The lines that fold in a text, from its records alone; the reader need not be loaded.
 * `records`: kind, start, end and line of each record, read in a mode with comments, in the units of the text: with a string
 * UTF-16 offsets (`document.utf16()` and `document.text`), with bytes byte numbers (`records()`). The lines are the records';
 * of the text only blanks and the line ends within strings are looked at.
 */
export declare function foldsOf(records: ArrayLike<number>, text: string | Uint8Array): Fold[]
