import type { BytesFault, Cause, Code } from './names.js'

/** What a person has to mend where a reading ended with a fault. */
export interface Fault {
    readonly code: Code
    /** What it is about. */
    readonly cause: Cause
    /** What is wrong with bytes that are not UTF-8 (code 3); null for other faults. */
    readonly bytes: BytesFault | null
    /** Where what is to be mended starts and ends, in the units of the text: a string from its quote, a bracket, a character, blanks .. */
    readonly start: number
    readonly end: number
    /** Where the string or the bracket begins that is not closed; null for other faults. */
    readonly origin: number | null
    /** The line and column of `start`, from 1, the column in characters. A BOM at the text's start is none. */
    readonly at: { readonly line: number; readonly column: number }
    /**
     * A sentence: "The string that begins at 2:19 is not closed on its line." Behind one about a byte that would be a character
     * of Latin-1 there is another: "Byte E9 alone is é in Latin-1: is the file in that encoding?"
     */
    readonly message: string
    /** That character: é; null where nothing is said of Latin-1. */
    readonly latin1: string | null
}

/**
 * What is wrong with a text that was read to a fault; null where it was not (codes 0, 1, 2, 4, 5 and 6), and with code 3
 * where the text does not have those bytes, as no string has. The reader need not be loaded. `answer`: code, place and
 * detail. `records`: kind, start, end and line of each record. Both are in the units of `text`: UTF-16 offsets for a string, byte
 * numbers for bytes. Of the records only the last is looked at, but with code 21 all are. The fault's line is counted on from
 * a record's.
 */
export declare function faultOf(
    answer: { readonly code: number; readonly place: number; readonly detail: number },
    records: ArrayLike<number>,
    text: string | Uint8Array,
): Fault | null
