// The sentences of names.js, with what stands in their gaps.
import { SHOWN } from './names.js'

/** Words with their gaps filled: in place of `{at}` stands what the function `at` of `gaps` answers. */
export const filled = (words, gaps) => words.replace(/\{(\w+)\}/g, (_, name) => gaps[name]())

/** A line and column in a sentence. */
export const placed = ({ line, column }) => `${line}:${column}`

/** Whether a character is shown as it is. */
export const isShown = (number) => SHOWN.some(([first, last]) => first <= number && number <= last)

/** A character in a sentence: itself, with its number beyond ASCII, or its number alone. */
export function shown(number) {
    const name = `U+${number.toString(16).toUpperCase().padStart(4, '0')}`
    if (!isShown(number)) return name
    return `\`${String.fromCodePoint(number)}\`${number < 0x80 ? '' : ` (${name})`}`
}
