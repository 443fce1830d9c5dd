// Records, kinds and codes in words. Written by tools/make-words from bindings/words.txt.

/** How many numbers a record has in a row: kind, start, end, line. */
export const STRIDE = 4

/** Where the numbers of a record stand behind its kind, the first of them. */
export const START = 1
export const END = 2
export const LINE = 3

/** How many numbers an answer has: code, count, place, detail. */
export const ANSWER = 4

/** The name of each kind. */
export const KINDS = new Map([
    [0, 'Newline'], [1, 'Indent'], [2, 'Dedent'], [3, 'Name'], [4, 'Int'], [5, 'Float'], [6, 'Complex'],
    [7, 'Comment'], [8, 'NonLogicalNewline'], [10, 'String'], [11, 'String f'], [12, 'String b'], [13, 'String r'],
    [14, 'String rf'], [15, 'String rb'], [16, 'String u'], [17, 'Tripled'], [18, 'Tripled f'], [19, 'Tripled b'],
    [20, 'Tripled r'], [21, 'Tripled rf'], [22, 'Tripled rb'], [23, 'Tripled u'], [30, 'Operator ='],
    [31, 'Operator =='], [32, 'Operator +'], [33, 'Operator +='], [34, 'Operator *'], [35, 'Operator *='],
    [36, 'Operator **'], [37, 'Operator **='], [38, 'Operator /'], [39, 'Operator /='], [40, 'Operator //'],
    [41, 'Operator //='], [42, 'Operator %'], [43, 'Operator %='], [44, 'Operator |'], [45, 'Operator |='],
    [46, 'Operator ^'], [47, 'Operator ^='], [48, 'Operator &'], [49, 'Operator &='], [50, 'Operator -'],
    [51, 'Operator -='], [52, 'Operator ->'], [53, 'Operator @'], [54, 'Operator @='], [55, 'Operator !='],
    [56, 'Operator ~'], [57, 'Operator ('], [58, 'Operator )'], [59, 'Operator ['], [60, 'Operator ]'],
    [61, 'Operator {'], [62, 'Operator }'], [63, 'Operator :'], [64, 'Operator :='], [65, 'Operator ;'],
    [66, 'Operator <'], [67, 'Operator <<'], [68, 'Operator <<='], [69, 'Operator <='], [70, 'Operator >'],
    [71, 'Operator >>'], [72, 'Operator >>='], [73, 'Operator >='], [74, 'Operator ,'], [75, 'Operator .'],
    [76, 'Operator ...'], [100, 'Keyword False'], [101, 'Keyword None'], [102, 'Keyword True'], [103, 'Keyword and'],
    [104, 'Keyword as'], [105, 'Keyword assert'], [106, 'Keyword async'], [107, 'Keyword await'],
    [108, 'Keyword break'], [109, 'Keyword class'], [110, 'Keyword continue'], [111, 'Keyword def'],
    [112, 'Keyword del'], [113, 'Keyword elif'], [114, 'Keyword else'], [115, 'Keyword except'],
    [116, 'Keyword finally'], [117, 'Keyword for'], [118, 'Keyword from'], [119, 'Keyword global'],
    [120, 'Keyword if'], [121, 'Keyword import'], [122, 'Keyword in'], [123, 'Keyword is'], [124, 'Keyword lambda'],
    [125, 'Keyword nonlocal'], [126, 'Keyword not'], [127, 'Keyword or'], [128, 'Keyword pass'],
    [129, 'Keyword raise'], [130, 'Keyword return'], [131, 'Keyword try'], [132, 'Keyword while'],
    [133, 'Keyword with'], [134, 'Keyword yield'], [140, 'Keyword match'], [141, 'Keyword case'],
    [142, 'Keyword type'],
])

/** The number of a kind by its name. */
export const KIND = Object.fromEntries([...KINDS].map(([number, name]) => [name, number]))

/** The kinds of brackets that open, and of those that close. */
export const OPENERS = new Set(['(', '[', '{'].map((sign) => KIND[`Operator ${sign}`]))
export const CLOSERS = new Set([')', ']', '}'].map((sign) => KIND[`Operator ${sign}`]))

/** What each code says. */
export const ENDINGS = new Map([
    [0, 'read to the end'],
    [1, 'the text is too long'],
    [2, 'there is no such mode'],
    [3, 'ill-formed UTF-8'],
    [4, 'no room for the records'],
    [5, 'a bad edit'],
    [6, 'an unsound list'],
    [20, 'a string is not closed'],
    [21, 'the text ends too early'],
    [22, 'a bracket closes that was not opened'],
    [23, 'the blanks match no open block'],
    [24, 'tabs and spaces cannot be compared'],
    [25, 'a tab after a space'],
    [26, 'unrecognised character'],
    [27, 'a backslash that ends no line'],
    [28, 'a line ends in a string'],
    [29, 'invalid syntax in a number'],
    [30, 'invalid decimal literal'],
    [31, 'a number starts with 0'],
    [32, 'no digit after the base'],
    [33, 'more than 100 levels'],
    [34, 'more than 200 open brackets'],
])

/** What is wrong: code, what a person has to mend, the words. */
export const FAULTS = [
    [20, 'string', 'The string that begins at {at} is not closed on its line.'],
    [21, 'tripled', 'The triple-quoted string that begins at {at} is never closed.'],
    [21, 'bracket', '{text} at {at} is never closed.'],
    [21, 'backslash', 'The text ends behind the backslash at {at}.'],
    [22, 'closer', '{text} at {at} closes no bracket.'],
    [23, 'blanks', 'The indentation of line {line} fits no open block.'],
    [24, 'blanks', 'The indentation of line {line} mixes tabs and spaces, so it cannot be compared with the lines above.'],
    [25, 'blanks', 'The indentation of line {line} has a tab behind a space.'],
    [26, 'character', '{text} at {at} cannot stand there: nothing in Python begins with it.'],
    [27, 'backslash', 'The backslash at {at} does not end its line.'],
    [28, 'string', 'The string that begins at {at} is not closed on its line.'],
    [29, 'number', 'The number that begins at {at} has an underscore where a digit must stand.'],
    [30, 'number', 'The number that begins at {at} has no digits in its exponent.'],
    [31, 'number', 'The number that begins at {at} starts with 0.'],
    [32, 'number', 'The number that begins at {at} has no digits behind its base.'],
    [33, 'blanks', 'Line {line} opens a 101st level of indentation; 100 are the most.'],
]

/** What is wrong with bytes that are not UTF-8: the detail of code 3, its name, the words. */
export const BYTES = [
    [1, 'stray', 'Byte {byte} at {at} is not UTF-8: it continues a character, and none is open there.'],
    [2, 'unused', 'Byte {byte} at {at} is not UTF-8: no character has this byte.'],
    [3, 'cut-by-end', 'Byte {byte} at {at} is not UTF-8: it begins a character that the end of the text cuts off.'],
    [4, 'cut-by-byte', 'Byte {byte} at {at} is not UTF-8: it begins a character that byte {next} cuts off.'],
    [5, 'overlong', 'Bytes {byte} {next} at {at} are not UTF-8: they begin a character in more bytes than it takes.'],
    [6, 'surrogate', 'Bytes {byte} {next} at {at} are not UTF-8: they begin a surrogate, which is no character.'],
    [7, 'too-large', 'Bytes {byte} {next} at {at} are not UTF-8: they begin a number above 10FFFF, the last character\'s.'],
]

/** What is said of another encoding that bytes may be in. */
export const HINTS = {
    utf16: 'A text in UTF-16 begins so: is the file in that encoding?',
    latin1: 'Byte {byte} alone is {text} in Latin-1: is the file in that encoding?',
}

/** What the bracket audit finds: its name, the words. */
export const BRACKETS = new Map([
    ['unopened', '{text} at {at} closes no bracket.'],
    ['mismatched', '{text} at {at} does not close {opener} at {opened}, the latest bracket that is open.'],
    ['too-many', '{text} at {at} is the 201st bracket that is open; 200 are the most.'],
])

/** The first and the last of characters that are shown as they are. */
export const SHOWN = [
    [0x21, 0x5f], [0x61, 0x7e], [0xa1, 0xac], [0xae, 0xff], [0x100, 0x17f], [0x370, 0x377], [0x391, 0x3a1],
    [0x3a3, 0x3ff], [0x400, 0x45f], [0x2010, 0x2027], [0x2030, 0x205e], [0x20a0, 0x20c0], [0x2100, 0x23ff],
    [0x2500, 0x2bff], [0x3001, 0x3003], [0x3008, 0x3020], [0xff01, 0xff60],
]

/** The first kind of each sort; those that follow are of the same. */
const SORTS = [
    [0, 'blank'], [3, 'name'], [4, 'number'], [7, 'comment'], [8, 'blank'], [10, 'string'], [30, 'operator'],
    [100, 'keyword'],
]

const SORT = Array.from({ length: 143 }, (_, kind) => SORTS.findLast(([first]) => first <= kind)[1])

/** What sort of token a kind is: blank, name, number, comment, string, operator or keyword; blank for any other number. */
export const sortOf = (kind) => SORT[kind] ?? 'blank'
