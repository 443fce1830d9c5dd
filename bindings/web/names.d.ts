// Written by tools/make-words from bindings/words.txt.

/** The number of a kind. */
export type Kind =
    | 0 | 1 | 2 | 3 | 4 | 5 | 6 | 7 | 8 | 10 | 11 | 12 | 13 | 14 | 15 | 16 | 17 | 18 | 19 | 20 | 21 | 22 | 23 | 30 | 31
    | 32 | 33 | 34 | 35 | 36 | 37 | 38 | 39 | 40 | 41 | 42 | 43 | 44 | 45 | 46 | 47 | 48 | 49 | 50 | 51 | 52 | 53 | 54
    | 55 | 56 | 57 | 58 | 59 | 60 | 61 | 62 | 63 | 64 | 65 | 66 | 67 | 68 | 69 | 70 | 71 | 72 | 73 | 74 | 75 | 76 | 100
    | 101 | 102 | 103 | 104 | 105 | 106 | 107 | 108 | 109 | 110 | 111 | 112 | 113 | 114 | 115 | 116 | 117 | 118 | 119
    | 120 | 121 | 122 | 123 | 124 | 125 | 126 | 127 | 128 | 129 | 130 | 131 | 132 | 133 | 134 | 140 | 141 | 142
/** The name of a kind. */
export type KindName =
    | 'Newline' | 'Indent' | 'Dedent' | 'Name' | 'Int' | 'Float' | 'Complex' | 'Comment' | 'NonLogicalNewline'
    | 'String' | 'String f' | 'String b' | 'String r' | 'String rf' | 'String rb' | 'String u' | 'Tripled'
    | 'Tripled f' | 'Tripled b' | 'Tripled r' | 'Tripled rf' | 'Tripled rb' | 'Tripled u' | 'Operator ='
    | 'Operator ==' | 'Operator +' | 'Operator +=' | 'Operator *' | 'Operator *=' | 'Operator **' | 'Operator **='
    | 'Operator /' | 'Operator /=' | 'Operator //' | 'Operator //=' | 'Operator %' | 'Operator %=' | 'Operator |'
    | 'Operator |=' | 'Operator ^' | 'Operator ^=' | 'Operator &' | 'Operator &=' | 'Operator -' | 'Operator -='
    | 'Operator ->' | 'Operator @' | 'Operator @=' | 'Operator !=' | 'Operator ~' | 'Operator (' | 'Operator )'
    | 'Operator [' | 'Operator ]' | 'Operator {' | 'Operator }' | 'Operator :' | 'Operator :=' | 'Operator ;'
    | 'Operator <' | 'Operator <<' | 'Operator <<=' | 'Operator <=' | 'Operator >' | 'Operator >>' | 'Operator >>='
    | 'Operator >=' | 'Operator ,' | 'Operator .' | 'Operator ...' | 'Keyword False' | 'Keyword None' | 'Keyword True'
    | 'Keyword and' | 'Keyword as' | 'Keyword assert' | 'Keyword async' | 'Keyword await' | 'Keyword break'
    | 'Keyword class' | 'Keyword continue' | 'Keyword def' | 'Keyword del' | 'Keyword elif' | 'Keyword else'
    | 'Keyword except' | 'Keyword finally' | 'Keyword for' | 'Keyword from' | 'Keyword global' | 'Keyword if'
    | 'Keyword import' | 'Keyword in' | 'Keyword is' | 'Keyword lambda' | 'Keyword nonlocal' | 'Keyword not'
    | 'Keyword or' | 'Keyword pass' | 'Keyword raise' | 'Keyword return' | 'Keyword try' | 'Keyword while'
    | 'Keyword with' | 'Keyword yield' | 'Keyword match' | 'Keyword case' | 'Keyword type'
/** The code of an answer. */
export type Code = 0 | 1 | 2 | 3 | 4 | 5 | 6 | 20 | 21 | 22 | 23 | 24 | 25 | 26 | 27 | 28 | 29 | 30 | 31 | 32 | 33 | 34
/** What a person has to mend. */
export type Cause = 'bytes' | 'string' | 'tripled' | 'bracket' | 'backslash' | 'closer' | 'blanks' | 'character' | 'number'
/** What is wrong with bytes that are not UTF-8. */
export type BytesFault = 'stray' | 'unused' | 'cut-by-end' | 'cut-by-byte' | 'overlong' | 'surrogate' | 'too-large'
/** What the bracket audit finds. */
export type BracketFault = 'unopened' | 'mismatched' | 'too-many'
/** What sort of token a kind is. */
export type Sort = 'blank' | 'name' | 'number' | 'comment' | 'string' | 'operator' | 'keyword'

/** How many numbers a record has in a row: kind, start, end, line. */
export declare const STRIDE: 4

/** Where the numbers of a record stand behind its kind, the first of them. */
export declare const START: 1
export declare const END: 2
export declare const LINE: 3
/** How many numbers an answer has: code, count, place, detail. */
export declare const ANSWER: 4
/** The name of each kind. */
export declare const KINDS: ReadonlyMap<Kind, KindName>
/** The number of a kind by its name. */
export declare const KIND: {
    readonly 'Newline': 0
    readonly 'Indent': 1
    readonly 'Dedent': 2
    readonly 'Name': 3
    readonly 'Int': 4
    readonly 'Float': 5
    readonly 'Complex': 6
    readonly 'Comment': 7
    readonly 'NonLogicalNewline': 8
    readonly 'String': 10
    readonly 'String f': 11
    readonly 'String b': 12
    readonly 'String r': 13
    readonly 'String rf': 14
    readonly 'String rb': 15
    readonly 'String u': 16
    readonly 'Tripled': 17
    readonly 'Tripled f': 18
    readonly 'Tripled b': 19
    readonly 'Tripled r': 20
    readonly 'Tripled rf': 21
    readonly 'Tripled rb': 22
    readonly 'Tripled u': 23
    readonly 'Operator =': 30
    readonly 'Operator ==': 31
    readonly 'Operator +': 32
    readonly 'Operator +=': 33
    readonly 'Operator *': 34
    readonly 'Operator *=': 35
    readonly 'Operator **': 36
    readonly 'Operator **=': 37
    readonly 'Operator /': 38
    readonly 'Operator /=': 39
    readonly 'Operator //': 40
    readonly 'Operator //=': 41
    readonly 'Operator %': 42
    readonly 'Operator %=': 43
    readonly 'Operator |': 44
    readonly 'Operator |=': 45
    readonly 'Operator ^': 46
    readonly 'Operator ^=': 47
    readonly 'Operator &': 48
    readonly 'Operator &=': 49
    readonly 'Operator -': 50
    readonly 'Operator -=': 51
    readonly 'Operator ->': 52
    readonly 'Operator @': 53
    readonly 'Operator @=': 54
    readonly 'Operator !=': 55
    readonly 'Operator ~': 56
    readonly 'Operator (': 57
    readonly 'Operator )': 58
    readonly 'Operator [': 59
    readonly 'Operator ]': 60
    readonly 'Operator {': 61
    readonly 'Operator }': 62
    readonly 'Operator :': 63
    readonly 'Operator :=': 64
    readonly 'Operator ;': 65
    readonly 'Operator <': 66
    readonly 'Operator <<': 67
    readonly 'Operator <<=': 68
    readonly 'Operator <=': 69
    readonly 'Operator >': 70
    readonly 'Operator >>': 71
    readonly 'Operator >>=': 72
    readonly 'Operator >=': 73
    readonly 'Operator ,': 74
    readonly 'Operator .': 75
    readonly 'Operator ...': 76
    readonly 'Keyword False': 100
    readonly 'Keyword None': 101
    readonly 'Keyword True': 102
    readonly 'Keyword and': 103
    readonly 'Keyword as': 104
    readonly 'Keyword assert': 105
    readonly 'Keyword async': 106
    readonly 'Keyword await': 107
    readonly 'Keyword break': 108
    readonly 'Keyword class': 109
    readonly 'Keyword continue': 110
    readonly 'Keyword def': 111
    readonly 'Keyword del': 112
    readonly 'Keyword elif': 113
    readonly 'Keyword else': 114
    readonly 'Keyword except': 115
    readonly 'Keyword finally': 116
    readonly 'Keyword for': 117
    readonly 'Keyword from': 118
    readonly 'Keyword global': 119
    readonly 'Keyword if': 120
    readonly 'Keyword import': 121
    readonly 'Keyword in': 122
    readonly 'Keyword is': 123
    readonly 'Keyword lambda': 124
    readonly 'Keyword nonlocal': 125
    readonly 'Keyword not': 126
    readonly 'Keyword or': 127
    readonly 'Keyword pass': 128
    readonly 'Keyword raise': 129
    readonly 'Keyword return': 130
    readonly 'Keyword try': 131
    readonly 'Keyword while': 132
    readonly 'Keyword with': 133
    readonly 'Keyword yield': 134
    readonly 'Keyword match': 140
    readonly 'Keyword case': 141
    readonly 'Keyword type': 142
}
/** The kinds of brackets that open. */
export declare const OPENERS: ReadonlySet<number>
/** The kinds of brackets that close. */
export declare const CLOSERS: ReadonlySet<number>
/** What each code says. */
export declare const ENDINGS: ReadonlyMap<Code, string>
/** What is wrong: code, what a person has to mend, the words. */
export declare const FAULTS: ReadonlyArray<readonly [Code, Cause, string]>
/** What is wrong with bytes that are not UTF-8: the detail of code 3, its name, the words. */
export declare const BYTES: ReadonlyArray<readonly [number, BytesFault, string]>
/** What is said of another encoding that bytes may be in. */
export declare const HINTS: { readonly utf16: string; readonly latin1: string }
/** What the bracket audit finds: its name, the words. */
export declare const BRACKETS: ReadonlyMap<BracketFault, string>
/** The first and the last of characters that are shown as they are. */
export declare const SHOWN: ReadonlyArray<readonly [number, number]>
/** What sort of token a kind is. */
export declare function sortOf(kind: number): Sort
