//! Texts chosen to reach every kind, every ending and every odd rule of document 01, and of document 02 items 1 and 2.
//! No answers stand here: the original gives them.

/// The lists that follow the documents' rules, each a rule's texts.
pub const BY_RULE: [&[&str]; 10] =
    [LINES, INDENTATION, NAMES, NUMBERS, STRINGS, OPERATORS, SOFT, COMMENTS, DROPPED, SOFT_OVER_LINES];

/// Document 01, "Checked by eye": the table and the examples that are only run.
#[rustfmt::skip]
pub const WORKED: &[&str] = &[
    "", "x", "x\r\ny", "00", "0_7", "1e", "1.e", " \t\n", "x)", "if a:\n b\n!", "\u{feff}\u{feff}", "type X[(]][=1]",
    "match: int", "match x: y", "if a:\n\tb\n",
];

/// Newlines, a BOM, comments, continuations, the end of the text.
#[rustfmt::skip]
pub const LINES: &[&str] = &[
    "\n", "\r", "\r\n", "\n\r", "\r\r\n", "\n\n", "x\ry", "x\ny\r", "x\r\n\r\ny", "x\r \ny", "x\n\ry", "\u{feff}",
    "\u{feff}x", "\u{feff} x", "\u{feff}\n", "\u{feff}#c", "x\u{feff}", "x\n\u{feff}y", "'\u{feff}'", "#\u{feff}",
    "\u{feff}match x: y", "\u{feff}\\\nx", "\u{feff}$", "#", "#\n", "#c", "#c\n", "#c\r", "#c\r\nx", "x#c", "x #c\ny",
    "# \t\u{c}$\\'\"\u{0}", "#\u{e9}\u{1f600}\nx", "#\\\nx", "##\r#\n#", "x\n#c", "x\n#c\ny", "x\n  #c\ny",
    "x # c # d\n", "\\\nx", "x\\\ny", "x \\\n y", "x\\\r\ny", "x\\\ry", "\\\n", "x\\\n", "x\\\r\n", "\\\r", "\\",
    "x\\", "x\\ \n", "\\x", "\\\\", "x\\#c\n", "\\\n\n", "\\\n#c", "\\\n#c\n", " \\\nx", " \\\n#c", "\\\n x\ny",
    "x\\\n\\\ny", "if a:\\\n b", "if a: \\\n\n b", "x\\\n", "(\\\n)", "(x\\\n", "\\\n\u{feff}", " ", "\t", "\u{c}",
    "  \n", "\t\n", "x ", "x \n", "x\t\u{c} \n", "x\n ", "x\n\n\n", "\n\nx\n\n", "x;y\n;", "x\u{b}y",
];

/// The blanks at a line's start, the levels and their comparison.
#[rustfmt::skip]
pub const INDENTATION: &[&str] = &[
    " x", "\tx", "  x\n  y", " x\n y\n", " x\ny", "\tx\n\ty\nz", "\t x", "\t  x\n\t  y", "\t\t  x\n\t\t y", " \t",
    " \tx", " \t#c", "x\n \ty", "x\n \t\n", "(\n \tx)", "\t \tx", "x \ty", " \u{c}\tx", "  \u{c} x", "\u{c} x",
    "\u{c}x", " \u{c}\n x", "if a:\n b\n\u{c}c", "if a:\n  b\n \u{c}  c", " #c\n\tx", "#c\n\n x", "if a:\n b",
    "if a:\n b\n", "if a:\n b\nc", "if a:\n b\n\nc", "if a:\n b\n ", "if a:\n b\n  ", "if a:\n b\n\n",
    "if a:\n b\n#c", "if a:\n b\n#c\n c", "if a:\n b\n#c\nc", "if a:\n#c\n b", "if a:\n   #c\n b",
    "if a:\n b\n   #c\n c", "with a:\n    b\n# the margin\n    c\nd\n", "if a:\n if b:\n  c\nd",
    "if a:\n if b:\n  c\n d", "a:\n b:\n  c:\n   d\n  e\n f\ng", "a:\n b:\n  c:\n   d", "a:\n b:\n  c:\n   d\n",
    "a:\n b\n  c\n d", "a:\n    b\n  c", "a:\n  b\n c", "a:\n  b\n c\n$", "a:\n  b:\n    c\n   d", "a:\n\tb\n c",
    "a:\n b\n\tc", "a:\n\tb\n        c", "a:\n        b\n\tc", "a:\n\tb\n\t c", "a:\n\t b\n\tc", "a:\n\t b\n\t\tc",
    "a:\n\t b\n\t\t c", "a:\n\t b\n  c", "a:\n\t b\n c", "a:\n\t b\nc", "a:\n\tb:\n\t\t c\n d",
    "a:\n\tb:\n\t\t c\n\td", "a:\n b:\n\t  c\n  d", "a:\n b:\n\t c\n d", "a:\n b:\n\t c\n  d",
    "a:\n\tif b:\n         c\n", "a:\n\t if b:\n\t\t\tc\n", "a:\n        b\n\tc\n", " $", " x\n$", " x\n$\n",
    "a:\n b\n$", "a:\n b:\n  c\n$", "a:\n b:\n  c\n d\n$", " !", " \\x", " 0x", " '", " )", "  )\n", "a:\n b\n)",
    "a:\n b\n'", "a:\n b\n0x", "a:\n b\n\\", "a:\n b\n\\\n", "a:\n b\n1.e", "\n\n  x\n y", "if a:\n b\n\\\nc",
    "if a:\n b\n \\\nc", "if a:\n b\n\\\n c", "(a:\n b\n  c\n d)", "x = [\n  1,\n\t2\n ]\n y",
];

/// Names, and characters of and near the classes.
#[rustfmt::skip]
pub const NAMES: &[&str] = &[
    "_", "__", "a1", "A_z9", "ab cd", "\u{e9}", "\u{e9}t\u{e9}", "x\u{301}", "\u{301}", "x\u{b7}", "\u{b7}",
    "\u{2118}", "x\u{2118}", "\u{212e}", "\u{309b}", "\u{1885}", "\u{387}", "x\u{387}", "x\u{b2}", "\u{b2}",
    "\u{660}", "x\u{660}", "\u{1369}", "x\u{1369}", "x\u{19da}", "\u{ff11}", "x\u{ff11}", "\u{37a}", "x\u{37a}",
    "\u{e33}", "x\u{e33}", "\u{fdfa}", "\u{ff9e}", "x\u{ff9e}", "\u{4e2d}\u{6587}", "\u{436}\u{438}",
    "\u{3b1}\u{3b2}", "\u{ac00}", "\u{5d0}", "\u{1c90}", "\u{1cf2}", "x\u{1cf2}", "x\u{111c9}", "\u{111c9}",
    "\u{20000}", "\u{2a6d6}", "\u{2a6d7}", "\u{2ebe0}", "\u{2ebe1}", "\u{1e900}", "\u{16fe1}", "\u{d7ff}", "\u{e000}",
    "\u{fffd}", "\u{ffff}", "\u{10000}", "\u{10ffff}", "\u{7f}", "\u{80}", "\u{7ff}", "\u{800}", "\u{aa}", "\u{a0}",
    "x\u{a0}y", "\u{3000}", "\u{200b}", "\u{2028}", "\u{85}", "\u{1f600}", "x\u{1f600}", "\u{1f600}x",
    "\u{1f600}\u{1f600}", "\u{1f600} = 1", "\u{231a}", "\u{2319}", "\u{231c}", "\u{270a}", "\u{270d}",
    "\u{1f1e6}\u{1f1e7}", "\u{2764}\u{fe0f}", "\u{1f3fb}", "\u{1f9c0}", "\u{1f9e7}", "\u{1f9ff}", "'\u{1f600}'", "$",
    "?", "`", "\u{0}", "x\u{0}", "\u{1}", "\u{1b}", "\u{b}", "x$y", "x ? y", "\u{20ac}=2", "a$b\n c", "r", "rb", "br",
    "u", "f", "rx'a'", "\u{e9}'a'", "b\u{e9}'a'",
];

/// Numbers and their refusals.
#[rustfmt::skip]
pub const NUMBERS: &[&str] = &[
    "0", "000", "0_0", "00_0", "07", "08", "0_", "0_a", "0__0", "10", "010", "1_000", "1__0", "1_", "1_a", "_1",
    "09.5", "09e1", "09j", "07j", "0j", "00j", "0_7j", "0_7J", "1j", "1J", "1jj", "1_0j", "01e5", "01.", "0_1.5",
    "00.5", "0e0", "0.0", "0.", "0e", "0e+", "00e", "07e", "0_7e", "01e", "01e+", "0or 1", "1or 2", "1if 1else 2",
    "0x", "0X", "0xg", "0x_1", "0x_", "0x__1", "0x1_", "0x1__2", "0xfFg", "0xdead_BEEF", "0xj", "0x1j", "0xe+1",
    "0x1.5", "0o", "0O", "0o8", "0o_7", "0o17", "0O7", "0o18", "0o7_", "0b", "0B", "0b2", "0b_1_0", "0b1012", "0B1",
    "0b12", "0_x1", "00x1", "0 x", "0x\n", "x0x", "(0b)", "y=0xz", "0b_", "0o_", "0x0", "0b0", "0o0", "1.", "1.5",
    ".5", ".5.", "1..2", "1...", "1.2.3", "1. 5", "1.\n", "1.x", "1.j", "1.5j", ".5j", "1.jx", "1_0.0_1", "1._5",
    "1._", ".5_0", ".5_", "._5", ".", "..", "...", "....", ".....", "......", ".x", "x.5", "x.y", "1.5_", "1_.5",
    "1.e5", "1.e+5", "1.e-5", "1.e+", "1.e-", "1.E", "1.ex", "1.e x", "1.e_5", "1.e+_5", "1.e-_", "1.5e_", "1.5e",
    "1.5e+", "1.5e5", "1.5e5_0", "1.5e_5", "1.5E-5j", "1.e5j", "1.else", "1.e5e5", "1.e5.5", ".5e", ".5e1", ".5e+1",
    ".5e_1", "1e5", "1E5", "1e+5", "1e-5", "1e+", "1e-", "1e+x", "1e_5", "1e+_5", "1ex", "1e5j", "1e5_0", "1e5_",
    "1_0e1_0", "1_e5", "1e5e5", "1e5.5", "1e5x", "12abc", "9e999", "1e-999", "1e5 if", "1E", "1E+", "1ej", "0xE5",
    "1_000.000_1e1_0j",
    "99999999999999999999999999999999999999999999999999999999999999999999999999999999999999999999",
    "00000000000000000000000000000000000000000000000000000000000000000000000000000000000000000000",
    "00000000000000000000000000000000000000000000000000000000000000000000000000000000000000000001",
];

/// Strings and their refusals; prefixes are crossed with quotes elsewhere.
#[rustfmt::skip]
pub const STRINGS: &[&str] = &[
    "''", "\"\"", "'a'", "\"a\"", "'", "\"", "'a", "\"a", "'\"'", "\"'\"", "''''", "'''''", "''''''", "'''''''",
    "''''''''", "'''", "'''a", "'''a'", "'''a''", "'''a'''", "'''a''''", "'''a'b''c'''", "\"\"\"a\"b\"\"c\"\"\"",
    "'''\n'''", "'''\r\n'''", "'''\r'''", "'''\"\"\"'''", "'''\\'''", "'''\\''''", "'''\\\\'''", "'''a\\",
    "'''a\\\n'''", "'''\\'''''''", "'\\''", "'\\\\'", "'\\", "'\\\\", "'\\'", "'a\\\nb'", "'a\\\r\nb'", "'a\\\rb'",
    "'\\\n", "'\\\r", "'\\\r\n", "'\\\n\n'", "'\\\r\r'", "'\\\n\r'", "r'\\'", "r'\\''", "r'\\\\'", "r'\\\n'",
    "'a\nb'", "'a\rb'", "'a\r\nb'", "'\n", "'\r", "'\r\n", "'\u{0}'", "'\u{e9}\u{4e2d}\u{1f600}'", "'\\\u{e9}'",
    "'\u{7f}\u{80}'", "b'\u{e9}'", "'#'", "'a'#'", "'a' 'b'", "'a''b'", "'a'\"b\"", "'a'x", "x'a'", "1'a'",
    "'\t\u{c}'", "'\\N{x}'", "f'{x}'", "f'{x!r:>{w}}'", "f\"{x[\"a\"]}\"", "f'{a'", "f'}'", "f'''{\nx}'''",
    "rf'\\{x}'", "('a'\n'b')", "x = '''a\nb\n''' + 'c'\n", "u'\\u1234'", "b'\\xff'", "f'", "rb'''", "br\"", "Rb'a",
    "fR'a\n'", "  'a'\n", "if a:\n 'b\n", "(", "('a", "('''a", "'a'.b", "\"\\\"\"", "\"\\'\"", "'\\\"'",
];

/// Operators, brackets and unknown characters; all pairs of operator characters are made elsewhere.
#[rustfmt::skip]
pub const OPERATORS: &[&str] = &[
    "<<=", ">>=", "**=", "//=", "<<<", ">>>", "***", "///", "<=<", "<>", "->", "-->", "->>", "!=", "!==", "!", "! =",
    "!\n", "x!", "x !y", "x!r", "==", "===", "====", ":=", "::=", "@=", "~=", "~~", "|||", "&&=", "^^", "%%=", "+-*/",
    "<<= >>=", "**=**", "//=//", "<==", ">==", "=>", "=<", "-=>", ",,", ";;", "a<b>c", "a if b else c",
    "@a\ndef b(): pass", "()", "[]", "{}", "(]", "([)]", "{)", ")", "]", "}", "x]", "(x))", "[]]", "{}}",
    "(((((((((())))))))))", "((((", "[", "{", "(\n)", "(\n\n x\n)", "(#c\n)", "(#c", "(\r\n)", "(x\n\ty)",
    "(\n  )\nx", "x)\n", "x\n)", "(x\n", "([{", "([{}])", "(x)y[z]{w}", "(\n$", "($", "(!", "(\\", "(\\\n", "((\n)",
    "{'a': 1,\n 'b': [2,\n 3]}\n",
];

/// The second pass.
#[rustfmt::skip]
pub const SOFT: &[&str] = &[
    "match", "case", "type", "match\n", "match:", "match::", "match: x: y", "match :x", "match x", "match x:",
    "match x:\n case y:\n  z", "match x:\n case y: z\n case _: w\n", "match(x): y", "match (x)", "match[x]: y",
    "match.x: y", "match = 1", "match, case = 1, 2", "match; x: y", "x; match y: z", "x match y:",
    "match=lambda x=lambda:1:2", "match lambda: x", "match lambda: x: y", "match lambda x: y: z",
    "match lambda: lambda: x: y", "match x: lambda: y", "match x, lambda: y", "match lambda lambda: x: y",
    "match (lambda: x): y", "match (lambda): x: y", "match lambda (:): x", "match lambda (:) x: y: z", "match {a: b}",
    "match {a: b}:", "match [a:b]:", "match (a:b)", "match (]: x", "match ([)]: x", "match (x", "match (x:",
    "match x)", "match x): y", "match x $ : y", "match x: $", "match x $", "match $", "match x: 'a",
    "match x 'a\n: y", "match x 0x: y", "match x\\\n: y", "match\\\nx: y", "match (\nx\n): y", "match x #c\n: y",
    "match #c: x", "match x:=1", "match x:=1: y", "match := 1: x", "match:\n x: y", "match x\n: y", "match not x: y",
    "match *a: b", "match -x: y", "match 1: 2", "match 'a': b", "match x if y else z: w", "match match: case",
    "match case x: y", "case match: x", "case x: y", "case: x", "case = {1: 2}; x: int", "case _:\n x",
    "case lambda: x", "case lambda: x: y", " match x: y", "a:\n match x: y", "a:\n b\nmatch x: y",
    "a:\n b\n match x: y", "\nmatch x: y", "#c\nmatch x: y", "(match x: y)", "(\nmatch x: y)", "f(match x: y)",
    "x = match\nmatch x: y", "if match x: y", "match yield: x", "match\u{e9} x: y", "matchx x: y", "Match x: y",
    "match x:\nmatch y", "x:match y: z", "match x: match y: z", "match x:;match y: z", "match lambda:$: x",
    "match lambda\n: x: y", "match x: y\nmatch: z\nmatch w: v\n", "match x ... : y", "match x -> y: z", "match {}:\n",
    "match }: x", "type X = 1", "type X=1", "type X", "type X\n= 1", "type X\\\n= 1", "type X == 1", "type X := 1",
    "type X: = 1", "type X, Y = 1", "type X; = 1", "type = 1", "type 1 = 1", "type 'a' = 1", "type if = 1",
    "type (X) = 1", "type [X] = 1", "type.x = 1", "type(x) = 1", "type\nX = 1", "type $ = 1", "type type = 1",
    "type match = 1", "type case = 1", "type type", "type type type = 1", "type X match = 1", "type lambda = 1",
    "type \u{1f600} = 1", "type X[T] = 1", "type X[T][U] = 1", "type X[T]", "type X[T]: = 1", "type X[T: int] = 1",
    "type X[T = 1]", "type X[T = 1] = 2", "type X[T, *U, **V] = 1", "type X[\nT\n] = 1", "type X[#c\nT] = 1",
    "type X[(T)] = 1", "type X[{}] = 1", "type X[$] = 1", "type X[T = ", "type X[T", "type X[T] $ = 1",
    "type X[T] 0x = 1", "type X]", "type X] = 1", "type X(] = 1", "type X[) = 1", "type X[)\n= 1", "type X[)\n] = 1",
    "type X[(]= 1)", "type X[(] = 1)", "type X[(]] = 1", "type X[(]]=1", "type X[(]]=[=1]", "type X[(]]=[]=1",
    "type X[(]] == [=1]", "type X[((]]]=[[=1]]", "type X[(]],[=1]", "type X[(]][ = 1]", "type X[(]\n=1)",
    "type X[(]\n", "type X[(], =1)", "type X[(]](=1)", "type X[((]]][[=1]]", "type X[((]]][=1]",
    "type X[((]]][[[]=1]", "type X[T]]", "type X[T]] = 1", "type X{] = 1", "type X[}[ = 1", "type X[[]=1]",
    "type X 1 = 1", "type X = 1; type Y = 2", "x; type X = 1", " type X = 1", "a:\n type X = 1", "(type X = 1)",
    "type X[T] = type Y = 1", "type X = 1 $", "type $", "type", "type X $", "type X[T] = $", "type X = 'a",
    "\u{feff}type X = 1", "match type = 1", "match type: x", "case type X = 1:", "type match: x",
];

/// Where comments and newlines stand in the list (document 02 item 1): alone, behind a token, before an Indent and
/// before Dedents, at a block's margin, at the text's end, among form feeds, in brackets.
#[rustfmt::skip]
pub const COMMENTS: &[&str] = &[
    "#a\n#b", "#a\n\n#b\n", "#a\r#b\r\n#c\n", "\n\n\n", "\r\r\r", "\r\n\r\n", "\n\r\n\r", "\r\n\n\r\r\n",
    " \n\t\n\u{c}\n", "\n \r\n\t\r", "  #a\n\t#b\r ", "\u{feff}#a\nx", "\u{feff}\n#a\n", "\u{feff}\r\nx",
    "\u{feff} #a\n x", "#\u{feff}\n\u{feff}#a", "x#a\n", "x  # a\r\ny", "x #a\ry", "x;#a\n", "'a'#b'\n", "1#a",
    "x#'\n'", "x = 1 # a\n# b\n\ny # c\n", "x #a\n\n\n", "x#\n#\r#\r\n#", "x \\\n#a\ny", "\\\n#a\nx", "\\\n#a",
    "#a\n\\\nx", "\n\\\n\nx", "#a\n\\\n\n#b", "#a\n\\\n#b\nx", "x\\\n\n#a\ny", "#a\\\n#b\\\nx", "a:\n#b\n c",
    "a:\n #b\n c", "a:#b\n  #c\n d", "a:\n\n b", "a:\r\n\r\n b\r\n", "a:\r\r b\r", "a:\n#b\n\n\n  c\n", "#a\n x",
    "\n\n x", "\r\n #a\r\n  x", "a:\n\t\n  #b\n\n\tc", "a:\n \\\n#b\n c", "a:\n b\n#c\nd", "a:\n b\n\nd",
    "a:\n b\r\n\r\nd", "a:\n b:\n  c\n#d\n\n #e\nf", "a:\n b:\n  c\n#d", "a:\n b\n#c\n", "a:\n b\n\n\n",
    "a:\n b:\n  c\n  #d\n #e\n#f\n g", "a:\n b:\n  c #d\n#e", "a:\n b:\n  c\n\n d", "a:\n b\n#c\n\\\nd",
    "a:\n b\n  #c\n", "a:\n b\n#c\n d\ne", "a:\n b\n#c\n#d\n e\n", "a:\n\tb\n# c\n\n\td\n", "a:\n b\n     #c\n d",
    "a:\n#b\n#c\n d\n#e\n f\n#g\nh\n", "x\n#a", "x\n  #a", "x\n\n#a\r", "a:\n b #c", "a:\n b\n #c", "x\n#", "x\n\n ",
    "x\n \u{c}", "\u{c}#a\nx", "#a\u{c}b\nx", "a:\n b\n\u{c}#c\n d", "a:\n b\n \u{c}\n\u{c}\n d", "x\u{c}#a\u{c}\n",
    " \u{c}#a\n\u{c} x", "(\n#a\n)", "(x,#a\r\ny\r)", "[\r\n\n\r]", "{\n\n#a\n\n}", "(\r", "(#",
    "f(\n  a, # b\n\tc,\n)\n", "((\n)\n)\n#a", "(\\\n\n)", "(\\\n#a\n)", "(\u{c}\n \u{c}#a\n)", "([\n]#a\n)",
    "(')'\n#)\n)", "(x\n\n \ty)\n", "a:\n b(\n#c\nd)\n#e\nf", "(\n)#a\n#b", "x = [ # a\n\n  1, # b\r\n# c\r]\ny",
];

/// Errors behind comments and newlines: those of a line's start and of its first item, a continuation among these, drop
/// what comes before them since the last line; later ones drop nothing.
#[rustfmt::skip]
pub const DROPPED: &[&str] = &[
    "#a\n \t#b", "x\n#a\n\n#b\n \tc", "#a\n \t\n", "x #a\n#b\r\n \t", "a:\n b\n#c\n\n \td", "\n\n \tx",
    "a:\n\tb\n#c\n d", "a:\n b\n#c\n\n\td", "a:\n\tb\n\n c", "a:\n\t b\n#c\n  d\n", "a:\n\tb:\n\t\t c\n#d\n e",
    "a:\n\tb:\n\t\t c\r\n\r\n#d\r\n e", "a:\n  b\n#c\n d", "a:\n  b:\n    c\n\n#d\n   e", "a:\n  b\n\n\n c\n",
    "a:\n b:\n\t  c\n#d\n  e", "a:\n  b\n #c\n#d\n e", "#a\n$", "#a\n#b\n$", "x\n#a\n\n$y", "x #a\n\n#b\n01",
    "a:\n#b\n $", "a:\n\n b\n#c\n $", "a:\n b\n#c\n$", "a:\n b:\n  c\n\n#d\n$", "#a\n!", "#a\n)", "\n\n)", "#a\n'b",
    "#a\n'b\n", "#a\n'''b", "#a\n0x", "#a\n1.e", "#a\n1._", "#a\n\u{0}", "#a\n\\", "#a\n\\x", "#a\n\\\n", "\r\n\\\r\n",
    "a:\n#b\n \\", "#a\n\n\u{feff}", "#a\n \\", "#a\n\\\r", "#a\n\\\n$", "#a\n \\\n$", "\n\\\n)", "a:\n#b\n \\\n$",
    "a:\n b\n#c\n\\\n$", "a:\n b\n#c\n \\\n$", "#a\n\\\n#b\n$", "#a\n\\\n\\", "#a\n\\\n\\\n", "#a\n\\\n\\\n$",
    "\\\n\\\n$", "#a\n\\\n'b", "#a\nx $", "#a\n\nx)", "a:\n#b\n c $", "a:\n b\n#c\nd !", "#a\nx 'b", "#a\nx #b\n$",
    "#a\nx #b\n#c\n$", "#a\n($", "#a\n(\n#b\n$", "(#a\n$)", "(#a\n", "(#a\n\n#b", "(\n'a", "(\n'''a\n", "[\n#a\n0x",
    "x(\n\\", "(#a\n\\\n", "#a\n0 1.e #b\n", "x #a\n y$", "a:\n b\n#c\n d\n#e\nf$",
];

/// The second pass behind comments and newlines, and its look-ahead over them: for `type`, at counts above zero, of
/// zero and below.
#[rustfmt::skip]
pub const SOFT_OVER_LINES: &[&str] = &[
    "#a\nmatch x: y", "\n\nmatch x: y", "\r\n#a\r\n\r\ncase x: y", "x\n#a\nmatch x: y", "x #a\nmatch x: y",
    "x #a\n\n#b\nmatch x: y", "a:\n#b\n match x: y", "a:\n b\n#c\nmatch x: y", "a:\n b\n\n case x: y",
    "(#a\nmatch x: y)", "(\n)\nmatch x: y", "x;#a\nmatch x: y", "x(#a\n);match x: y", "\\\n#a\nmatch x: y",
    "#a\n\\\nmatch x: y", "match x: #a\n y", "match x: y #a", "match (#a\nx): y", "match (\n): y", "match [\n#a: b\n]",
    "match [\n#a\n]: b", "match (\n:\n)", "match x #: y\n", "match #a\n: y", "match \\\n#a\n: y", "match (:#a\n): x",
    "match lambda (#:\n): x", "match lambda (#:\n): x: y", "match (#lambda\n): x", "match lambda (\n:): x: y",
    "match(\n", "match (#a", "match x: (\n$", "match (\n$", "match (\n: $", "match (]\n: x", "match ([)\n]: x",
    "#a\nmatch: x", "#a\nmatch x", "match x:\n#a\n case y: z\n\n case w:\n  #b\n  v\n", "match (\n) lambda: x",
    "#a\ntype X = 1", "\ntype X = 1", "x\n\n#a\ntype X = 1", "a:\n#b\n type X = 1", "a:\n b\n#c\ntype X = 1",
    "x; type X[\n] = 1", "(#a\ntype X = 1)", "type X = 1 #a\n#b\ntype Y[\n] = 2", "type X #a\n= 1", "type X[T] #a\n= 1",
    "type #a\nX = 1", "type (\nX) = 1", "type \\\n#a\nX = 1", "type \\\nX \\\n= 1", "type X[#a\n] = 1",
    "type X[(\n)] = 1", "type X[(#a\n)] = 1", "type X[[\n]\n] = 1", "type X[\r\n\r\n]=1", "type X[\n[#a\r]] = 1",
    "type X[{\n}#a\n][\n] = 1", "type X[\n", "type X[#a", "type X[\n$", "type X[(]#a\n=1)", "type X[(]\r\n=1)",
    "type X[(]\r=1)", "type X[(] #a", "type X[(]#a\n", "type X[(]\n)=1", "type X[(]\n[T]=1)", "type X[(]\n#a\n[=1)",
    "type X[{]\n=1}", "type X[\n(]\n=1)", "type X[(]=\n1)", "type X[(]=#a\n1)", "type X[(][\n]=1)",
    "type X[(][\n]\n=1)", "type X(\n) = 1", "type X[(](\n=1)", "type X[(]$\n=1)", "type X[(]\n$", "type X[(]\n=$",
    "a:\n#b\n type X[(]\n=1)", "type match[(]\n=1)", "type type[(]#a\n=1)", "type X[(]\n=1)\ntype Y = 2",
    "x\n\n#a\ntype X[(]\n=1)\n#b\n", "type X[((]]\n=1)", "type X[((]]\n[=1])", "type X[((]]#a\n[=1])",
    "type X[((]][\n=1])", "type X[((]]#a\n", "type X[((]]\r\n[[=1]])", "type X[((]][[\n]=1])", "type X[((]]=\n1)",
    "type X[((]\n][=1])",
];

/// Recipes as the viewer's users write them.
pub const RECIPES: &[&str] = &[
    "with surface('floor'):\n    colour = texture('tiles.png')\n# decode before blending\n    colour = to_linear(colour)\n    emit(colour)\n",
    "with surface(\"wall\", repeat=2):\n\tbase = texture(r'wall\\old.tif')\n\tif base.kind == 'srgb':\n\t\tbase = to_linear(base)\n\telse:\n\t\tpass\nshow()\n",
    "def blend(a, b, t=0.5):\n    \"\"\"Two colours,\n    mixed.\"\"\"\n    return a * (1 - t) + b * t\n\nfor name in ['sky', 'sea']:\n    with surface(name) as s:\n        s.paint(blend(to_linear(s.top),\n                      to_linear(s.low)))\n",
    "match kind:\n    case 'wood':\n        rough = .8\n    case 'glass' | 'water':\n        rough = 1e-3\n    case _: rough = 0.5\n",
    "type Layer = tuple[str, float]\nlayers: list[Layer] = [\n    ('ochre', 0.25),  # first\n    ('umber', 1.),\n]\nassert 0 <= sum(w for _, w in layers) != 2\n",
    "x = 1 if a else 2; y = x<<2 | ~x & 0xff\ntry:\n  z = x // y ** 2 % 3\nexcept ZeroDivisionError as e: raise\nfinally:\n  del z\n",
    "async def fetch(*a, **k) -> None:\n  async with s as t, u: await t\n  global g; nonlocal h\n  while True: break\n  else: continue\n  yield from (lambda: not 1 or None)()\n  import os, sys; from . import x\n  return a is b in c and False\n",
];

/// Bytes that are no UTF-8, and the sequences next to them that are.
#[rustfmt::skip]
pub const BYTES: &[&[u8]] = &[
    b"\x80", b"\xbf", b"\xc0", b"\xc1", b"\xc0\x80", b"\xc1\xbf", b"\xf5", b"\xff", b"\xfe\xff", b"\xf5\x80\x80\x80",
    b"\xf8\x88\x80\x80\x80", b"\xc2", b"\xc2\x80", b"\xdf\xbf", b"\xc2x", b"\xc2\xc2", b"\xdf", b"\xe0", b"\xe0\xa0",
    b"\xe0\xa0\x80", b"\xe0\x9f\xbf", b"\xe0\x80\x80", b"\xe0\xa0x", b"\xe1\x80\xbf", b"\xe1\x80", b"\xe1\x80\xc0",
    b"\xec\xbf\xbf", b"\xed\x9f\xbf", b"\xed\xa0\x80", b"\xed\xbf\xbf", b"\xed", b"\xed\x80", b"\xee\x80\x80",
    b"\xef\xbf\xbf", b"\xef\xbb\xbf", b"\xef\xbb", b"\xf0", b"\xf0\x90", b"\xf0\x90\x80", b"\xf0\x90\x80\x80",
    b"\xf0\x8f\xbf\xbf", b"\xf0\x80\x80\x80", b"\xf1\x80\x80\x80", b"\xf3\xbf\xbf\xbf", b"\xf4\x8f\xbf\xbf",
    b"\xf4\x90\x80\x80", b"\xf4\x80\x80", b"\xf4\x80\x80x", b"\xf0\x90x\x80", b"\xf0\x90\x80\xff", b"a\xed\xa0\x80",
    b"x\n\xe9", b"'\xe9'", b"#\xe9\n", b"# coding: latin-1\n\"\xe9\"", b"\xef\xbb\xbf\xe9", b"$\xe9", b"x)\xe9",
    b"\x00\xff", b"\xe4\xb8\xad\xe6", b"\xf0\x9f\x98\x80\xf0\x9f\x98", b"caf\xe9", b"caf\xc3\xa9\xa9",
];

/// Document 02 item 2: the ends of the ranges of bytes in which each fault lies, and what may follow there.
#[rustfmt::skip]
pub const ILL_FORMED: &[&[u8]] = &[
    // a first byte that is none
    b"\x80", b"\xbf", b"\x80A", b"\xc0", b"\xc1", b"\xf5", b"\xff", b"\xc0\x80", b"\xf5A",
    // the text ends
    b"\xc2", b"\xdf", b"\xe0", b"\xed", b"\xef", b"\xf0", b"\xf4", b"\xe0\xa0", b"\xe1\x80", b"\xed\x9f", b"\xef\xbf",
    b"\xf0\x90", b"\xf4\x8f", b"\xf0\x90\x80", b"\xf1\x80\xbf", b"\xf4\x8f\xbf",
    // another byte follows
    b"\xc2A", b"\xdf\xc0", b"\xe0A", b"\xe0\xc0", b"\xe1\x80A", b"\xe1\x80\xe1\x80", b"\xed\x7f", b"\xed\xed\xa0", b"\xef\n",
    b"\xf0\xc0", b"\xf0A", b"\xf1\x80\xff", b"\xf4\xf5", b"\xf4\x8f\x7f", b"\xf0\x90\x80A", b"\xf3\xbf\xbf\xc2\x80",
    // overlong forms
    b"\xe0\x80", b"\xe0\x9f", b"\xe0\x80A", b"\xe0\x9f\xbf", b"\xf0\x80", b"\xf0\x8f", b"\xf0\x80\xff", b"\xf0\x8f\xbf\xbf",
    // surrogates
    b"\xed\xa0", b"\xed\xbf", b"\xed\xa0A", b"\xed\xa0\x80", b"\xed\xbf\xbf", b"\xed\xa0\xff", b"\xed\xa0\x80\xed\xb0\x80",
    // above 10FFFF
    b"\xf4\x90", b"\xf4\xbf", b"\xf4\x90A", b"\xf4\x90\x80\x80", b"\xf4\xbf\xff",
];

/// Lines and characters of every width that may stand before such bytes.
pub const WELL_FORMED: &str = "\u{e9} = '\u{4e2d}'\r\nx\n# \u{1f600}\n";

/// The words that are keywords, hard and soft.
pub const WORDS: &str = "False None True and as assert async await break case class continue def del elif else except \
    finally for from global if import in is lambda match nonlocal not or pass raise return try type while with yield";

/// Every character that an operator has.
pub const OPERATOR_CHARACTERS: &str = "=+*/%|^&-@!~()[]{}:;<>,.";
