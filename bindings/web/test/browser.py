"""bindings/web/test/browser.py: drives the demo page in headless Chromium and Firefox with keys and pointer, and compares what it
shows with the original's answers.

It needs Debian's chromium, chromium-driver and python3-selenium (under the system's own python3), libjs-codemirror, the
oracle (oracle/build) and the .wasm (tools/build-wasm), and no network; where firefox-esr is missing, it says that Firefox
was not driven. Pictures of the page go to target/demo. The last line is `N passed, N failed`; the status is 1 if any
failed.
"""
import argparse
import random
import subprocess
import sys
import time
import traceback

from demo_page import EXPRESSION, INTERACTIVE, MODULE, Page, compare, compare_small, equal, holds
from drivers import BACKSPACE, CONTROL, DELETE, DOWN, END, ENTER, ESCAPE, HOME, LEFT, SHIFT, TAB, Chromium, Firefox
from keeping import files, kept, not_kept, opened
from original import RECIPES, ROOT, blocks, original, recipe, records

MEGABYTE = 1_000_000


# ---- the tests, for both browsers

def first_recipe(page):
    page.fresh()
    equal(page.chosen(), ["example gold_leaf", "gold leaf"])
    equal(page.shows("notice"), False, "the notice")
    compare(page)
    equal(page.marks(), ["once"])
    equal(page.said("ending"), "Read to the end.")
    equal(page.margin()[1], ["", *["once"] * 6, ""], "the bar through lines 2 to 7, the margin's comment among them")
    page.picture("gold_leaf")


def folded(page):
    """The first recipe's block folds with the comment at the margin, by mouse and by key; the arrow follows each key."""
    page.fresh()
    folded = "return editor.getAllMarks().filter((m) => m.__isFold).map((m) => m.find()).map(({ from, to }) => [from.line, to.line])"
    page.browser.wait(lambda: page.run("return document.querySelectorAll('.CodeMirror-foldgutter-open').length") == 1)
    page.browser.click(".CodeMirror-foldgutter-open")
    equal(page.run(folded), [[1, 6]], "folded by the arrow")
    equal([line[:6] for line in page.drawn().split("\n")], ["# The ", "with s", ""], "the lines left in view")
    page.settled()
    page.picture("folded")
    page.browser.click(".CodeMirror-foldgutter-folded")
    equal(page.run(folded), [], "opened by the arrow")
    page.run("editor.focus(); editor.setCursor(4, 3)")
    page.browser.chord(SHIFT, CONTROL, "[")
    equal(page.run(folded), [[1, 6]], "folded by a key from within")
    page.browser.chord(SHIFT, CONTROL, "]")
    equal(page.run(folded), [], "opened by a key")
    page.browser.click("#tools [data-command=foldAll]")
    equal(page.run(folded), [[1, 6]], "folded by the button")
    page.browser.click("#tools [data-command=unfoldAll]")
    equal(page.run(folded), [], "opened by the button")
    page.run("editor.focus(); editor.setCursor(5, 0)")
    page.browser.keys(DELETE * 4)
    page.browser.wait(lambda: page.run("editor.setCursor(1, 0); editor.foldCode(1); const found = (() => { %s })(); editor.execCommand('unfoldAll'); return found" % folded) == [[1, 3]])
    page.browser.chord(CONTROL, "z")
    equal(page.text(), recipe("gold_leaf"))


def typed(page):
    page.fresh()
    page.clear()
    compare(page)
    text = "with surface('gold') as g:\nc = to_linear(t)\n"
    asked, ours = [], []
    for letter in text:
        page.browser.keys(ENTER if letter == "\n" else letter)
        asked.append((page.text().encode(), MODULE))
        ours.append(page.answer())
    equal(page.text(), text.replace("\nc", "\n    c") + "    ", "Enter goes in behind a colon and keeps a level")
    page.browser.keys(BACKSPACE * 4)
    more = "# é ☕\nb = to_linear(to_linear (c))"
    for letter in more:
        page.browser.keys(ENTER if letter == "\n" else letter)
        asked.append((page.text().encode(), MODULE))
        ours.append(page.answer())
    equal(page.text(), text.replace("\nc", "\n    c") + more)
    equal(ours, original(asked), "after each key")
    compare(page)
    equal(page.marks(), ["once"])
    return f"{len(asked)} keys"


def undone(page):
    """A run of keys is undone at once, and comes back at once."""
    page.fresh()
    before = page.text()
    page.focus()
    # A slow machine makes pauses of its own, which are no steps here.
    page.run("editor.setOption('historyEventDelay', 60_000)")
    page.browser.chord(CONTROL, END)
    page.browser.keys("burnished = 12")
    compare(page)
    page.browser.chord(CONTROL, "z")
    equal(page.text(), before, "one undo")
    compare(page)
    page.browser.chord(CONTROL, "y")
    equal(page.text(), before + "burnished = 12", "one redo")
    compare(page)
    page.choose("ink")
    page.focus()
    page.browser.chord(CONTROL, "z")
    equal(page.text(), recipe("ink"), "undo does not reach into another recipe")


def fault(page):
    """A fault is said in words and marked where it is; a block that was not read to its end is unfinished."""
    page.fresh()
    page.clear()
    page.put("with gold:\n    a = to_linear(b)\nwith lapis:\n    c = 'ultramarine\n    d = to_linear(c)\nwith ink:\n    e\n")
    compare(page)
    equal(page.said("ending"), "The string that begins at 4:9 is not closed on its line.")
    equal(page.marks(), ["unfinished", "once"], "the blocks listed")
    equal(page.margin(), (["once", "unfinished"], ["once"] * 2 + ["unfinished"] * 2 + [""] * 4), "the margin")
    marked = "return [...document.querySelectorAll('.sroviemat-fault')].map((e) => e.textContent).join('')"
    equal(page.run(marked), "'ultramarine", "the mark")
    equal(page.run("return [...document.querySelectorAll('.CodeMirror-line .cm-keyword')].map((e) => e.textContent)"), ["with"] * 3, "colours behind the fault")
    page.picture("unfinished")
    page.browser.chord(CONTROL, HOME)
    page.browser.click("#go")
    equal(page.caret(), page.text().index("'"), "the caret is at the quote")
    page.run("editor.setCursor(3, 20)")
    page.browser.keys("'")
    compare(page)
    equal(page.marks(), ["never", "once", "once"])
    equal(page.shows("go"), False)
    for text, words in (
        ("with a:\n    to_linear(b)\n  c\n", "The indentation of line 3 fits no open block."),
        ("with a: to_linear(b)\n# c\n\n$\n", "`$` at 4:1 cannot stand there: nothing in Python begins with it."),
        ("with a:\n    f(b\nc\n", "`(` at 2:6 is never closed."),
        ("with a:\n    b]\n", "`]` at 2:6 closes no bracket."),
        ("with a: 08\n", "The number that begins at 1:9 starts with 0."),
    ):
        page.put(text)
        compare(page)
        equal([page.said("ending"), page.marks()], [words, ["unfinished"]], repr(text))


WRONG_BRACKET = "return ['.sroviemat-wrong-bracket', '.sroviemat-met-opener'].map((name) => [...document.querySelectorAll(`.CodeMirror ${name}`)].map((e) => e.textContent).join(''))"


def wrong_bracket(page):
    """A wrong bracket is said in words, and marked with the opener that it meets; both go when it is mended."""
    page.fresh()
    page.clear()
    page.put("with gold:\n    a = to_linear(é[0)]\nwith lapis:\n    b = to_linear(\n        [1, 2}\n    )\n")
    compare(page)
    words = "`)` at 2:22 does not close `[` at 2:20, the latest bracket that is open."
    equal([page.said("ending"), page.said("bracket"), page.marks()], ["Read to the end.", words, ["once", "once"]])
    equal([page.shows("go"), page.shows("bracket"), page.shows("go-bracket")], [False, True, True])
    equal(page.run(WRONG_BRACKET), [")", "["], "the marks")
    equal(page.run("return [...document.querySelectorAll('.sroviemat-fault-sign')].map((e) => e.title)"), [words], "the sign")
    page.run("editor.setCursor(0, 0)")
    page.picture("wrong-bracket")
    page.browser.click("#go-bracket")
    equal(page.caret(), page.text().index(")"), "the caret is at the closer")
    page.browser.keys(DELETE * 2, "])")
    compare(page)
    words = "`}` at 5:14 does not close `[` at 5:9, the latest bracket that is open."
    equal([page.said("bracket"), page.run(WRONG_BRACKET)], [words, ["}", "["]], "the next one")
    page.browser.click("#go-bracket")
    page.browser.keys(DELETE, "]")
    compare(page)
    equal([page.said("ending"), page.said("bracket"), page.run(WRONG_BRACKET)], ["Read to the end.", "", ["", ""]], "mended")
    equal([page.shows("bracket"), page.shows("go-bracket")], [False, False])
    # A fault is said too, and each has its own button.
    page.put("x = ([)]\ny = 'gold\n")
    compare(page)
    equal([page.said("ending"), page.said("bracket")], ["The string that begins at 2:5 is not closed on its line.", "`)` at 1:7 does not close `[` at 1:6, the latest bracket that is open."])
    for button, sign in (("#go", "'"), ("#go-bracket", ")")):
        page.browser.click(button)
        equal(page.caret(), page.text().index(sign), button)
    page.picture("wrong-bracket-fault")
    # In the table of records they are marked as in the text.
    page.browser.js("document.getElementById('inside').open = true")
    page.browser.wait(lambda: page.said("records") != "")
    marked = "return [...document.querySelectorAll('#records code[class]:not([class=\"\"])')].map((e) => [e.className, e.textContent])"
    equal(page.run(marked), [["sroviemat-met-opener", "["], ["sroviemat-wrong-bracket", ")"]], "the table")
    page.picture("wrong-bracket-records")
    page.browser.js("document.getElementById('inside').open = false")
    page.put("(" * 201 + ")" * 201 + "\n")
    compare(page)
    equal([page.said("bracket"), page.run(WRONG_BRACKET)], ["`(` at 1:201 is the 201st bracket that is open; 200 are the most.", ["(", ""]])


def tabs(page):
    """Tab indents; after Esc it leaves the editor."""
    page.fresh()
    page.clear()
    page.browser.keys("a", ENTER, TAB, "b")
    equal(page.text(), "a\n    b", "Tab")
    page.browser.chord(CONTROL, "a")
    page.browser.keys(TAB)
    equal(page.text(), "    a\n        b", "Tab with a selection")
    page.browser.chord(SHIFT, TAB)
    equal(page.text(), "a\n    b", "Shift Tab")
    inside = "return document.activeElement.closest('#editor') !== null"
    page.browser.keys(ESCAPE)
    equal(page.said("keys").startswith("Tab indents"), True)
    equal(page.run("return getComputedStyle(document.querySelector('#keys .leaves')).display"), "inline", "the hint after Esc")
    page.browser.keys("c")
    page.browser.keys(TAB)
    equal(page.browser.js(inside), True, "a key after Esc takes it back")
    page.browser.keys(ESCAPE, TAB)
    equal(page.browser.js(inside), False, "Esc, Tab")
    page.browser.chord(SHIFT, TAB)
    equal(page.browser.js(inside), True, "and back")
    page.browser.keys(ESCAPE)
    page.browser.chord(SHIFT, TAB)
    equal(page.browser.js(inside), False, "Esc, Shift Tab")


def searched(page):
    page.choose("gold_leaf")
    page.run("editor.focus(); editor.setCursor(0, 0)")
    page.browser.chord(CONTROL, "f")
    page.browser.wait(lambda: page.run("return document.activeElement.closest('.CodeMirror-dialog') !== null"))
    page.browser.keys("colour", ENTER)
    first = page.run("return [editor.getSelection(), editor.getCursor('from').line]")
    page.browser.keys(ENTER)
    second = page.run("return [editor.getSelection(), editor.getCursor('from').line]")
    equal([first, second], [["colour", 2], ["colour", 5]], "found")
    page.picture("search")
    page.browser.keys(ESCAPE)
    equal(page.run("return document.querySelector('.CodeMirror-dialog')"), None, "Esc closes it")
    equal(page.text(), recipe("gold_leaf"))


SIDEWAYS = "return [document.documentElement.scrollWidth, innerWidth, document.querySelector('.CodeMirror-gutters').offsetWidth]"
TARGETS = """
    return [...document.querySelectorAll('button, select, summary, .tools label')].filter((e) => e.getClientRects().length)
        .filter((e) => e.getBoundingClientRect().height < 44).map((e) => e.outerHTML.slice(0, 60))"""


def phone(page):
    """On a phone: no sideways scrolling, targets of 44 px, letters of 16 px, a bar in place of words."""
    page.browser.phone()
    try:
        page.fresh()
        compare_small(page, "gold_leaf")
        page.picture("phone")
        page.put("with gold:\n    a = (to_linear(b])\nwith lapis:\n    c = 'ultramarine " + "and more " * 30 + "\n    d\n")
        page.settled()
        equal([page.shows("go"), page.shows("go-bracket")], [True, True])
        page.browser.js("document.getElementById('inside').open = true")
        page.settled()
        wide, window, gutter = page.run(SIDEWAYS)
        equal([wide <= window, window], [True, 390], f"the page's width, {wide} px")
        holds(gutter < 80, f"the gutter has {gutter} px")
        equal(page.run(TARGETS), [], "targets below 44 px")
        sizes = page.run("return ['.CodeMirror', '#recipe', '#mode', 'body'].map((name) => getComputedStyle(document.querySelector(name)).fontSize)")
        equal(sizes, ["16px"] * 4, "letters")
        equal(page.run("return [...document.querySelectorAll('.CodeMirror-gutter-elt .mark')].map((e) => getComputedStyle(e).display)"), ["none"] * 2)
        equal(page.run("return editor.getOption('lineWrapping')"), True, "long lines are wrapped")
        bars = page.run("return [...document.querySelectorAll('.CodeMirror-gutter-background')].map((e) => [e.offsetHeight, e.parentElement.offsetHeight])")
        equal([high for high, _ in bars], [high for _, high in bars], "bars are as high as wrapped lines")
        page.browser.js("scrollTo(0, 0)")
        page.picture("phone-fault")
        page.browser.js("document.querySelector('.said').scrollIntoView()")
        page.picture("phone-said")
        return f"gutter {gutter} px"
    finally:
        page.browser.desk()


def latin_1(page):
    """A file in Latin-1: what is wrong with it is said, and a button, by keys too, reads it after all; so on a phone."""
    page.fresh()
    before = page.text()
    card = "# Une pâte dorée\r\nwith surface('initiale dorée') as s:\r\n    pâte = to_linear(texture('f3v.png'))\r\n    s.metal(pâte)\r\n".encode("latin-1")
    opened(page, "carte.py", card)
    wrong = "“carte.py” was not opened. Byte E2 at 1:8 is not UTF-8: it begins a character that byte 74 cuts off. Byte E2 alone is â in Latin-1: is the file in that encoding?"
    equal([page.said("notice-words"), page.said("answer")], [wrong, "Read it as Latin-1"])
    equal([page.shows("notice"), page.shows("answer"), page.text(), page.chosen()[1]], [True, True, before, "gold leaf"], "the recipe stays")
    page.picture("latin-1")
    page.browser.js("document.getElementById('open').focus()")
    for name in ("recipe", "close", "answer"):
        page.browser.chord(SHIFT, TAB)
        equal(page.browser.js("return document.activeElement.id"), name, "back by keys")
    page.browser.keys(ENTER)
    page.browser.wait(lambda: page.chosen()[1] == "carte.py")
    equal(page.said("notice-words"), "“carte.py” was read as Latin-1 and is saved as UTF-8.")
    equal(page.browser.js("return document.activeElement.closest('#editor') !== null"), True, "the focus is in the recipe")
    equal(page.text(), card.decode("latin-1").replace("\r\n", "\n"))
    compare(page)
    equal([page.said("ending"), page.marks()], ["Read to the end.", ["once"]])
    page.picture("latin-1-read")
    page.browser.click("#close")
    equal(page.shows("notice"), False, "closed")
    page.browser.phone()
    try:
        page.fresh()
        drop(page, "carte.py", "y = 'dorée'\n".encode("latin-1"))
        page.browser.wait(lambda: page.shows("answer"))
        wide, window, _ = page.run(SIDEWAYS)
        equal([wide <= window, window], [True, 390], f"the page's width, {wide} px")
        equal(page.run(TARGETS), [], "targets below 44 px")
        page.picture("phone-latin-1")
        page.browser.click("#answer")
        page.browser.wait(lambda: page.text() == "y = 'dorée'\n")
    finally:
        page.browser.desk()


def drop(page, name, data):
    """Drops a file on the page."""
    page.run("""
        const dataTransfer = new DataTransfer()
        dataTransfer.items.add(new File([Uint8Array.from(words[1])], words[0]))
        document.querySelector('main').dispatchEvent(new DragEvent('drop', { dataTransfer, bubbles: true, cancelable: true }))""", name, list(data))


CONTRAST = """
    const numbers = (colour) => { const found = colour.match(/[\\d.]+/g).map(Number); return colour.startsWith('color(') ? [...found.slice(0, 3).map((x) => 255 * x), found[3] ?? 1] : [...found.slice(0, 3), found[3] ?? 1] }
    const over = ([r, g, b, a], [x, y, z]) => [r * a + x * (1 - a), g * a + y * (1 - a), b * a + z * (1 - a)]
    const light = (colour) => colour.map((x) => x / 255).map((x) => (x <= 0.04045 ? x / 12.92 : ((x + 0.055) / 1.055) ** 2.4)).reduce((sum, x, i) => sum + x * [0.2126, 0.7152, 0.0722][i], 0)
    const behind = (e) => {
        if (!e) return [255, 255, 255]
        const own = numbers(getComputedStyle(e).backgroundColor)
        return own[3] === 1 ? own.slice(0, 3) : over(own, behind(e.parentElement))
    }
    const clear = (e) => (e ? Number(getComputedStyle(e).opacity) * clear(e.parentElement) : 1)
    const all = document.querySelectorAll('.CodeMirror-line span span, .CodeMirror-linenumber, .mark, h1, h2, h3, p, dt, dd, th, td, button, select, label, summary, .where, kbd')
    return [...all].filter((e) => e.textContent.trim() && e.getClientRects().length && !e.closest('.unseen, :disabled')).map((e) => {
        const back = behind(e)
        const [r, g, b, a] = numbers(getComputedStyle(e).color)
        const [x, y] = [light(over([r, g, b, a * clear(e)], back)), light(back)]
        return [(Math.max(x, y) + 0.05) / (Math.min(x, y) + 0.05), e.outerHTML.slice(0, 90)]
    })"""


def contrast(page):
    """Every colour of letters stands out from what it is on by 4.5 to 1, in the light and in the dark."""
    page.fresh()
    page.browser.js("document.getElementById('inside').open = true")
    page.put("with a:\n    x = to_linear, ([)]\nwith b:\n    to_linear(1)\nwith c:\n    to_linear(to_linear('x'))  # c\nwith d:\n    $ 'y' + 1 # e\n    with e: 5.5\n")
    compare(page)
    equal(page.marks(), ["unfinished", "never", "2 times", "once"])
    lowest = 100
    try:
        for scheme in ("light", "dark"):
            page.browser.dark(scheme == "dark")
            page.settled()
            found = page.run(CONTRAST)
            equal([f"{ratio:.2f} {what}" for ratio, what in found if ratio < 4.5], [], scheme)
            lowest = min(lowest, *(ratio for ratio, _ in found))
            page.picture(f"marks-{scheme}")
    finally:
        page.browser.dark(False)
    return f"lowest {lowest:.1f} to 1"


def brackets(page):
    """The bracket at the caret and its partner are marked: by the records, so that one in a string or a comment is none."""
    page.fresh()
    page.put("f(')', [1,  # )\n  2])\n")
    marked = "return [...document.querySelectorAll('.CodeMirror-matchingbracket, .CodeMirror-nonmatchingbracket')].map((e) => e.className.includes('non') + e.textContent)"
    for place, wanted in (((0, 2), ["false(", "false)"]), ((1, 5), ["false(", "false)"]), ((1, 4), ["false[", "false]"]), ((0, 1), ["false(", "false)"])):
        page.run("editor.focus(); editor.setCursor(...words[0])", place)
        equal(page.run(marked), wanted, place)
    page.run("editor.setCursor(0, 2)")
    where = page.run("return [...document.querySelectorAll('.CodeMirror-matchingbracket')].map((e) => editor.coordsChar(e.getBoundingClientRect(), 'window')).map(({ line, ch }) => [line, ch])")
    equal(where, [[0, 1], [1, 4]], "the partner is behind the string and the comment")


def records_shown(page):
    """The table of records is there on demand, at the caret."""
    page.fresh()
    equal(page.shows("records"), False, "the table at first")
    page.browser.click("summary")
    page.run("editor.focus(); editor.setCursor(2, 13)")
    page.browser.wait(lambda: page.said("records") != "")
    page.settled()
    here = "return [...document.querySelectorAll('tr.here td')].map((e) => e.textContent)"
    place = recipe("gold_leaf").index("texture")
    line = recipe("gold_leaf")[:place].count("\n") + 1
    equal(page.run(here)[1:], [str(line), "3", "Name", f"{place}–{place + 7}", f"{place}–{place + 7}", "texture"])
    page.browser.chord(CONTROL, END)
    page.settled()
    page.put("")
    page.settled()
    page.browser.click("summary")


OVER_LINES = """with gold:
    a = '''

'''; b = to_linear(
# c
        c)
d = 1 + \\
    2
with lapis: '''
'''
with ink:
    e = '''

''' $
"""


def lines_shown(page):
    """The table, the list and the margin have the lines of the records, where strings, brackets and a continuation go over lines."""
    page.fresh()
    page.put(OVER_LINES)
    rows = records(compare(page))
    equal(page.lines(), ["lines 11 to 14", "lines 9 to 10", "lines 1 to 6"], "the list")
    page.browser.js("document.getElementById('inside').open = true")
    equal(page.run("return document.querySelectorAll('#inside th')[1].textContent"), "Line from 1")
    seen = {}
    for line in range(OVER_LINES.count("\n")):
        page.run("editor.setCursor(words[0], 0)", line)
        page.settled()
        seen.update(page.run("return [...document.querySelectorAll('#records tr')].map((row) => [...row.cells].slice(0, 2).map((cell) => Number(cell.textContent)))"))
    equal(sorted(seen.items()), [(index, record[3] + 1) for index, record in enumerate(rows)], "the table, a record in a row")
    page.picture("lines")
    page.browser.js("document.getElementById('inside').open = false")


BOTH = (first_recipe, folded, typed, undone, fault, wrong_bracket, tabs, searched, brackets, records_shown, lines_shown, latin_1, phone, contrast)


# ---- the tests, for Chromium alone

def every_recipe(page):
    page.fresh()
    names = page.browser.js("return [...document.getElementById('recipe').options].map((option) => option.value)")
    equal(sorted(names), sorted(f"example {file.stem}" for file in RECIPES.glob("*.py")), "the recipes offered")
    for name in names:
        page.choose(name)
        compare(page)
    equal(page.titles(), [], "looking at recipes makes none of one's own")
    page.choose("broken_gold")
    equal(page.said("ending"), "The indentation of line 4 fits no open block.")
    page.picture("broken_gold")
    return f"{len(names)} recipes"


def edited(page):
    page.choose("gold_leaf")
    page.focus()
    page.browser.chord(CONTROL, HOME)
    page.browser.keys(DOWN * 5, DELETE * 4)
    theirs = compare(page)
    equal(page.marks(), ["never"], "the block ends where the line moved out")
    page.browser.chord(CONTROL, "z")
    equal(page.text(), recipe("gold_leaf"))
    page.browser.keys(END, ENTER, "x = to_linear(x)")
    compare(page)
    equal(page.marks(), ["2 times"])
    page.picture("twice")
    page.browser.chord(CONTROL, END)
    page.browser.keys("'")
    compare(page)
    page.browser.keys(BACKSPACE, "é = 1", LEFT, BACKSPACE)
    compare(page)
    return f"code {theirs[0]} and back"


def steady(page):
    """No letter moves sideways when marks and signs come and go, nor when a line is typed at the first of 100."""
    page.fresh()
    where = "return [document.querySelector('.CodeMirror-gutters').offsetWidth, Math.round(editor.charCoords({ line: 0, ch: 0 }).left)]"
    begun = page.run(where)
    for text in ("", "x\n", "with a:\n    b\n", "with a:\n    '\n", "$\n", recipe("lapis_and_gold"), "with a: to_linear(to_linear(1))\n"):
        page.put(text)
        page.settled()
        equal(page.run(where), begun, repr(text))


def composed(page):
    """An input method: each stage is seen, and the whole is one undo."""
    page.fresh()
    page.clear()
    page.run("editor.setOption('historyEventDelay', 60_000)")
    page.browser.keys("x = ")
    page.run("editor.changeGeneration(true)")
    for stage in ("n", "に", "にほ", "にほん"):
        page.browser.cdp("Input.imeSetComposition", text=stage, selectionStart=len(stage), selectionEnd=len(stage))
        equal(page.drawn().replace("\xa0", " "), f"x = {stage}", "the letters while it composes")
    page.browser.cdp("Input.insertText", text="日本")
    page.browser.wait(lambda: page.text() == "x = 日本")
    compare(page)
    page.browser.keys("1")
    equal(page.text(), "x = 日本1")
    compare(page)
    page.browser.chord(CONTROL, "z")
    page.browser.wait(lambda: page.text() == "x = ")
    compare(page)


def halves(page):
    """Characters that share one half: the edits take them whole."""
    page.fresh()
    for text in ("x = '\U0001f600'\n", "x = '\U0001f601'\n", "x = '\U0001fa01'\n", "x = '\U0001f601\U0001fa01'\n", "x = '\U0001fa01'\n"):
        page.put(text)
        compare(page)


def random_edits(page):
    """Edits at random places, compared one by one; what is shown is compared at every tenth."""
    numbers = random.Random(1)
    pieces = ["x", "\n", "\n    ", "    ", "\t", "(", ")", "'", '"""', "#", ":", "é", "😀", "\\", "with a:", "\nwith b:\n    ", "to_linear(", "$"]
    page.choose("lapis_and_gold")
    seen = []
    for turn in range(40):
        if turn % 4 == 0:
            page.put(recipe("lapis_and_gold"))
        edits = [[numbers.random(), numbers.choice([0, 0, 0, 1, 5]), numbers.choice(pieces)] for _ in range(10)]
        body = """
            const seen = []
            for (const [where, cut, piece] of words[0]) {
                const value = page.text, whole = (at) => (/[\\udc00-\\udfff]/.test(value[at] ?? '') ? at + 1 : at)
                const from = whole(Math.floor(where * (value.length + 1)))
                editor.replaceRange(piece, reader.position(from), reader.position(whole(Math.min(value.length, from + cut))), '+input')
                const d = page.document
                seen.push([page.text, [d.code, d.count, d.place, d.detail, ...d.records()]])
            }
            return seen"""
        seen += page.run(body, edits)
        compare(page)
    for (text, ours), theirs in zip(seen, original([(text.encode(), MODULE) for text, _ in seen])):
        equal(ours, theirs, repr(text))
    return f"{len(seen)} edits"


def pasted(page):
    """A megabyte through the clipboard, then keys in the midst of it and a jump to its end."""
    page.fresh()
    recipes = "".join(recipe(file.stem) for file in sorted(RECIPES.glob("*.py")) if file.stem not in ("broken_gold", "tabs"))
    text = recipes * (MEGABYTE // len(recipes.encode()) + 1)
    page.browser.cdp("Browser.grantPermissions", permissions=["clipboardReadWrite", "clipboardSanitizedWrite"])
    page.browser.later("const done = arguments[1]; navigator.clipboard.writeText(arguments[0]).then(done, (error) => done(String(error)))", text)
    page.clear()
    began = time.time()
    page.browser.chord(CONTROL, "v")
    page.browser.wait(lambda: page.run("return editor.lineCount()") == text.count("\n") + 1)
    seconds = time.time() - began
    equal(page.text() == text, True, "the text is what was pasted")
    compare(page)
    page.run("editor.focus(); editor.setCursor(Math.floor(editor.lineCount() / 2), 0)")
    page.browser.keys(ENTER, "q", "(", BACKSPACE)
    compare(page)
    page.browser.chord(CONTROL, END)
    page.settled()
    last = page.drawn()
    equal(page.text().endswith(last) and len(last) > 100, True, "the last lines are drawn at the end")
    everywhere = [found[0] for found in blocks(page.text(), original([(page.text().encode(), 0)])[0])]
    words, bars = page.margin()
    holds(len(words) > 3 and len(bars) < 150, f"{len(words)} words and {len(bars)} lines drawn")
    equal(words, everywhere[-len(words) :], "the margin's words at the end")
    page.run("editor.setCursor(Math.floor(editor.lineCount() / 4), 0)")
    page.settled()
    words, _ = page.margin()
    runs = [everywhere[i : i + len(words)] for i in range(len(everywhere))]
    holds(len(words) > 3 and words in runs, f"the margin's words in the first half: {words}")
    page.browser.chord(CONTROL, END)
    page.settled()
    page.picture("megabyte")
    page.browser.chord(CONTROL, "z")
    page.browser.chord(CONTROL, "z")
    compare(page)
    return f"{len(text.encode())} bytes pasted in {seconds:.1f} s"


def long_lines(page):
    """Long texts and long lines fold by mouse and by key; "Go to the place" scrolls sideways too."""
    page.fresh()
    page.put("with gold:\n" + "".join(f"    a{i} = [{'1, ' * 60}]\n" for i in range(3000)) + "x = [\n    " + "'gold leaf', " * 1500 + "\n]\ny\n")
    compare(page)
    page.run("editor.focus(); editor.setCursor(1500, 0)")
    page.browser.chord(SHIFT, CONTROL, "[")
    ranges = "return editor.getAllMarks().filter((m) => m.__isFold).map((m) => m.find()).map(({ from, to }) => [from.line, to.line])"
    equal(page.run(ranges), [[0, 3000]], "3000 lines folded by a key")
    page.settled()
    page.browser.wait(lambda: page.run("return document.querySelectorAll('.CodeMirror-foldgutter-open').length") == 1)
    page.browser.click(".CodeMirror-foldgutter-open")
    equal(page.run(ranges), [[0, 3000], [3001, 3003]], "a line of 19,500 letters folded by the arrow")
    equal(len(page.drawn().split("\n")) < 8, True, "the lines left in view")
    page.picture("long-folded")
    page.browser.click("#tools [data-command=unfoldAll]")
    page.put("a = [" + "'gold leaf', " * 300 + "$]\n" + "b\n" * 200)
    compare(page)
    page.run("editor.setCursor(150, 0)")
    page.settled()
    page.browser.click("#go")
    page.settled()
    place = page.text().index("$")
    equal(page.caret(), place, "the caret is at the place")
    seen = page.run("""
        const at = editor.charCoords({ line: 0, ch: words[0] }, 'window'), sheet = document.querySelector('.CodeMirror-scroll').getBoundingClientRect(), { clientWidth } = editor.getScrollInfo()
        return at.left > sheet.left && at.right < sheet.left + clientWidth && at.top >= sheet.top && at.bottom <= sheet.bottom""", place)
    equal(seen, True, "the place is in view")
    page.picture("sideways")
    page.browser.click("#wrap")
    page.settled()
    wide, clear = page.run("const { width, clientWidth } = editor.getScrollInfo(); return [width, clientWidth]")
    holds(wide <= clear, f"wrapped, {wide} in {clear} px")
    page.picture("wrapped")
    page.browser.click("#wrap")


def bytes_given(page):
    """Bytes that are no UTF-8, through the module that the page has loaded."""
    texts = [b"\x80", b"a\xed\xa0\x80", b"x\n\xe9", b"\xf5", b"\xc0\x80", b"\xe0\x9f\xbf", b"\xf4\x90\x80\x80", b"caf\xc3\xa9\xa9"]
    texts += [b"caf\xe9 = 1", b"\xe1\x80A", b"\xf0\xc0", b"'\xe4\xb8\xad\xe6", b"\xef\xbb\xbfx", b"\xef\xbb\xbf\xef\xbb\xbf", b"x)\xff", b"", b"caf\xc3\xa9 = '\xf0\x9f\x98\x80'"]
    body = """
        return words[0].map(([bytes, mode]) => {
            const r = module.tokenize(Uint8Array.from(bytes), mode)
            return [r.code, r.count, r.place, r.detail, ...r.records()]
        })"""
    asked = [(text, mode) for text in texts for mode in range(6)]
    equal(page.run(body, [[list(text), mode] for text, mode in asked]), original(asked), "bytes")
    body = "return [new Uint8Array(module.MOST_BYTES + 1), 'é'.repeat(module.MOST_BYTES / 2) + 'x'].map((t) => module.tokenize(t).code)"
    equal(page.run(body), [1, 1], "one byte too long")
    return f"{len(asked)} texts"


def modes(page):
    page.choose("kinds_of_gold")
    said = set()
    for mode in (INTERACTIVE, EXPRESSION, MODULE):
        page.browser.js("const m = document.getElementById('mode'); m.value = arguments[0]; m.dispatchEvent(new Event('change'))", str(mode))
        compare(page, mode)
        said.add(page.said("mode-said"))
    equal(len(said), 3, "an explanation for each")


def filtered(page):
    page.fresh()
    page.put("with a:\n    b\nwith c:\n    to_linear(d)\nwith e: to_linear(to_linear(f))\nwith g: h\nwith i:\n    '\n")
    compare(page)
    equal(page.marks(), ["unfinished", "never", "never", "2 times", "once"])
    counts = page.run("return [...document.querySelectorAll('#filters button')].map((e) => e.textContent)")
    equal(counts, ["all 5", "unfinished 1", "never 2", "more than once 1", "once 1"])
    for sort, marks in (("never", ["never"] * 2), ("many", ["2 times"]), ("once", ["once"]), ("unfinished", ["unfinished"])):
        page.browser.click(f"#filters [data-sort={sort}]")
        equal(page.marks(), marks, sort)
        equal(page.run("return [...document.querySelectorAll('#filters [aria-pressed=true]')].map((e) => e.dataset.sort)"), [sort])
    page.picture("filtered")
    page.run("editor.setValue('with a: b\\n')")
    page.settled()
    equal([page.marks(), page.said("more-blocks")], [[], "No block is unfinished."])
    page.browser.click("#filters [data-sort=all]")
    equal(page.marks(), ["never"])
    page.put("\n" * 80 + "with a:\n    b\n" + "\n" * 80)
    page.settled()
    page.browser.click("#blocks button")
    equal(page.caret(), 80, "the caret is at the block")


def announced(page):
    """A screen reader hears how the reading ended when that changes, not at every key; the editor is a labelled field."""
    page.fresh()
    page.browser.later("setTimeout(arguments[0], 900)")
    equal(page.said("announced"), "Read to the end.")
    page.run("window.heard = []; new MutationObserver(() => heard.push(document.getElementById('announced').textContent)).observe(document.getElementById('announced'), { childList: true, characterData: true, subtree: true })")
    page.focus()
    page.browser.chord(CONTROL, END)
    page.browser.keys("x = 'gold leaf on the initial'")
    page.browser.later("setTimeout(arguments[0], 900)")
    equal(page.run("return heard"), [], "typed to a good end")
    page.browser.keys(" + 'a")
    page.browser.later("setTimeout(arguments[0], 900)")
    page.browser.keys(" b c")
    page.browser.later("setTimeout(arguments[0], 900)")
    words = ["The string that begins at 8:34 is not closed on its line."]
    equal(page.run("return heard"), words, "once, whatever is typed in it")
    page.browser.keys("', (]")
    page.browser.later("setTimeout(arguments[0], 900)")
    words.append("Read to the end. `]` at 8:44 does not close `(` at 8:43, the latest bracket that is open.")
    equal(page.run("return heard"), words, "a wrong bracket")
    nodes = page.browser.cdp("Accessibility.getFullAXTree")["nodes"]
    fields = [n for n in nodes if n.get("role", {}).get("value") == "textbox"]
    equal([n.get("name", {}).get("value") for n in fields], ["Recipe text"])
    holds("initial gold" in fields[0].get("value", {}).get("value", ""), "the field's value is the text")


def keyboard_alone(page):
    """Tab reaches everything in the order of the page, and the focus shows."""
    page.fresh()
    order = []
    seen = """
        const e = document.activeElement, outline = (x) => x !== null && getComputedStyle(x).outlineStyle !== 'none'
        return [e.id || e.dataset.command || e.dataset.sort || e.className || e.tagName, outline(e) || outline(e.closest('#editor'))]"""
    for _ in range(13):
        page.browser.keys(TAB)
        name, outlined = page.browser.js(seen)
        equal(outlined, True, f"the focus shows on {name}")
        if "CodeMirror" in name:
            name = "editor"
            page.browser.keys(ESCAPE)
        order.append(name)
    equal(order, ["recipe", "open", "save", "findPersistent", "foldAll", "unfoldAll", "wrap", "editor", "mode", "all", "once", "block-button", "SUMMARY"], "the order of Tab")
    page.browser.js("document.getElementById('recipe').focus()")
    page.browser.keys("br")
    page.browser.wait(lambda: "fits no open block" in page.said("ending"))
    page.browser.js("document.getElementById('go').focus()")
    page.browser.keys(ENTER)
    equal(page.caret(), sum(len(line) + 1 for line in recipe("broken_gold").split("\n")[:3]), "the caret is at the start of line 4")
    page.browser.keys("  ")
    compare(page)
    equal(page.said("code"), "0")


def forced(page):
    """With the system's own few colours: bars and marks have borders, and what is chosen shows."""
    page.fresh()
    page.browser.cdp("Emulation.setEmulatedMedia", features=[{"name": "forced-colors", "value": "active"}])
    try:
        page.settled()
        equal(page.run("return getComputedStyle(document.querySelector('.mark')).borderStyle"), "solid")
        page.picture("forced")
    finally:
        page.browser.cdp("Emulation.setEmulatedMedia", features=[])


def quiet(page):
    equal(page.browser.log(), [], "the browser's log")


def no_file(page):
    page.browser.cdp("Network.enable")
    page.browser.cdp("Network.setBlockedURLs", urls=["*.wasm"])
    page.forget()
    page.browser.open(page.address)
    page.browser.wait(lambda: page.said("notice-words").startswith("The reader cannot start"))
    equal("cannot be fetched" in page.said("notice-words"), True, page.said("notice-words"))
    plain_text(page)
    page.picture("no-file")
    page.browser.cdp("Network.setBlockedURLs", urls=[])


def plain_text(page):
    """Without the reader: recipes can be chosen, written and kept, as plain text; nothing is said of them."""
    value = "return document.getElementById('text').value"
    page.browser.wait(lambda: page.browser.js(value) == recipe("gold_leaf"))
    page.browser.js("const r = document.getElementById('recipe'); r.value = 'example ink'; r.dispatchEvent(new Event('change'))")
    page.browser.wait(lambda: page.browser.js(value) == recipe("ink"))
    page.browser.click("#text")
    page.browser.chord(CONTROL, HOME)
    page.browser.keys("abc")
    equal(page.titles(), ["my ink"])
    page.browser.open(page.address)
    page.browser.wait(lambda: page.browser.js("return document.getElementById('text')?.value ?? null") == "abc" + recipe("ink"))
    equal([page.shows("ending"), page.shows("blocks-title"), page.shows("tools")], [False] * 3, "what needs the reader")


def no_codemirror(page):
    """A plain field with the reader's words, and the page says why."""
    page.browser.cdp("Network.enable")
    page.browser.cdp("Network.setBlockedURLs", urls=["*/codemirror/*"])
    try:
        page.fresh()
        equal("libjs-codemirror" in page.said("notice-words"), True, page.said("notice-words"))
        equal(page.text(), recipe("gold_leaf"))
        page.browser.click("#text")
        page.browser.chord(CONTROL, END)
        page.browser.keys("with a:", ENTER, " 'b")
        page.settled()
        text = page.text()
        equal(text, recipe("gold_leaf") + "with a:\n 'b")
        equal(page.answer(), original([(text.encode(), MODULE)])[0])
        equal(page.said("ending"), "The string that begins at 9:2 is not closed on its line.")
        equal(page.marks(), ["unfinished", "once"])
        page.browser.chord(CONTROL, HOME)
        page.browser.click("#go")
        equal(page.caret(), len(text) - 2)
        page.browser.keys("(é]")
        page.settled()
        equal([page.said("bracket"), page.shows("go-bracket")], ["`]` at 9:4 does not close `(` at 9:2, the latest bracket that is open.", True])
        page.picture("no-codemirror")
        page.browser.chord(CONTROL, HOME)
        page.browser.click("#go-bracket")
        equal(page.caret(), len(text))
        page.browser.keys(DELETE, ")")
        page.settled()
        equal([page.said("bracket"), page.shows("go-bracket")], ["", False], "mended")
    finally:
        page.browser.cdp("Network.setBlockedURLs", urls=[])


CHROMIUM = (every_recipe, edited, steady, composed, halves, random_edits, pasted, long_lines, bytes_given, modes, files, kept, not_kept, filtered, announced, keyboard_alone, forced, quiet, no_codemirror, no_file)


def no_webassembly(address):
    """A browser without it: Chromium has none where it may compile nothing."""
    browser = Chromium("--js-flags=--jitless")
    try:
        browser.open(address)
        page = Page.__new__(Page)
        page.browser, page.address = browser, address
        browser.wait(lambda: page.said("notice-words").startswith("The reader cannot start"))
        equal("no WebAssembly" in page.said("notice-words"), True, page.said("notice-words"))
        plain_text(page)
        page.picture("no-webassembly")
    finally:
        browser.quit()


# ---- running them

class Runs:
    def __init__(self, wanted):
        self.wanted = wanted
        self.passed = self.failed = 0

    def test(self, browser, work, *words):
        name = work.__name__.replace("_", " ")
        if self.wanted not in name:
            return
        began = time.time()
        try:
            said = work(*words) or ""
            self.passed += 1
        except Exception:
            said = "FAILED\n" + traceback.format_exc()
            self.failed += 1
        print(f"{browser}, {name}{': ' if said else ''}{said} ({time.time() - began:.1f} s)", flush=True)

    def all(self, make, address, tests):
        browser = make()
        print(f"{browser.name} {browser.version}", flush=True)
        try:
            page = Page(browser, address)
            for work in tests:
                self.test(browser.name, work, page)
        finally:
            browser.quit()


def main():
    parser = argparse.ArgumentParser(description=__doc__, formatter_class=argparse.RawDescriptionHelpFormatter)
    parser.add_argument("--only", default="", metavar="WORDS", help="the tests whose names have these words in them")
    runs = Runs(parser.parse_args().only)
    server = subprocess.Popen([ROOT / "tools/serve-demo", "0"], stdout=subprocess.PIPE, text=True)
    try:
        address = server.stdout.readline().split()[0]
        runs.all(Chromium, address, (*BOTH, *CHROMIUM))
        runs.test("Chromium", no_webassembly, address)
        if Firefox.at_hand():
            runs.all(Firefox, address, BOTH)
        else:
            print("firefox-esr is not installed: Firefox was NOT driven")
    finally:
        server.terminate()
    print(f"{runs.passed} passed, {runs.failed} failed")
    sys.exit(0 if runs.failed == 0 else 1)


main()
