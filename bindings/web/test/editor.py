"""bindings/web/test/editor.py: drives the CodeMirror adapter (bindings/web/codemirror.js) in headless Chromium, with its keyboard
and mouse, and prints the time that a key takes beside an editor without the reader.

It needs Debian's chromium, chromium-driver, python3-selenium (under the system's own python3) and libjs-codemirror, and
the .wasm (tools/build-wasm), and no network. Pictures go to target/editor. The last line is `N passed, N failed`; the
status is 1 if any failed.
"""
import argparse
import functools
import http.server
import pathlib
import statistics
import sys
import threading
import time
import traceback

from selenium import webdriver
from selenium.webdriver.chrome.service import Service
from selenium.webdriver.common.action_chains import ActionChains
from selenium.webdriver.common.by import By
from selenium.webdriver.common.keys import Keys

from original import recipes

ROOT = pathlib.Path(__file__).resolve().parents[3]
RECIPES = ROOT / "examples/recipes"
PICTURES = ROOT / "target/editor"
# Where Debian's libjs-codemirror puts it.
CODEMIRROR = pathlib.Path("/usr/share/javascript/codemirror")
STYLES = ("textarea", "contenteditable")
# The one that the demo page has.
PAGE_STYLE = STYLES[1]


# ---- the page

class Handler(http.server.SimpleHTTPRequestHandler):
    """The repository, and CodeMirror under /codemirror/."""

    extensions_map = {**http.server.SimpleHTTPRequestHandler.extensions_map, ".wasm": "application/wasm", ".js": "text/javascript"}

    def translate_path(self, path):
        served = super().translate_path(path)
        inside = pathlib.Path(served).relative_to(self.directory)
        return str(CODEMIRROR.joinpath(*inside.parts[1:])) if inside.parts[:1] == ("codemirror",) else served

    def log_message(self, *words):
        pass


def serve():
    server = http.server.ThreadingHTTPServer(("127.0.0.1", 0), functools.partial(Handler, directory=str(ROOT)))
    threading.Thread(target=server.serve_forever, daemon=True).start()
    return f"http://127.0.0.1:{server.server_port}/bindings/web/test/editor.html"


class Page:
    def __init__(self):
        options = webdriver.ChromeOptions()
        options.binary_location = "/usr/bin/chromium"
        for word in ("--headless=new", "--no-sandbox", "--disable-dev-shm-usage", "--window-size=1200,900"):
            options.add_argument(word)
        options.set_capability("goog:loggingPrefs", {"browser": "ALL"})
        self.driver = webdriver.Chrome(service=Service("/usr/bin/chromedriver"), options=options)
        self.driver.set_script_timeout(60)
        self.address = serve()

    def open(self, query=""):
        self.driver.get(f"{self.address}?{query}")
        self.wait("return window.ready")

    def js(self, script, *words):
        return self.driver.execute_script(script, *words)

    def wait(self, script, *words):
        """What the script answers, once it is anything."""
        for _ in range(400):
            found = self.js(script, *words)
            if found:
                return found
            time.sleep(0.025)
        raise AssertionError(f"never: {script} {self.logs()}")

    def keys(self, *keys):
        ActionChains(self.driver, duration=0).send_keys(*keys).perform()

    def chord(self, key, *held):
        chain = ActionChains(self.driver, duration=0)
        for each in held:
            chain.key_down(each)
        chain.send_keys(key)
        for each in held:
            chain.key_up(each)
        chain.perform()

    def put(self, text, line=0, ch=0):
        self.js("cm.setValue(arguments[0]); cm.focus(); cm.setCursor(arguments[1], arguments[2]); cm.clearHistory()", text, line, ch)

    def value(self):
        return self.js("return cm.getValue()")

    def logs(self):
        return [entry["message"] for entry in self.driver.get_log("browser") if entry["level"] == "SEVERE"]

    def picture(self, name):
        PICTURES.mkdir(parents=True, exist_ok=True)
        self.driver.save_screenshot(str(PICTURES / f"{name}.png"))


# ---- the time that a key takes

def timed(page, line):
    """Medians of 30 keys in the editor and in the one beside it, which take turns."""
    page.js(
        """for (const [editor, row] of times) {
            row.length = 0
            editor.setCursor(arguments[0], 0)
            editor.execCommand('goLineEnd')
            editor.scrollIntoView(null, 200)
        }""",
        line,
    )
    for _ in range(3):
        for editor in ("bare", "cm"):
            page.js(f"{editor}.focus()")
            time.sleep(0.05)
            chain = ActionChains(page.driver, duration=0)
            for _ in range(10):
                chain.send_keys("x").pause(0.03)
            chain.perform()
    found = []
    for editor in ("bare", "cm"):
        row = page.js(f"return times.get({editor})")
        assert len(row) == 30, (editor, len(row))
        found.append({name: statistics.median(each[name] for each in row) for name in ("work", "frame", "read")})
    return found


def speed(page):
    print("      medians of 30 keys in ms, without the reader and with it: to the editor's `changes`, the drawing included")
    print("      (to behind the next frame; with the reader, to the reading)")
    for size in (1_000, 10_000, 100_000, 1_000_000):
        page.open(f"beside&input={PAGE_STYLE}")
        page.js("for (const editor of [bare, cm]) editor.setValue(arguments[0])", recipes(size))
        lines = page.js("return cm.lineCount()")
        # The browser compiles the reader a second time, for speed, once it has run for a while.
        page.js("for (let i = 0; i < 40; i++) for (const editor of [bare, cm]) { editor.replaceRange('x', {line: 0, ch: 0}); reader.flush(); editor.undo() }")
        row = []
        for place, line in (("start", min(3, lines - 1)), ("middle", lines // 2), ("end", max(0, lines - 3))):
            bare, read = timed(page, line)
            row.append(f"{place} {bare['work']:.1f}, {read['work']:.1f} = {read['work'] / bare['work']:.2f} × ({bare['frame']:.0f}, {read['frame']:.0f}; {read['read']:.0f})")
        print(f"      {size:>9,} {' | '.join(row)}", flush=True)


# ---- trials

trials = []


def trial(run):
    trials.append(run)
    return run


def right(page, **options):
    """The text, the records, the places and the colours in view are those of a whole reading."""
    found = page.js("return differs(arguments[0])", options)
    assert not found, found


def in_page(page, name):
    """Runs a trial of editor-trials.js, which answers what it did."""
    script = """const [name, done] = arguments
        trials[name]().then((said) => done({ said }), (error) => done({ wrong: String(error.stack) }))"""
    found = page.driver.execute_async_script(script, name)
    assert "wrong" not in found, found["wrong"]
    return found.get("said")


def without_keys(name):
    """A trial of editor-trials.js by its name in words."""
    first, *others = name.split()

    def tried(page):
        return in_page(page, first + "".join(word.capitalize() for word in others))

    tried.__name__ = name
    return tried


@trial
def typing(page):
    page.put("")
    before = page.js("return readings()")
    typed = "with surface('x') as g:\nmatch x:  # a\n    case 1: pass\n"
    page.keys(typed.replace("\n", Keys.ENTER))
    # The editor goes on with the blanks of the line before.
    assert page.value() == typed + "    ", page.value()
    right(page)
    read = page.js("return readings()") - before
    assert read == len(typed), f"{read} readings of {len(typed)} keys"


@trial
def colours_before_the_change(page):
    """A colon on line 2 makes `match` on line 1 a keyword, and the quotes of line 1 a string of line 2, in the same drawing."""
    page.put("match (a,\n       b)\nx = 1\n", 1, 9)
    assert page.js("return drawnLines()[0]").startswith("name match"), page.js("return drawnLines()")
    page.keys(":")
    assert page.js("return drawnLines()[0]").startswith("keyword match"), page.js("return drawnLines()")
    right(page)
    page.put("a = 1\nb = 2\nc = '''y'''\n", 0, 4)
    page.keys("''' ")
    page.js("cm.setCursor(1, 0)")
    page.keys("'''")
    assert page.js("return drawnLines()[1]").startswith("string '''"), page.js("return drawnLines()")
    right(page)


@trial
def several_carets(page):
    page.put("aa = 1\nbb = 2\ncc = 3\ndd = 4\n" * 3)
    before = page.js("return readings()")
    page.js("cm.setSelections([0, 1, 2, 5, 9].map((line) => ({ anchor: { line, ch: 0 }, head: { line, ch: 2 } })))")
    page.keys("x", "y", Keys.ENTER)
    assert page.js("return readings()") - before == 3
    assert page.value().startswith("xy\n= 1\nxy\n= 2\n"), page.value()
    right(page)
    page.chord("z", Keys.CONTROL)
    assert page.value().startswith("aa = 1\nbb = 2\n"), page.value()
    right(page)
    page.chord("z", Keys.CONTROL, Keys.SHIFT)
    assert page.value().startswith("xy\n= 1\n"), page.value()
    right(page)


@trial
def undo_by_words(page):
    page.put("x = 1\n", 1, 0)
    # A slow machine makes pauses of its own: here they are no steps, and the one that is a step is said.
    page.js("cm.setOption('historyEventDelay', 60_000)")
    for word in ("abc", " = ", "12"):
        page.keys(word)
    page.js("cm.changeGeneration(true)")
    page.keys("34")
    steps = [page.value()]
    for key in ("z", "z", "y"):
        page.chord(key, Keys.CONTROL)
        steps.append(page.value())
        right(page)
    assert steps == ["x = 1\nabc = 1234", "x = 1\nabc = 12", "x = 1\n", "x = 1\nabc = 12"], steps


@trial
def composing(page):
    """An input method: a word in stages, which are shown, then the word; one step of undo."""
    page.put("x = \ny = 2\n", 0, 4)
    # CodeMirror looks at its field for a while after it got the focus, and ends a composition by that.
    time.sleep(0.5)
    for stage in ("n", "に", "にほ", "にほん"):
        page.driver.execute_cdp_cmd("Input.imeSetComposition", {"text": stage, "selectionStart": len(stage), "selectionEnd": len(stage)})
        page.wait("return document.querySelector('.CodeMirror-line').textContent.includes(arguments[0])", stage)
    page.driver.execute_cdp_cmd("Input.insertText", {"text": "日本"})
    page.wait("return cm.getLine(0) === 'x = 日本'")
    right(page)
    page.keys("!")
    assert page.value() == "x = 日本!\ny = 2\n", page.value()
    right(page)


@trial
def lone_halves(page):
    page.put("x = ''\n", 0, 5)
    for typed in ("\\ud83d", "\\ude00", "\\ude00"):
        page.js(f"cm.replaceSelection('{typed}')")
        right(page)
    assert page.js("return reader.document.text") == "x = '😀\ufffd'\n", page.js("return reader.document.text")
    page.js("cm.replaceRange('', { line: 0, ch: 5 }, { line: 0, ch: 6 })")
    right(page)
    assert page.js("return reader.document.text") == "x = '\ufffd\ufffd'\n", page.js("return reader.document.text")


@trial
def paste_of_a_megabyte(page):
    page.put("x = 1\n")
    page.js(
        """const data = new DataTransfer()
        data.setData('text/plain', arguments[0])
        cm.getInputField().dispatchEvent(new ClipboardEvent('paste', { clipboardData: data, bubbles: true, cancelable: true }))""",
        recipes(1_000_000),
    )
    page.wait("return cm.getValue().length > 990_000")
    assert page.js("return reader.document.code") == 0
    right(page)
    page.chord("z", Keys.CONTROL)
    assert page.value() == "x = 1\n", len(page.value())
    right(page)


@trial
def folding_by_mouse(page):
    """The recipe's with block folds with the note at the left margin inside it."""
    page.put((RECIPES / "gold_leaf.py").read_text())
    page.wait("return document.querySelectorAll('.CodeMirror-foldgutter-open').length === 1")
    page.picture(f"gold_leaf-{page.style}")
    page.driver.find_element(By.CSS_SELECTOR, ".CodeMirror-foldgutter-open").click()
    assert page.js("return folded()") == [[1, 6]], page.js("return folded()")
    assert len(page.js("return drawnLines()")) == 3
    page.picture(f"folded-{page.style}")
    page.driver.find_element(By.CSS_SELECTOR, ".CodeMirror-foldgutter-folded").click()
    assert page.js("return folded()") == []
    right(page)


NESTED = """x = f(
    1,
    2,
)  # here
def g(a,
      b):
    if a:
        y = {
            1: 2,
        }
# margin
    return 1
    # inside
# outside
# more
z = '''

'''
"""


@trial
def folding_by_keys(page):
    page.put(NESTED, 8, 4)
    page.chord("[", Keys.CONTROL, Keys.SHIFT)
    assert page.js("return folded()") == [[7, 9]], page.js("return folded()")
    shown = "return [...document.querySelectorAll('.CodeMirror-line')].map((line) => line.textContent.replaceAll('\\u200b', ''))"
    assert page.js(shown)[7] == "        y = {…}", page.js(shown)
    page.chord("[", Keys.CONTROL, Keys.SHIFT)
    assert page.js("return folded()") == [[7, 9]], page.js("return folded()")
    page.chord("]", Keys.CONTROL, Keys.SHIFT)
    assert page.js("return folded()") == [], page.js("return folded()")
    for key in "k0k0":
        page.chord(key, Keys.CONTROL)
    assert page.js(shown)[:3] == ["x = f(…)  # here", "def g(a,…):…", "# outside…"], page.js(shown)
    assert page.js("return folded()") == [[0, 3], [4, 5], [5, 12], [6, 9], [7, 9], [13, 14]], page.js("return folded()")
    page.picture(f"all-folded-{page.style}")
    page.chord("k", Keys.CONTROL)
    page.chord("j", Keys.CONTROL)
    assert page.js("return folded()") == [], page.js("return folded()")
    right(page)


@trial
def folds_follow_the_text(page):
    page.put("if a:\n    b\nc = 1\n", 1, 4)
    page.wait("return arrows() === '0'")
    page.keys(Keys.BACKSPACE * 4)
    page.wait("return arrows() === ''")
    page.keys("    ")
    page.wait("return arrows() === '0'")
    page.put("if a:\n    b\nc\nd = 1\n", 3, 0)
    page.js("cm.foldCode(0)")
    assert page.js("return folded()") == [[0, 1]]
    # The next line becomes one of the block: the fold takes it, for the caret is elsewhere.
    page.js("cm.replaceRange('    ', { line: 2, ch: 0 })")
    page.wait("return String(folded()) === '0,2'")
    # With the caret in it, it opens.
    page.keys("    ")
    page.wait("return String(folded()) === ''")
    right(page)
    # A fault before it leaves a fold as it is; the block goes, and its fold with it.
    page.put("a\nif a:\n    b\nd = 1\n", 0, 1)
    page.js("cm.foldCode(1)")
    page.keys("$")
    time.sleep(0.3)
    assert page.js("return folded()") == [[1, 2]], page.js("return folded()")
    page.keys(Keys.BACKSPACE)
    time.sleep(0.3)
    assert page.js("return folded()") == [[1, 2]], page.js("return folded()")
    page.js("cm.replaceRange('a = 1', { line: 1, ch: 0 }, { line: 1, ch: 5 }); cm.replaceRange('', { line: 2, ch: 0 }, { line: 2, ch: 4 })")
    page.wait("return String(folded()) === ''")


MARKS = """return {
    signs: [...document.querySelectorAll('.sroviemat-fault-sign')].map((sign) => sign.title),
    line: [...document.querySelectorAll('.CodeMirror-code > div')].findIndex((line) => line.querySelector('.sroviemat-fault-sign')),
    marked: [...document.querySelectorAll('.sroviemat-fault')].map((part) => part.textContent).join(''),
    ends: document.querySelectorAll('.sroviemat-fault-end').length,
}"""


@trial
def a_fault_and_what_is_behind_it(page):
    text = "with surface('x') as g:\n    a = f(1)\n    b = 2\nc = 'y'\nd = [4,\n     5]\n" * 3
    page.put(text, 2, 9)
    left = "return [...document.querySelectorAll('.CodeMirror-line > span')].map((line) => line.getBoundingClientRect().left).join()"
    before = page.js(left)
    page.keys(" $")
    found = page.js(MARKS)
    assert found["signs"] == ["`$` at 3:11 cannot stand there: nothing in Python begins with it."], found
    assert found["line"] == 2 and found["marked"] == "$" and found["ends"] == 0, found
    assert page.js(left) == before
    stale = page.js("return drawnLines()[9]")
    assert stale == "name+stale c | operator+stale = | string+stale 'y'", stale
    # A line that is typed behind it is read for itself, also where another line opens its bracket.
    page.js("cm.setCursor(4, 7)")
    page.keys(Keys.ENTER, "    for q in z: pass  # so")
    page.js("cm.setCursor(6, 7)")
    page.keys(", 'r')")
    typed = page.js("return [drawnLines()[5], drawnLines()[6]]")
    assert typed[0].startswith("keyword+stale for | name+stale q | keyword+stale in") and typed[0].endswith("comment+stale # so"), typed
    assert typed[1] == "number+stale 5 | operator+stale ], | string+stale 'r' | operator+stale )", typed
    page.picture(f"fault-{page.style}")
    page.js("cm.setValue(arguments[0].replace('b = 2', 'b = 2 $'))", text)
    right(page)
    page.js("cm.setCursor(2, 11)")
    page.keys(Keys.BACKSPACE)
    right(page)
    found = page.js(MARKS)
    assert found["signs"] == [] and found["marked"] == "" and page.js("return document.querySelectorAll('.cm-stale, .cm-unread').length") == 0, found
    # In a fold, its sign is at the line that is in view.
    page.put("if a:\n    b $\nc\n")
    page.js("cm.foldCode(0)")
    assert page.js(MARKS)["line"] == 0, page.js(MARKS)
    page.js("cm.execCommand('unfoldAll')")
    assert page.js(MARKS)["line"] == 1 and len(page.js(MARKS)["signs"]) == 1, page.js(MARKS)
    # What mends a fault may stand elsewhere.
    page.put("x = (1\ny\n", 1, 1)
    assert page.js(MARKS)["marked"] == "(", page.js(MARKS)
    page.keys(")")
    found = page.js(MARKS)
    assert found["signs"] == [] and found["marked"] == "", found


@trial
def where_the_fault_is_marked(page):
    for text, line, marked, ends in (
        ("x = 1\ny = f('gold\nz\n", 1, "'gold", 0),
        ("x = (1,\n2\n\n\n", 0, "(", 0),
        ("def f():\n    '''What\n    it\n", 1, "'''What", 0),
        ("a = 1\nb = 5€\n", 1, "€", 0),
        ("a = 1\nb = 𝄞\n", 1, "𝄞", 0),
        ("if a:\n        b\n    c\n", 2, "    ", 0),
        ("x = 0777\n", 0, "0777", 0),
        ("x = 1)\n", 0, ")", 0),
        ("# note\n$\n", 1, "$", 0),
    ):
        page.put(text)
        found = page.js(MARKS)
        assert (found["line"], found["marked"], found["ends"], len(found["signs"])) == (line, marked, ends, 1), (text, found)
        right(page)
    # The comment before a line that begins with a fault is not behind it.
    assert page.js("return drawnLines()[0]") == "comment # note", page.js("return drawnLines()")
    # No reading is known to give a span without letters; where one does, a sign stands there, and no letter moves.
    for text, start, end, line in (("a\n", 2, 2, 1), ("a\n\nb", 2, 3, 1), ("a\nbc", 1, 1, 0)):
        page.put("")
        page.js("Object.defineProperty(reader.document, 'fault', { value: { start: arguments[0], end: arguments[1], message: 'here' } })", start, end)
        page.put(text)
        found = page.js(MARKS)
        assert (found["line"], found["marked"], found["ends"], found["signs"]) == (line, "", 1, ["here"]), (text, found)
        box = page.js("const end = document.querySelector('.sroviemat-fault-end'), box = end.getBoundingClientRect(); return [box.width, getComputedStyle(end, '::after').width]")
        assert box[0] == 0 and float(box[1].removesuffix("px")) > 5, box
        page.js("reader.setMode(sroviemat.MODULE_WITH_COMMENTS)")


# What is marked of a wrong bracket, and the titles of the signs by their lines.
BRACKETS = """
    const letters = (name) => [...document.querySelectorAll(name)].map((part) => part.textContent).join('')
    const signs = [...document.querySelectorAll('.CodeMirror-code > div')].map((line) => line.querySelector('.sroviemat-fault-sign')?.title ?? '')
    const titles = [...document.querySelectorAll('.sroviemat-wrong-bracket, .sroviemat-met-opener')].map((part) => part.title)
    return { marked: [letters('.sroviemat-wrong-bracket'), letters('.sroviemat-met-opener')], signs, titles: [...new Set(titles)] }"""


@trial
def a_wrong_bracket(page):
    """It is marked with the opener that it meets, as soon as it is typed, and a sign says it; all goes when it is mended."""
    page.put("y = 1\nz = 2\n", 0, 5)
    left = "return [...document.querySelectorAll('.CodeMirror-line > span')].map((line) => line.getBoundingClientRect().left).join()"
    before = page.js(left)
    page.keys(" + f(é[0")
    assert page.js(BRACKETS)["marked"] == ["", ""], page.js(BRACKETS)
    page.keys(")")
    found = page.js(BRACKETS)
    # The reading comes to the end within a bracket, which is its own fault, on the same line: both are said.
    words = "`)` at 1:14 does not close `[` at 1:12, the latest bracket that is open."
    assert found == {"marked": [")", "["], "signs": ["`(` at 1:10 is never closed.\n" + words, "", ""], "titles": [words]}, found
    page.keys("]")
    found = page.js(BRACKETS)
    assert found == {"marked": [")", "["], "signs": [words, "", ""], "titles": [words]}, found
    assert page.js("return [reader.fault, reader.document.code, reader.wrongBracket.message]") == [None, 0, words]
    assert page.js(left) == before
    right(page)
    page.picture(f"bracket-{page.style}")
    # A line above and letters before it move the marks along, and the sentence says where they are.
    page.js("cm.replaceRange('# above\\n', { line: 0, ch: 0 })")
    found = page.js(BRACKETS)
    assert found["marked"] == [")", "["] and found["signs"] == ["", words.replace("1:1", "2:1"), "", ""], found
    right(page)
    page.js("cm.setCursor(1, 15)")
    page.keys(Keys.BACKSPACE * 2, "])")
    found = page.js(BRACKETS)
    assert found == {"marked": ["", ""], "signs": [""] * 4, "titles": []}, found
    assert page.js("return reader.wrongBracket") is None
    right(page)
    page.chord("z", Keys.CONTROL)
    right(page)


@trial
def where_a_wrong_bracket_is_marked(page):
    deep = "(" * 200
    for text, marked, signs in (
        ("([)]", [")", "["], ["`)` at 1:3 does not close `[` at 1:2, the latest bracket that is open."]),
        # The opener stands on another line: the sign is at the closer's.
        ("x = [1,\n  2}\ny", ["}", "["], ["", "`}` at 2:4 does not close `[` at 1:5, the latest bracket that is open.", ""]),
        # A fault on another line has a sign of its own.
        ("(]\n$", ["]", "("], ["`]` at 1:2 does not close `(` at 1:1, the latest bracket that is open.", "`$` at 2:1 cannot stand there: nothing in Python begins with it."]),
        (f"{deep}[]{')' * 200}", ["[", ""], ["`[` at 1:201 is the 201st bracket that is open; 200 are the most."]),
        (f"{deep}{{", ["{", ""], ["`{` at 1:201 is never closed.\n`{` at 1:201 is the 201st bracket that is open; 200 are the most."]),
        # A closer that meets nothing is the reading's own fault.
        ("())", ["", ""], ["`)` at 1:3 closes no bracket."]),
        ("'([)]' # ([)]", ["", ""], [""]),
    ):
        page.put(text)
        found = page.js(BRACKETS)
        assert (found["marked"], found["signs"]) == (marked, signs), (text, found)
        right(page, colours=len(text) < 100)
    # In a fold, its sign is at the line that is in view.
    page.put("if a:\n    ([)]\nc\n")
    page.js("cm.foldCode(0)")
    assert [title != "" for title in page.js(BRACKETS)["signs"]] == [True, False, False], page.js(BRACKETS)
    page.js("cm.execCommand('unfoldAll')")
    assert [title != "" for title in page.js(BRACKETS)["signs"]] == [False, True, False, False], page.js(BRACKETS)
    # A wave and dashes, not a colour alone.
    lines = page.js("return ['.sroviemat-wrong-bracket', '.sroviemat-met-opener'].map((name) => getComputedStyle(document.querySelector(name))).map((style) => [style.textDecorationStyle, style.outlineStyle])")
    assert lines == [["wavy", "none"], ["solid", "dashed"]], lines


# The trials of editor-trials.js: what no key and no mouse has a part in is tried in one style.
for name in ("other documents and modes", "a long text is drawn first", "blocks beside the text"):
    trials.append(without_keys(name))
ONCE = [without_keys(name) for name in ("random operations", "random colours", "no work in the background", "a long line", "what codemirror does not document")]
trials += ONCE


@trial
def contrast(page):
    """Every colour of a letter has 4.5 to 1 with the sheet, also where it is paler, in light and dark."""
    least = {}
    for scheme, fault in (("light", ")"), ("light", "'x"), ("light", "$"), ("dark", ")"), ("dark", "'x"), ("dark", "$")):
        page.driver.execute_cdp_cmd("Emulation.setEmulatedMedia", {"features": [{"name": "prefers-color-scheme", "value": scheme}]})
        page.put(f"with a: # note\n    b = 1 + ([)] + 'x'\n{fault}\nwith a: # note\n    b = 1 + 'x' + ?\n")
        found = page.js("""
            const numbers = (colour) => { const all = colour.match(/[\\d.]+/g).map(Number); return colour.startsWith('color(') ? [...all.slice(0, 3).map((x) => 255 * x), all[3] ?? 1] : [...all, 1].slice(0, 4) }
            const over = (top, under, opacity) => under.slice(0, 3).map((x, i) => top[i] * top[3] * opacity + x * (1 - top[3] * opacity))
            const light = (rgb) => { const [r, g, b] = rgb.map((x) => (x /= 255) <= 0.04045 ? x / 12.92 : ((x + 0.055) / 1.055) ** 2.4); return 0.2126 * r + 0.7152 * g + 0.0722 * b }
            const sheet = numbers(getComputedStyle(cm.getWrapperElement()).backgroundColor)
            return [...document.querySelectorAll('.CodeMirror-line span[class*=cm-], .CodeMirror-linenumber, .sroviemat-fault-sign')].map((part) => {
                const style = getComputedStyle(part), opacity = Number(style.opacity)
                const under = over(numbers(style.backgroundColor), sheet, opacity)
                const [low, high] = [light(over(numbers(style.color), under, opacity)), light(under)].sort((a, b) => a - b)
                return [part.className, (high + 0.05) / (low + 0.05)]
            })""")
        for wanted in ("unread", "stale", "wrong-bracket", "met-opener"):
            assert any(wanted in name for name, _ in found), (wanted, found)
        page.picture(f"{scheme}-{page.style}")
        name, ratio = min(found, key=lambda each: each[1])
        least[scheme] = min(ratio, least.get(scheme, ratio))
        assert ratio >= 4.5, (scheme, name, ratio)
    page.driver.execute_cdp_cmd("Emulation.setEmulatedMedia", {"features": []})
    return ", ".join(f"{scheme} {ratio:.2f}" for scheme, ratio in least.items())


@trial
def taken_off_again(page):
    page.open(f"bare&input={page.style}")
    return in_page(page, "takenOffAgain")


def run(page, name, each):
    began = time.time()
    try:
        page.open(f"input={page.style}")
        said = each(page)
        wrong = page.logs()
        assert not wrong, wrong
        print(f"ok    {name} ({time.time() - began:.1f} s)" + (f": {said}" if said else ""), flush=True)
        return True
    except Exception as error:
        print(f"WRONG {name}: {type(error).__name__} {str(error)[:800]}", flush=True)
        if not isinstance(error, AssertionError):
            traceback.print_exc(limit=3)
        return False


def main():
    parser = argparse.ArgumentParser(description=__doc__, formatter_class=argparse.RawDescriptionHelpFormatter)
    parser.add_argument("--only", default="", metavar="WORDS", help="the trials whose names have these words in them")
    parser.add_argument("--no-times", action="store_true", help="leave the times of keys out")
    words = parser.parse_args()
    page = Page()
    results = []
    try:
        # A page that does not start is not tried 36 times.
        page.open()
        for page.style in STYLES:
            for each in trials:
                name = f"{each.__name__.replace('_', ' ')} ({page.style})"
                is_again = page.style != STYLES[0] and (each in ONCE or each is contrast)
                if words.only in name and not is_again:
                    results.append(run(page, name, each))
        if not words.no_times:
            speed(page)
    finally:
        page.driver.quit()
    print(f"{results.count(True)} passed, {results.count(False)} failed")
    sys.exit(0 if all(results) else 1)


main()
