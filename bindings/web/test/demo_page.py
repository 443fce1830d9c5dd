"""The demo page in a browser, and what is compared on it."""
import json

from drivers import CONTROL, DELETE
from original import ROOT, blocks, by_attention, coloured, original, recipe, together

PICTURES = ROOT / "target/demo"
# The page reads with comments.
MODULE, INTERACTIVE, EXPRESSION = 3, 4, 5


class Page:
    """The demo page in a browser."""

    def __init__(self, browser, address):
        self.browser = browser
        self.address = address
        self.open()

    def open(self):
        self.browser.open(self.address)
        self.wait_for("code")
        return self.with_modules()

    def fresh(self):
        """The page as it is for somebody who comes for the first time."""
        self.forget()
        return self.open()

    def forget(self):
        """Nothing is kept, nor does the page that is left keep anything."""
        self.browser.js("localStorage.clear(); Storage.prototype.setItem = () => {}")

    def with_modules(self):
        """The page's own modules are at hand for `run`."""
        self.browser.js("""
            const script = document.createElement('script')
            script.type = 'module'
            script.textContent = "import * as demo from './demo.js'; import * as reader from '../sroviemat.js'; window.modules = { demo, reader }"
            document.head.append(script)""")
        self.browser.wait(lambda: self.browser.js("return Boolean(window.modules)"))
        return self

    def run(self, body, *words):
        """Runs a function's body with the page's shown `page`, its `editor` and `reader`, and the module's `module` at hand."""
        start = """
            const module = modules.reader, page = modules.demo.shownEditor(), words = JSON.parse(arguments[0])
            const { editor, reader } = page.parts ?? {}
            return JSON.stringify((() => { BODY })() ?? null)"""
        return json.loads(self.browser.js(start.replace("BODY", body), json.dumps(words)))

    def wait_for(self, name):
        self.browser.wait(lambda: self.said(name) != "")

    def said(self, name):
        return self.browser.js("return document.getElementById(arguments[0]).textContent", name)

    def shows(self, name):
        return self.browser.js("return Boolean(document.getElementById(arguments[0]).checkVisibility())", name)

    def text(self):
        return self.run("return page.text")

    def answer(self):
        """What the shown document answers, in the original's form."""
        return self.run("const d = page.document; return [d.code, d.count, d.place, d.detail, ...d.records()]")

    def settled(self):
        """What follows a reading after a pause has followed."""
        self.run("page.document")
        self.browser.later("setTimeout(arguments[arguments.length - 1], 250)")

    def coloured(self):
        body = """
            const sort = (name) => name.match(/cm-(keyword|name|number|string|operator|comment)/)?.[1] ?? ''
            return [...document.querySelectorAll('.CodeMirror-code pre.CodeMirror-line span[class*=cm-]')].map((e) => [sort(e.className), e.textContent])"""
        return together([piece for piece in self.run(body) if piece[0]])

    def drawn(self):
        """The letters drawn: the editor draws a tab as blanks, and puts a letter without width into an empty line."""
        body = """
            const letters = (e) => [...e.childNodes].map((n) => (n.nodeType === 3 ? n.data : n.getAttribute('cm-text') ?? letters(n))).join('')
            return [...document.querySelectorAll('.CodeMirror-code pre.CodeMirror-line')].map((e) => letters(e).replaceAll('\\u200b', ''))"""
        return "\n".join(self.run(body))

    def marks(self):
        return self.run("return [...document.querySelectorAll('#blocks .mark')].map((e) => e.textContent)")

    def lines(self):
        """The lines that the list says of each block."""
        return self.run("return [...document.querySelectorAll('#blocks .where')].map((e) => e.textContent)")

    def margin(self):
        """The words beside the lines in view, and the sort of the bar beside each."""
        words = self.run("return [...document.querySelectorAll('.CodeMirror-gutter-elt .mark')].map((e) => e.textContent)")
        body = """
            return [...document.querySelectorAll('.CodeMirror-code > *')].map((line) => line.querySelector('.CodeMirror-gutter-background')?.className.match(/block-(\\w+)/)?.[1] ?? '')"""
        return words, self.run(body)

    def put(self, text):
        """Puts in a text as a paste of the whole would."""
        self.run("editor.operation(() => { editor.execCommand('selectAll'); editor.replaceSelection(words[0], 'end', 'paste') })", text)

    def focus(self):
        self.run("editor.focus()")

    def clear(self):
        self.focus()
        self.browser.chord(CONTROL, "a")
        self.browser.keys(DELETE)

    def choose(self, value):
        """Chooses a recipe by its value in the chooser or, as an example, by its name."""
        value = value if " " in value else f"example {value}"
        script = "const r = document.getElementById('recipe'); r.value = arguments[0]; r.dispatchEvent(new Event('change')); return r.value"
        equal(self.browser.js(script, value), value, "the chooser")
        if value.startswith("example "):
            self.browser.wait(lambda: self.text() == recipe(value.removeprefix("example ")))
        self.settled()

    def chosen(self):
        return self.browser.js("const r = document.getElementById('recipe'); return [r.value, r.selectedOptions[0].textContent]")

    def titles(self):
        return self.browser.js("return [...document.querySelectorAll('#recipe [label=\"My recipes\"] option')].map((option) => option.textContent)")

    def caret(self):
        return self.run("return page.caret")

    def picture(self, name):
        PICTURES.mkdir(parents=True, exist_ok=True)
        self.browser.picture(PICTURES / f"{name}-{self.browser.name.lower()}.png")


def equal(ours, theirs, what=""):
    if ours != theirs:
        raise AssertionError(f"{what}\n    ours:   {str(ours)[:600]}\n    theirs: {str(theirs)[:600]}")


def holds(fact, what):
    if not fact:
        raise AssertionError(what)


def compare(page, mode=MODULE):
    """The shown document's answer, the colours drawn and the blocks listed are what the original's records say."""
    page.settled()
    text = page.text()
    theirs, plain = original([(text.encode(), mode), (text.encode(), mode - MODULE)])
    equal(page.answer(), theirs, repr(text[:200]))
    if text.count("\n") < 25:
        equal(page.drawn(), text, "the letters drawn")
        if theirs[0] == 0:
            equal(page.coloured(), coloured(text, theirs), "the colours drawn")
        equal(page.margin(), margin(text, blocks(text, plain)), "the margin")
    listed = by_attention(blocks(text, plain))[:100]
    equal(page.marks(), [words for words, _, _ in listed], "the blocks' marks")
    equal(page.lines(), [f"line {first + 1}" if first == last else f"lines {first + 1} to {last + 1}" for _, first, last in listed], "the blocks' lines")
    equal(page.said("code"), str(theirs[0]))
    return theirs


def margin(text, found):
    """What stands beside a text: the words of its blocks, and the sort of the bar beside each line."""
    bars = [""] * (text.count("\n") + 1)
    for words, first, last in found:
        bars[first : last + 1] = ["many" if words.endswith("times") else words] * (last + 1 - first)
    return [words for words, _, _ in found], bars


def compare_small(page, name):
    equal(page.text(), recipe(name))
    page.settled()
    theirs, = original([(recipe(name).encode(), MODULE)])
    equal(page.answer(), theirs)
