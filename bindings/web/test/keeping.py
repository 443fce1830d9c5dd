"""The tests of files and of what the browser keeps, in Chromium."""
import pathlib
import tempfile

from demo_page import compare, compare_small, equal
from drivers import CONTROL, END, ENTER
from original import recipe

MOST_BYTES = 16_777_216


def opened(page, name, data):
    """Opens a file by the page's own field for files."""
    with tempfile.TemporaryDirectory() as folder:
        file = pathlib.Path(folder) / name
        file.write_bytes(data)
        page.browser.give_file("#file", file)
        page.settled()


def saved(page, name, wanted):
    """What the browser writes when the recipe is saved is what is wanted."""
    with tempfile.TemporaryDirectory() as folder:
        page.browser.cdp("Browser.setDownloadBehavior", behavior="allow", downloadPath=folder)
        page.browser.click("#save")
        file = pathlib.Path(folder) / name
        # The browser makes an empty file first.
        page.browser.wait(lambda: file.exists() and (file.stat().st_size > 0 or wanted == b""))
        equal(file.read_bytes(), wanted, name)


def files(page):
    """A file comes back as it was, with its line ends and mark; one that cannot be read is not opened."""
    page.fresh()
    recipes = {
        "unix.py": b"with a:\n    to_linear(b)\n",
        "dos.py": b"\xef\xbb\xbfwith a:\r\n    to_linear(b)\r\nx = 'caf\xc3\xa9'",
        "mac.py": b"a\rb\r",
        "no_line_end.py": b"a",
        "empty.py": b"",
    }
    for name, data in recipes.items():
        opened(page, name, data)
        equal(page.chosen()[1], name)
        compare(page)
        saved(page, name, data)
    opened(page, "dos.py", recipes["dos.py"])
    equal(page.chosen()[1], "dos 2.py", "opened again")
    page.focus()
    page.browser.chord(CONTROL, END)
    page.browser.keys(ENTER, "y")
    compare(page)
    page.browser.driver.refresh()
    page.wait_for("code")
    page.with_modules()
    saved(page, "dos_2.py", recipes["dos.py"] + b"\r\ny")
    opened(page, "mixed.py", b"a\r\nb\nc\r\n")
    equal("mixes line ends" in page.said("notice-words"), True, page.said("notice-words"))
    saved(page, "mixed.py", b"a\r\nb\r\nc\r\n")
    not_utf8(page)
    opened(page, "long.py", b"#" * (MOST_BYTES + 1))
    equal(["16,777,216" in page.said("notice-words"), page.shows("answer")], [True, False], page.said("notice-words"))
    page.picture("refused")
    before, text = page.chosen()[0], page.text()
    page.run("""
        const dataTransfer = new DataTransfer()
        dataTransfer.items.add(new File(['dropped = 1\\n'], 'dropped.py'))
        document.querySelector('.CodeMirror-line').dispatchEvent(new DragEvent('drop', { dataTransfer, bubbles: true, cancelable: true }))""")
    page.browser.wait(lambda: page.chosen()[1] == "dropped.py")
    page.settled()
    equal(page.text(), "dropped = 1\n", "a file that is dropped on the editor")
    page.choose(before)
    equal(page.text(), text, "the recipe that it fell on")
    page.fresh()
    return f"{len(recipes)} files"


def not_utf8(page):
    """A file that may be Latin-1 is read so if that is wanted, and saved as UTF-8; another one is not opened."""
    coding = " Take out its comment that names another encoding."
    line_ends = " “{}” mixes line ends. It is saved with LF throughout, its most frequent one."
    for name, text, saves, warning in (
        ("latin.py", "x = 1\ny = 'caf\xe9'\n", "x = 1\ny = 'café'\n", ""),
        ("dos_latin.py", "\xe9\r\n\xe8\r\n", "é\r\nè\r\n", ""),
        ("windows.py", "# \xe9 \x93\x94\n", "# é “”\n", ""),
        ("coded.py", "#!python\n# -*- coding: latin-1 -*-\n# \xe9\r\n", "#!python\n# -*- coding: latin-1 -*-\n# é\n", coding + line_ends),
        ("wrongly_coded.py", "# coding: UTF-8\n# \xe9\n", "# coding: UTF-8\n# é\n", ""),
    ):
        opened(page, name, text.encode("latin-1"))
        equal([name in page.titles(), page.shows("answer"), "Latin-1" in page.said("notice-words")], [False, True, True], name)
        page.browser.click("#answer")
        page.settled()
        equal(page.chosen()[1], name)
        equal(page.said("notice-words"), f"“{name}” was read as Latin-1 and is saved as UTF-8.{warning.format(name)}")
        equal(page.shows("answer"), False, "the answer to the last notice")
        compare(page)
        saved(page, name, saves.encode())
    opened(page, "picture.py", b"\x89PNG\r\n\x1a\n")
    equal(page.said("notice-words"), "“picture.py” was not opened. Byte 89 at 1:1 is not UTF-8: it continues a character, and none is open there.")
    equal(["picture.py" in page.titles(), page.shows("answer")], [False, False])


def kept(page):
    """What was typed is there after another recipe was chosen and after a reload; nothing is overwritten."""
    page.fresh()
    page.focus()
    page.browser.keys("one")
    equal(page.chosen()[1], "my gold leaf")
    page.choose("ink")
    page.choose("gold_leaf")
    page.focus()
    page.browser.keys("two")
    equal(page.titles(), ["my gold leaf", "my gold leaf 2"])
    page.browser.driver.refresh()
    page.wait_for("code")
    page.with_modules()
    equal([page.chosen()[1], page.text()], ["my gold leaf 2", "two" + recipe("gold_leaf")], "after a reload")
    compare(page)
    first = page.browser.js("return document.querySelector('#recipe option').value")
    page.choose(first)
    equal(page.text(), "one" + recipe("gold_leaf"))
    page.run("localStorage.setItem('sroviemat.recipe.' + words[0], JSON.stringify({ title: 'my gold leaf', text: 'other', ends: '\\n', mark: false })); dispatchEvent(new StorageEvent('storage', { key: 'sroviemat.recipe.' + words[0] }))", first.split()[1])
    page.focus()
    page.browser.keys("three")
    page.settled()
    equal(page.titles(), ["my gold leaf", "my gold leaf 2", "my gold leaf 3"], "another window has changed it")
    page.choose(first)
    equal(page.text(), "other")
    page.browser.js("window.confirm = () => true")
    page.browser.click("#remove")
    page.settled()
    equal(page.titles(), ["my gold leaf 2", "my gold leaf 3"], "removed")
    page.fresh()


def not_kept(page):
    """Where the browser has no room, or no storage, the page says so, and recipes live as long as the page."""
    page.fresh()
    page.run("Storage.prototype.setItem = () => { throw new DOMException('full', 'QuotaExceededError') }")
    page.focus()
    page.browser.keys("one")
    page.browser.wait(lambda: page.shows("notice"))
    equal("does not keep" in page.said("notice-words"), True, page.said("notice-words"))
    page.choose("ink")
    page.choose(page.browser.js("return document.querySelector('#recipe option').value"))
    equal(page.text(), "one" + recipe("gold_leaf"))
    stopped = "const e = new Event('beforeunload', { cancelable: true }); dispatchEvent(e); return e.defaultPrevented"
    equal(page.run(stopped), True, "leaving asks first")
    page.run("delete Storage.prototype.setItem; addEventListener('beforeunload', (e) => e.stopImmediatePropagation(), true)")
    page.fresh()
    script = page.browser.cdp("Page.addScriptToEvaluateOnNewDocument", source="Object.defineProperty(window, 'localStorage', { get() { throw new DOMException('no', 'SecurityError') } })")
    page.open()
    compare_small(page, "gold_leaf")
    page.focus()
    page.browser.keys("x")
    page.browser.wait(lambda: page.shows("notice"))
    page.browser.cdp("Page.removeScriptToEvaluateOnNewDocument", identifier=script["identifier"])
    page.run("addEventListener('beforeunload', (e) => e.stopImmediatePropagation(), true)")
    page.open()
