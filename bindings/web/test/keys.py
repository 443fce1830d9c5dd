"""bindings/web/test/keys.py: prints how long a key takes in the demo page, beside an editor of CodeMirror that has nothing but the
same text, letters and size and stands over the page's; in Chromium. It fails on no time. (editor.py prints the same of
the adapter by itself.) It needs what browser.py needs, without the oracle.
"""
import statistics
import subprocess
import time

from drivers import Chromium
from original import ROOT, recipes

SIZES = (1_000, 10_000, 100_000, 1_000_000)
TURNS, KEYS = 3, 10
BESIDE = """
    const page = document.querySelector('#editor .CodeMirror').CodeMirror, shown = page.getWrapperElement()
    const place = document.createElement('div')
    place.style.cssText = 'position: fixed; left: 0; bottom: 0; z-index: 9'
    document.body.append(place)
    const bare = CodeMirror(place, { inputStyle: 'contenteditable', lineNumbers: true, theme: 'sroviemat' })
    const { fontFamily, fontSize, lineHeight } = getComputedStyle(shown)
    Object.assign(bare.getWrapperElement().style, { fontFamily, fontSize, lineHeight })
    bare.setSize(shown.offsetWidth, shown.offsetHeight)
    window.editors = { bare, page }
    window.place = place
    window.times = { bare: [], page: [] }
    let pressed = 0
    addEventListener('keydown', () => (pressed = performance.now()), true)
    for (const [name, editor] of Object.entries(editors)) editor.on('changes', () => {
        if (pressed) times[name].push(performance.now() - pressed)
        pressed = 0
    })"""


def timed(browser, line):
    """Medians of the keys typed at a line's end, without anything and in the page, which take turns."""
    browser.js("times.bare = []; times.page = []; for (const editor of Object.values(editors)) { editor.setCursor(arguments[0], 0); editor.execCommand('goLineEnd'); editor.scrollIntoView(null, 200) }", line)
    pressed = [{"type": "keyDown", "value": "x"}, {"type": "keyUp", "value": "x"}, {"type": "pause", "duration": 30}]
    for _ in range(TURNS):
        for name in ("bare", "page"):
            browser.js("place.hidden = arguments[0] === 'page'; editors[arguments[0]].focus()", name)
            time.sleep(0.2)
            browser.perform([{"type": "key", "id": "keyboard", "actions": pressed * KEYS}])
    return [statistics.median(browser.js("return times[arguments[0]]", name)) for name in ("bare", "page")]


def rows(browser):
    for size in SIZES:
        browser.js("for (const editor of Object.values(editors)) editor.setValue(arguments[0])", recipes(size))
        browser.js("for (let i = 0; i < 40; i++) for (const editor of Object.values(editors)) { editor.replaceRange('x', { line: 0, ch: 0 }); editor.undo() }")
        lines = browser.js("return editors.bare.lineCount()")
        cells = []
        for place, line in (("start", min(3, lines - 1)), ("middle", lines // 2), ("end", max(0, lines - 3))):
            bare, page = timed(browser, line)
            cells.append(f"{place} {bare:.1f}, {page:.1f} = {page / bare:.2f} ×")
        print(f"      {size:>9,} {' | '.join(cells)}", flush=True)


def main():
    server = subprocess.Popen([ROOT / "tools/serve-demo", "0"], stdout=subprocess.PIPE, text=True)
    browser = Chromium()
    try:
        browser.open(server.stdout.readline().split()[0])
        browser.wait(lambda: browser.js("return document.querySelector('#editor .CodeMirror') && document.getElementById('code').textContent !== ''"))
        browser.js(BESIDE)
        print(f"      the demo page: medians of {TURNS * KEYS} keys in ms, in an editor with nothing else and in the page: to `changes`, the drawing included")
        rows(browser)
    finally:
        browser.quit()
        server.terminate()


main()
