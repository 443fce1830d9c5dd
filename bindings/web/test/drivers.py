"""The browsers that browser.py drives: Chromium through Debian's chromium-driver and selenium, Firefox through Marionette, the
port that it has itself (Debian has no geckodriver). Both take the same calls; keys and pointers are those of WebDriver.
"""
import base64
import json
import pathlib
import shutil
import socket
import subprocess
import tempfile
import time

CONTROL, SHIFT = "\ue009", "\ue008"
TAB, ENTER, ESCAPE, BACKSPACE, DELETE = "\ue004", "\ue006", "\ue00c", "\ue003", "\ue017"
END, HOME, LEFT, UP, RIGHT, DOWN = "\ue010", "\ue011", "\ue012", "\ue013", "\ue014", "\ue015"


class Browser:
    """What both have in common; `js`, `later`, `perform`, `open`, `give_file`, `picture`, `quit` are each one's own."""

    def wait(self, test, seconds=20):
        end = time.time() + seconds
        while True:
            found = test()
            if found:
                return found
            if time.time() > end:
                raise AssertionError(f"waited {seconds} s in vain")
            time.sleep(0.03)

    def keys(self, *words):
        """Presses the keys of each word, one after another."""
        steps = [{"type": kind, "value": key} for word in words for key in word for kind in ("keyDown", "keyUp")]
        self.perform([{"type": "key", "id": "keyboard", "actions": steps}])

    def chord(self, *keys):
        """Presses the last key while the others are held."""
        *held, key = keys
        steps = [{"type": "keyDown", "value": k} for k in held]
        steps += [{"type": "keyDown", "value": key}, {"type": "keyUp", "value": key}]
        steps += [{"type": "keyUp", "value": k} for k in reversed(held)]
        self.perform([{"type": "key", "id": "keyboard", "actions": steps}])

    def click_at(self, x, y):
        move = {"type": "pointerMove", "duration": 0, "x": round(x), "y": round(y), "origin": "viewport"}
        steps = [move, {"type": "pointerDown", "button": 0}, {"type": "pointerUp", "button": 0}]
        self.perform([{"type": "pointer", "id": "mouse", "parameters": {"pointerType": "mouse"}, "actions": steps}])

    def click(self, selector, nth=0):
        """Clicks into the midst of an element, which is brought into view."""
        script = """
            const e = document.querySelectorAll(arguments[0])[arguments[1]]
            e.scrollIntoView({ block: 'nearest' })
            const { left, top, width, height } = e.getBoundingClientRect()
            return [left + width / 2, top + height / 2]"""
        self.click_at(*self.js(script, selector, nth))


class Chromium(Browser):
    name = "Chromium"

    def __init__(self, *words):
        from selenium import webdriver
        from selenium.webdriver.chrome.service import Service
        options = webdriver.ChromeOptions()
        options.binary_location = "/usr/bin/chromium"
        for word in ("--headless=new", "--no-sandbox", "--disable-dev-shm-usage", "--window-size=1400,1000", *words):
            options.add_argument(word)
        options.set_capability("goog:loggingPrefs", {"browser": "ALL"})
        self.driver = webdriver.Chrome(service=Service("/usr/bin/chromedriver"), options=options)
        self.driver.set_script_timeout(60)
        self.version = self.driver.capabilities["browserVersion"]

    def open(self, address):
        self.driver.get(address)

    def js(self, script, *words):
        return self.driver.execute_script(script, *words)

    def later(self, script, *words):
        return self.driver.execute_async_script(script, *words)

    def perform(self, actions):
        self.driver.execute("actions", {"actions": actions})

    def give_file(self, selector, file):
        """Chooses a file in a field for files, which may be hidden."""
        self.driver.find_element("css selector", selector).send_keys(str(file))

    def cdp(self, command, **words):
        return self.driver.execute_cdp_cmd(command, words)

    def dark(self, wanted):
        self.cdp("Emulation.setEmulatedMedia", features=[{"name": "prefers-color-scheme", "value": "dark" if wanted else "light"}])

    def phone(self):
        self.cdp("Emulation.setDeviceMetricsOverride", width=390, height=844, deviceScaleFactor=2, mobile=True)
        self.cdp("Emulation.setTouchEmulationEnabled", enabled=True)

    def desk(self):
        self.cdp("Emulation.clearDeviceMetricsOverride")
        self.cdp("Emulation.setTouchEmulationEnabled", enabled=False)

    def log(self):
        return self.driver.get_log("browser")

    def picture(self, file):
        self.driver.save_screenshot(str(file))

    def quit(self):
        self.driver.quit()


class Firefox(Browser):
    name = "Firefox"

    @staticmethod
    def at_hand():
        return shutil.which("firefox-esr") is not None

    def __init__(self):
        self.profile = tempfile.TemporaryDirectory(ignore_cleanup_errors=True)
        folder = pathlib.Path(self.profile.name)
        prefs = {"marionette.port": 0, "browser.shell.checkDefaultBrowser": False, "datareporting.policy.dataSubmissionEnabled": False}
        (folder / "user.js").write_text("".join(f"user_pref({json.dumps(name)}, {json.dumps(value)});\n" for name, value in prefs.items()))
        words = ["firefox-esr", "--headless", "--marionette", "--remote-allow-system-access", "--no-remote", "--profile", folder, "--width", "1400", "--height", "1000"]
        self.process = subprocess.Popen(words, stdout=subprocess.DEVNULL, stderr=subprocess.DEVNULL)
        port = folder / "MarionetteActivePort"
        self.wait(lambda: port.exists() and port.read_text().strip(), 60)
        self.socket = socket.create_connection(("127.0.0.1", int(port.read_text())), timeout=90)
        self.rest = b""
        self.asked = 0
        self.message()
        self.version = self.ask("WebDriver:NewSession")["capabilities"]["browserVersion"]
        self.ask("WebDriver:SetTimeouts", script=60_000)

    def message(self):
        """The next message: its length in digits, a colon, and so many bytes."""
        while True:
            head, colon, body = self.rest.partition(b":")
            if colon and len(body) >= int(head):
                self.rest = body[int(head) :]
                return json.loads(body[: int(head)])
            self.rest += self.socket.recv(1 << 16) or self.gone()

    def gone(self):
        raise ConnectionError("Firefox is gone")

    def ask(self, command, **words):
        self.asked += 1
        data = json.dumps([0, self.asked, command, words]).encode()
        self.socket.sendall(b"%d:%s" % (len(data), data))
        _, _, error, result = self.message()
        if error:
            raise AssertionError(f"{command}: {error['error']}: {error['message']}")
        return result

    def open(self, address):
        self.ask("WebDriver:Navigate", url=address)

    def js(self, script, *words):
        return self.ask("WebDriver:ExecuteScript", script=script, args=list(words))["value"]

    def later(self, script, *words):
        return self.ask("WebDriver:ExecuteAsyncScript", script=script, args=list(words))["value"]

    def perform(self, actions):
        self.ask("WebDriver:PerformActions", actions=actions)

    def give_file(self, selector, file):
        found = self.ask("WebDriver:FindElement", using="css selector", value=selector)["value"]
        self.ask("WebDriver:ElementSendKeys", id=next(iter(found.values())), text=str(file))

    def about(self, script, *words):
        """Runs a script in the browser's own window, outside the page."""
        self.ask("Marionette:SetContext", value="chrome")
        try:
            return self.js(script, *words)
        finally:
            self.ask("Marionette:SetContext", value="content")

    def dark(self, wanted):
        self.about("Services.prefs.setIntPref('layout.css.prefers-color-scheme.content-override', arguments[0])", 0 if wanted else 1)

    def phone(self):
        """A window is no narrower than 500 px; the page in it can be."""
        self.about("gBrowser.selectedBrowser.style = 'max-width: 390px; max-height: 844px'")
        self.wait(lambda: self.js("return innerWidth") == 390)

    def desk(self):
        self.about("gBrowser.selectedBrowser.style = ''")
        self.wait(lambda: self.js("return innerWidth") > 1000)

    def picture(self, file):
        file.write_bytes(base64.b64decode(self.ask("WebDriver:TakeScreenshot", full=False)["value"]))

    def quit(self):
        try:
            self.ask("Marionette:Quit", flags=["eForceQuit"])
            self.process.wait(20)
        except (AssertionError, OSError, subprocess.TimeoutExpired):
            self.process.kill()
            self.process.wait()
        self.socket.close()
        self.profile.cleanup()
