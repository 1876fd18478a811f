"""The page of `mls report` in headless Chromium, where that is installed: no error on its console, nothing wider than the window on a wide
and on a narrow screen, light and dark, and how many sheets of paper it prints on."""
import base64
import json
import os
import re
import shutil
import subprocess
import tempfile
import time

from asking import HELD, OPENED, STANDARD
from outside import IS_PROVED, put, ran_program, same
from wide_worlds import put_world

WIDTHS = (1280, 390)
SHEETS = 25
CHROMIUM = next((it for it in ("chromium", "chromium-browser", "google-chrome") if shutil.which(it)), None)
WIDER = """(() => { const wide = [...document.querySelectorAll("body *")].filter(it => !it.closest(".wide")
    && it.getBoundingClientRect().right > document.documentElement.clientWidth + 1 && !it.closest("details:not([open]) > :not(summary)"));
    return [document.documentElement.scrollWidth, document.documentElement.clientWidth,
            wide.slice(0, 3).map(it => it.outerHTML.slice(0, 120))]; })()"""


class Browser:
    """A headless Chromium, which is told what to do through two pipes."""

    def __enter__(self):
        self.folder = tempfile.mkdtemp(prefix="mls-browser-")
        (theirs_in, self.to), (self.back, theirs_out) = os.pipe(), os.pipe()

        def as_three_and_four():
            # (the two may be 3 and 4 already, or the other way round)
            first, second = os.dup(theirs_in), os.dup(theirs_out)
            os.dup2(first, 3)
            os.dup2(second, 4)

        words = [CHROMIUM, "--headless", "--no-sandbox", "--disable-gpu", "--disable-dev-shm-usage", "--remote-debugging-pipe",
                 f"--user-data-dir={self.folder}", "about:blank"]
        self.run = subprocess.Popen(words, stdin=subprocess.DEVNULL, stdout=subprocess.DEVNULL, stderr=subprocess.DEVNULL,
                                    close_fds=False, preexec_fn=as_three_and_four)
        os.close(theirs_in)
        os.close(theirs_out)
        self.rest, self.number, self.session, self.events = b"", 0, None, []
        made = self.ask("Target.createTarget", url="about:blank")
        self.session = self.ask("Target.attachToTarget", targetId=made["targetId"], flatten=True)["sessionId"]
        for it in ("Page", "Runtime", "Log"):
            self.ask(f"{it}.enable")
        return self

    def __exit__(self, *told):
        for it in (self.to, self.back):
            os.close(it)
        self.run.kill()
        self.run.wait()
        shutil.rmtree(self.folder, ignore_errors=True)

    def message(self):
        while b"\0" not in self.rest:
            more = os.read(self.back, 1 << 20)
            assert more, "the browser ended"
            self.rest += more
        told, _, self.rest = self.rest.partition(b"\0")
        return json.loads(told)

    def ask(self, method, **params):
        self.number += 1
        asked = {"id": self.number, "method": method, "params": params} | ({"sessionId": self.session} if self.session else {})
        told = json.dumps(asked).encode() + b"\0"
        while told:
            told = told[os.write(self.to, told):]
        while True:
            answer = self.message()
            if answer.get("id") == self.number:
                assert "result" in answer, answer
                return answer["result"]
            self.events.append(answer)

    def look(self, path, width, scheme):
        """Opens a page in a window of a width."""
        self.ask("Emulation.setDeviceMetricsOverride", width=width, height=900, deviceScaleFactor=1, mobile=width < 500)
        self.ask("Emulation.setEmulatedMedia", features=[{"name": "prefers-color-scheme", "value": scheme}])
        self.events.clear()
        self.ask("Page.navigate", url=f"file://{path}")
        while not any(it["method"] == "Page.loadEventFired" for it in self.events):
            self.events.append(self.message())
        time.sleep(0.05)
        self.ask("Runtime.evaluate", expression="1")
        told = [it for it in self.events if it["method"] in ("Runtime.exceptionThrown", "Log.entryAdded", "Runtime.consoleAPICalled")]
        assert not told, f"the console has {told}"

    def value(self, expression):
        return self.ask("Runtime.evaluate", expression=expression, returnByValue=True)["result"].get("value")

    def sheets(self):
        """How many sheets of A4 the page prints on."""
        pdf = base64.b64decode(self.ask("Page.printToPDF", paperWidth=8.27, paperHeight=11.69, preferCSSPageSize=True)["data"])
        return len(re.findall(rb"/Type\s*/Page\b(?!s)", pdf))


def looked_at(browser, path):
    """Looks at a page in each width and colour, with all that is folded open too; answers on how many sheets it prints."""
    for width in WIDTHS:
        for scheme in ("light", "dark"):
            browser.look(path, width, scheme)
            for opened in (False, True):
                browser.value(f"document.querySelectorAll('details').forEach(it => {{ it.open = {str(opened).lower()}; }})")
                whole, window, wider = browser.value(WIDER)
                assert whole <= window and not wider, f"{path} at {width}: {whole} of {window}: {wider}"
    browser.look(path, 1280, "light")
    paper = browser.value("getComputedStyle(document.body).backgroundColor")
    same(paper, "rgb(255, 255, 255)")
    return browser.sheets()


def page_at(name, *words):
    status, output, error = ran_program(["report", *words])
    same((status, error), (0, b""))
    return os.path.realpath(put(name, output))


def pages_in_a_browser():
    """Of an empty journal, of a small one, and of a year's, of 60 subjects and 900 objects; a trial is asked of a smaller one."""
    put("held.journal", OPENED)
    put("empty.journal", b"")
    put_world(*((60, 900, 20_000) if IS_PROVED else (20, 120, 600)))
    pages = [(4, "empty.html", STANDARD, "empty.journal"), (4, "held.html", HELD, "held.journal"),
             (SHEETS, "world.html", "--marks", "world.marks", "world.json", "world.journal")]
    with Browser() as browser:
        for most, name, *words in pages:
            sheets = looked_at(browser, page_at(name, *words))
            assert 1 <= sheets <= most, f"{name}: {sheets} sheets"
