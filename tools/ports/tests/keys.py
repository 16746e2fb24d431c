"""The page by keys alone, as a keyboard sends them: Chromium takes them over a pipe, and nothing is clicked."""

import fcntl
import json
import os
import select
import subprocess
import tempfile
import time
from pathlib import Path

import cases

SECONDS = 120  # until something is to have happened, where others work on the machine
EXAMPLE = "letters"  # which has several modules
MOST_TABS = 100  # more than the page has places for the focus
KEYS = {"Tab": (9, None), "Enter": (13, "\r"), " ": (32, " "), "ArrowDown": (40, None)}
FOCUSED = """(it => [it.id, it.download || it.ariaLabel || it.textContent, getComputedStyle(it).outlineStyle])(
    document.activeElement)"""


class Browser:
    """Chromium without a window, which is told what to do over a pipe, with one page."""

    def __init__(self, flags, room):
        to_child, self.out = os.pipe()
        self.answers, from_child = os.pipe()
        ends = [fcntl.fcntl(end, fcntl.F_DUPFD, 10) for end in (to_child, from_child)]
        words = ["chromium", *flags, f"--user-data-dir={room}", "--remote-debugging-pipe", "about:blank"]
        self.child = subprocess.Popen(  # which reads its file 3 and writes its file 4
            words, stdout=subprocess.DEVNULL, stderr=subprocess.DEVNULL, pass_fds=(3, 4),
            preexec_fn=lambda: [os.dup2(end, file) for end, file in zip(ends, (3, 4))])
        for end in (*ends, to_child, from_child):
            os.close(end)
        self.count, self.kept, self.session = 0, b"", {}

    def open(self, url, downloads):
        """Opens an address. What is kept of it goes into a folder."""
        target = next(it for it in self.ask("Target.getTargets")["targetInfos"] if it["type"] == "page")
        to = self.ask("Target.attachToTarget", targetId=target["targetId"], flatten=True)
        self.session = {"sessionId": to["sessionId"]}
        self.ask("Browser.setDownloadBehavior", behavior="allow", downloadPath=str(downloads))
        self.ask("Page.navigate", url=url)

    def end(self):
        for end in (self.out, self.answers):
            os.close(end)
        self.child.terminate()
        self.child.wait()

    def message(self):
        """The next message."""
        while b"\0" not in self.kept:
            ready, _, _ = select.select([self.answers], [], [], SECONDS)
            more = os.read(self.answers, 1 << 16) if ready else b""
            if not more:
                raise TimeoutError("Chromium says nothing")
            self.kept += more
        text, _, self.kept = self.kept.partition(b"\0")
        return json.loads(text)

    def ask(self, method, **given):
        """What comes of a call."""
        self.count += 1
        call = {"id": self.count, "method": method, "params": given, **self.session}
        os.write(self.out, json.dumps(call).encode() + b"\0")
        while True:
            answer = self.message()
            if answer.get("id") == self.count:
                return answer["result"]

    def value(self, expression):
        """What an expression is in the page."""
        return self.ask("Runtime.evaluate", expression=expression, returnByValue=True)["result"].get("value")

    def until(self, holds):
        """Waits until something holds; answers whether it does."""
        end = time.monotonic() + SECONDS
        while not holds() and time.monotonic() < end:
            time.sleep(0.05)
        return holds()

    def press(self, key):
        """Presses a key and lets it go."""
        code, text = KEYS[key]
        named = {"key": key, "code": "Space" if key == " " else key, "windowsVirtualKeyCode": code}
        down = {"type": "keyDown", "text": text} if text else {"type": "rawKeyDown"}
        self.ask("Input.dispatchKeyEvent", **down, **named)
        self.ask("Input.dispatchKeyEvent", type="keyUp", **named)

    def text(self, name):
        """What the element with this id says, or what is written in it."""
        return self.value(f"(it => it.value ?? it.textContent)(document.getElementById('{name}'))")

    def go_to(self, name):
        """Goes on by the key Tab to what has this id or name; answers whether it is reached, and can be seen to be."""
        for _ in range(MOST_TABS):
            self.press("Tab")
            given, called, outline = self.value(FOCUSED)
            if name in (given, called.strip()):
                return outline != "none"
        return False


def link(browser, check, example):
    """Chooses an example and links it: answers the words by which it was."""
    check("keys: the examples are reached", browser.go_to("example"))
    for _ in range(MOST_TABS):
        if browser.text("example") == example:
            break
        browser.press("ArrowDown")
    check("keys: one is chosen", browser.text("example") == example, browser.text("example"))
    words = browser.text("words").split()
    check("keys: the button is reached", browser.go_to("Run"))
    browser.press("Enter")
    check("keys: it runs", browser.until(lambda: browser.text("status").startswith("Status 0")), browser.text("status"))
    return words


def keep(browser, check, name, folder, wanted):
    """Keeps a file that was made."""
    check(f"keys: {name} is reached", browser.go_to(name))
    browser.press("Enter")
    place = folder / name
    browser.until(lambda: place.exists() and place.read_bytes() == wanted)
    check(f"keys: {name} is kept", place.exists() and place.read_bytes() == wanted, f"{sorted(os.listdir(folder))}")


def move(browser, check, names):
    """Moves a file in the list by two places, and takes it away: the focus stays in the list."""
    order = "[...document.querySelectorAll('#files li')].map(it => it.textContent.split(' (')[0])"
    check("keys: a file's button is reached", browser.go_to(f"{names[0]} further down"))
    browser.press(" ")
    browser.press("Enter")
    found = browser.value(order)
    check("keys: a file is moved twice", found[:3] == [names[1], names[2], names[0]], f"{found}")
    check("keys: it can be taken away", browser.go_to(f"take {names[0]} away"))
    browser.press(" ")
    found, focus = browser.value(order), browser.value(FOCUSED)
    check("keys: it is taken away", names[0] not in found, f"{found}")
    check("keys: the focus is on the next file's", focus[1].startswith("take "), f"{focus}")


def test(url, flags, linked, check):
    """Tests the page at an address. `linked` and `check` are as browser.test has them."""
    files = cases.modules_of(cases.EXAMPLES / EXAMPLE)
    with tempfile.TemporaryDirectory(prefix="omf-page-", ignore_cleanup_errors=True) as room:
        kept = Path(room) / "kept"
        kept.mkdir()
        browser = Browser(flags, room)
        try:
            browser.open(url, kept)
            check("keys: it is ready", browser.until(lambda: browser.value("document.documentElement.dataset.ready")))
            outcome = linked(link(browser, check, EXAMPLE), files)
            for name in sorted(outcome.files.keys() - files.keys()):
                keep(browser, check, name, kept, outcome.files[name])
            move(browser, check, list(files))
        except OSError as problem:
            check("keys: Chromium answers", False, problem)
        finally:
            browser.end()
