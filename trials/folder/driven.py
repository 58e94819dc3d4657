"""A browser without a window that is driven by keys, over pipes, and asked what it shows."""

import json
import os
import subprocess
import time
from tempfile import TemporaryDirectory

from trials.folder.browser import WORDS

PATIENCE, PAUSE = 30, 0.1
ENTER = {"key": "Enter", "code": "Enter", "windowsVirtualKeyCode": 13}


class Silent(Exception):
    """The browser did not show what was waited for."""


class Driven:
    """A browser with one page. It reads commands from its pipe 3 and answers to its pipe 4, each ended by a byte of zero."""

    def __init__(self, program):
        self.folder = TemporaryDirectory(ignore_cleanup_errors=True)
        its_input, self.commands = os.pipe()
        self.answers, its_output = os.pipe()
        words = [program, *WORDS, f"--user-data-dir={self.folder.name}/profile", "--remote-debugging-pipe", "about:blank"]
        command = ["bash", "-c", f'exec "$@" 3<&{its_input} 4>&{its_output}', "browser", *words]
        quiet = {"stdout": subprocess.DEVNULL, "stderr": subprocess.DEVNULL}
        self.process = subprocess.Popen(command, pass_fds=(its_input, its_output), **quiet)
        os.close(its_input)
        os.close(its_output)
        self.number, self.read, self.session = 0, b"", None

    def __enter__(self):
        pages = [each for each in self.send("Target.getTargets")["targetInfos"] if each["type"] == "page"]
        self.session = self.send("Target.attachToTarget", targetId=pages[0]["targetId"], flatten=True)["sessionId"]
        return self

    def __exit__(self, *_):
        for pipe in (self.commands, self.answers):
            os.close(pipe)
        self.process.terminate()
        self.process.wait()
        self.folder.cleanup()

    def send(self, method, **given):
        """Sends a command, and answers what comes of it."""
        self.number += 1
        about = {"sessionId": self.session} if self.session else {}
        os.write(self.commands, json.dumps({"id": self.number, "method": method, "params": given, **about}).encode() + b"\0")
        while (said := self.message()).get("id") != self.number:
            pass
        if "result" not in said:
            raise Silent(f"{method} is answered {said}")
        return said["result"]

    def message(self):
        while b"\0" not in self.read:
            piece = os.read(self.answers, 65536)
            if not piece:
                raise Silent("the browser has ended")
            self.read += piece
        found, _, self.read = self.read.partition(b"\0")
        return json.loads(found)

    # ---- what a reader does

    def open(self, url):
        self.send("Page.navigate", url=url)

    def value(self, expression):
        """What an expression of the page comes to."""
        return self.send("Runtime.evaluate", expression=expression)["result"].get("value")

    def waits_for(self, text):
        until = time.monotonic() + PATIENCE
        while text not in (self.value("document.body ? document.body.innerText : ''") or ""):
            if time.monotonic() > until:
                raise Silent(f"the page never shows {text!r}; it shows {self.value('document.body.innerText')!r}")
            time.sleep(PAUSE)

    def press(self, words):
        """Comes to a button with these words by the keyboard, and presses it."""
        self.value(f"[...document.querySelectorAll('button')].find(each => each.textContent == {json.dumps(words)}).focus()")
        for kind in ("keyDown", "keyUp"):
            self.send("Input.dispatchKeyEvent", type=kind, **ENTER, **({"text": "\r"} if kind == "keyDown" else {}))
