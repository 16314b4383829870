"""Drives a headless Chromium by its pipe: opens a page, evaluates in it, and takes a picture of it."""

import base64
import json
import os
import select
import shutil
import subprocess
import tempfile
import time

from driver import SECONDS, Skipped

NAMES = ("chromium", "chromium-browser", "google-chrome")


class Page:
    """A page in a Chromium of its own."""

    def __init__(self, address, width=1200, height=800):
        path = next((it for it in map(shutil.which, NAMES) if it), None)
        if not path:
            raise Skipped("there is no chromium")
        self.folder = tempfile.mkdtemp(prefix="nipakeel-chromium-")
        (taken, self.given), (self.out, written) = os.pipe(), os.pipe()
        words = [path, "--headless", "--no-sandbox", "--disable-gpu", "--disable-dev-shm-usage", "--remote-debugging-pipe"]
        words += [f"--user-data-dir={self.folder}", f"--window-size={width},{height}", "about:blank"]
        # Chromium reads from descriptor 3, and writes to 4.
        script = f'exec "$@" 3<&{taken} 4>&{written}'
        self.started = subprocess.Popen(
            ["bash", "-c", script, "bash", *words], pass_fds=(taken, written), stdin=subprocess.DEVNULL,
            stdout=subprocess.DEVNULL, stderr=subprocess.DEVNULL,
        )
        os.close(taken)
        os.close(written)
        self.held, self.number, self.session = b"", 0, None
        target = self.calls("Target.createTarget", url=address)["targetId"]
        self.session = self.calls("Target.attachToTarget", targetId=target, flatten=True)["sessionId"]

    def calls(self, method, **words):
        self.number += 1
        message = {"id": self.number, "method": method, "params": words}
        os.write(self.given, json.dumps(message | ({"sessionId": self.session} if self.session else {})).encode() + b"\0")
        until = time.monotonic() + SECONDS
        while True:
            while b"\0" not in self.held:
                assert select.select([self.out], [], [], max(0, until - time.monotonic()))[0], f"{method} has no answer"
                chunk = os.read(self.out, 65_536)
                assert chunk, "chromium ended"
                self.held += chunk
            one, _, self.held = self.held.partition(b"\0")
            answer = json.loads(one)
            if answer.get("id") == self.number:
                assert "result" in answer, f"{answer}"
                return answer["result"]

    def value(self, expression):
        """What an expression of JavaScript comes to."""
        answer = self.calls("Runtime.evaluate", expression=expression, awaitPromise=True, returnByValue=True)
        assert "exceptionDetails" not in answer, f"{expression}: {answer['exceptionDetails']}"
        return answer["result"].get("value")

    def until(self, expression):
        """Waits until an expression holds."""
        limit = time.monotonic() + SECONDS
        while not self.value(expression):
            assert time.monotonic() < limit, f"never: {expression}; {self.value('document.body.innerText')}"
            time.sleep(0.1)

    def picture(self):
        return base64.b64decode(self.calls("Page.captureScreenshot", format="png")["data"])

    def close(self):
        self.started.kill()
        self.started.wait()
        os.close(self.given)
        os.close(self.out)
        shutil.rmtree(self.folder, ignore_errors=True)
