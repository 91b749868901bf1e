"""A page in headless Chromium, driven through the pipe of its debugging protocol."""
import json
import os
import shutil
import subprocess
import time

CHROMIUM = shutil.which("chromium") or shutil.which("chromium-browser")


class Page:
    """A page that is open until the `with` ends."""

    def __init__(self, url, folder):
        (hears, self.told), (self.answers, says) = os.pipe(), os.pipe()
        words = [CHROMIUM, "--headless", "--no-sandbox", "--disable-gpu", "--remote-debugging-pipe", "--window-size=1400,1100"]
        words += [f"--user-data-dir={folder}/chromium", "about:blank"]

        def in_place():
            os.dup2(hears, 3)
            os.dup2(says, 4)

        # the pipe has the descriptors 3 and 4 in the browser
        self.browser = subprocess.Popen(
            words, preexec_fn=in_place, pass_fds=(3, 4, hears, says), stdout=subprocess.DEVNULL, stderr=subprocess.DEVNULL
        )
        os.close(hears)
        os.close(says)
        self.count, self.left, self.session = 0, b"", None
        targets = self.ask("Target.getTargets")["targetInfos"]
        target = next(it["targetId"] for it in targets if it["type"] == "page")
        self.session = self.ask("Target.attachToTarget", targetId=target, flatten=True)["sessionId"]
        self.ask("Page.enable")
        self.ask("Page.navigate", url=url)

    def __enter__(self):
        return self

    def __exit__(self, *_):
        self.browser.terminate()
        self.browser.wait(timeout=20)
        os.close(self.told)
        os.close(self.answers)

    def ask(self, method, **given):
        """The answer to one call of the protocol; events are passed over."""
        self.count += 1
        call = {"id": self.count, "method": method, "params": given}
        if self.session:
            call["sessionId"] = self.session
        os.write(self.told, json.dumps(call).encode() + b"\0")
        while True:
            while b"\0" not in self.left:
                read = os.read(self.answers, 1 << 16)
                if not read:
                    raise RuntimeError("the browser has ended")
                self.left += read
            message, _, self.left = self.left.partition(b"\0")
            heard = json.loads(message)
            if heard.get("id") == self.count:
                if "error" in heard:
                    raise RuntimeError(f"{method}: {heard['error']['message']}")
                return heard["result"]

    def value(self, script):
        """What a script in the page gives, once it is there."""
        found = self.ask("Runtime.evaluate", expression=script, awaitPromise=True, returnByValue=True)
        if "exceptionDetails" in found:
            raise RuntimeError(found["exceptionDetails"]["exception"].get("description", "a script failed"))
        return found["result"].get("value")

    def wait(self, script, seconds=60):
        """Waits until a script gives what is true, and gives that."""
        until = time.monotonic() + seconds
        while time.monotonic() < until:
            found = self.value(script)
            if found:
                return found
            time.sleep(0.1)
        raise TimeoutError(f"{script} is not so after {seconds} s; the title is {self.value('document.title')!r}")

    def click(self, selector):
        self.value(f"document.querySelector({json.dumps(selector)}).click()")

    def picture(self, file):
        import base64

        shot = self.ask("Page.captureScreenshot", format="png", captureBeyondViewport=False)
        file.write_bytes(base64.b64decode(shot["data"]))
