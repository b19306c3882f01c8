"""A headless Chromium that is driven through its DevTools' pipe, and its windows: for browser.py and edit.py."""

import fcntl
import json
import os
import subprocess
import sys
import time

# The server has one worker: a connection that the browser opens ahead, and sends nothing on, may hold it for 30 seconds.
PATIENCE = 75


class Browser:
    """The browser's process, and the pipe that its commands and its answers go through, each ended by a zero byte."""

    def __init__(self, host, profile):
        # How many replies came over each of the browser's connections to this host, by the number that it gives them.
        self.host, self.replies = host, {}
        to_read, self.to = os.pipe()
        self.come, come_write = os.pipe()
        ends = [fcntl.fcntl(end, fcntl.F_DUPFD, 20) for end in (to_read, come_write)]
        words = ["chromium", "--headless=new", "--disable-gpu", "--no-first-run", "--disable-background-networking",
                 f"--user-data-dir={profile}", "--remote-debugging-pipe"]
        if os.geteuid() == 0:
            words.append("--no-sandbox")

        def take_ends():
            os.dup2(ends[0], 3)
            os.dup2(ends[1], 4)

        self.process = subprocess.Popen(words, preexec_fn=take_ends, pass_fds=(3, 4), stderr=subprocess.DEVNULL)
        self.left, self.number = b"", 0

    def call(self, method, session=None, **words):
        self.number += 1
        message = {"id": self.number, "method": method, "params": words} | ({"sessionId": session} if session else {})
        os.write(self.to, json.dumps(message).encode() + b"\0")
        while True:
            while b"\0" not in self.left:
                self.left += os.read(self.come, 65536) or sys.exit("the browser is gone")
            text, self.left = self.left.split(b"\0", 1)
            answer = json.loads(text)
            if answer.get("method") == "Network.responseReceived":
                response = answer["params"]["response"]
                if response["url"].startswith(self.host) and "favicon" not in response["url"]:
                    number = response["connectionId"]
                    self.replies[number] = self.replies.get(number, 0) + 1
            if answer.get("id") == self.number:
                return answer.get("result", {})

    def close(self):
        self.call("Browser.close")
        self.process.wait(20)


class Window:
    """A window of its own, and what a visitor does in it."""

    def __init__(self, browser, url):
        self.browser, self.left = browser, None
        target = browser.call("Target.createTarget", url="about:blank", newWindow=True)["targetId"]
        self.session = browser.call("Target.attachToTarget", targetId=target, flatten=True)["sessionId"]
        self.call("Network.enable")
        self.leave()
        self.call("Page.navigate", url=url)

    def call(self, method, **words):
        return self.browser.call(method, self.session, **words)

    def value(self, expression):
        """What a text of JavaScript gives in the page as it is now, if anything."""
        return self.call("Runtime.evaluate", expression=expression, returnByValue=True).get("result", {}).get("value")

    def page(self):
        """When the page was loaded, which tells it from each other page, and what it shows once it is whole."""
        shown = self.value("document.readyState == 'complete' && performance.timeOrigin + ' ' + document.body.innerText")
        return (shown or " ").split(" ", 1)

    def leave(self):
        """Notes the page, so that it is not taken for the next one."""
        self.left = self.page()[0]

    def shows(self, text):
        """Waits until another page than the one that was left shows this text."""
        began = time.monotonic()
        while True:
            loaded, shown = self.page()
            if loaded != self.left and text in shown:
                break
            if time.monotonic() > began + PATIENCE:
                sys.exit(f"WRONG: the page shows '{shown}', not '{text}'")
            time.sleep(0.05)
        print(f"    {' '.join(text.split())} ({time.monotonic() - began:.1f} s)", flush=True)

    def type(self, text):
        self.value("document.querySelector('input').focus(); document.querySelector('input').select()")
        self.call("Input.insertText", text=text)

    def press(self):
        self.leave()
        self.value("document.querySelector('button').click()")

    def follow(self, text):
        self.leave()
        self.value(f"[...document.links].find(a => a.innerText == {json.dumps(text)}).click()")

    def target_of(self, text):
        return self.value(f"[...document.links].find(a => a.innerText == {json.dumps(text)}).href")

    def back(self):
        self.leave()
        history = self.call("Page.getNavigationHistory")
        before = history["entries"][history["currentIndex"] - 1]["id"]
        self.call("Page.navigateToHistoryEntry", entryId=before)

    def again(self):
        """Loads the page once more, and sends once more what it came from."""
        self.leave()
        self.call("Page.reload")
