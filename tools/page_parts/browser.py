"""A page of a browser without a window, which is asked over a pipe (the protocol of Chromium's developer tools)."""
import contextlib
import json
import os
import subprocess
import tempfile

NAMES = ("chromium", "chromium-browser", "google-chrome", "chrome")
# So many seconds the browser has to end.
PATIENCE = 60


@contextlib.contextmanager
def page_of(path):
    asks, asking = os.pipe()
    answers, answering = os.pipe()
    with tempfile.TemporaryDirectory(ignore_cleanup_errors=True) as folder:
        words = [path, "--headless=new", "--disable-gpu", "--hide-scrollbars", "--no-first-run", "--remote-debugging-pipe"]
        words += ["--no-sandbox"] if os.geteuid() == 0 else []
        words += ["--window-size=1300,1000", f"--user-data-dir={folder}", "about:blank"]
        # (it reads from 3 and writes to 4, and ends where nobody writes any more)
        running = subprocess.Popen(
            ["sh", "-c", f'exec "$@" 3<&{asks} 4>&{answering}', "sh", *words],
            pass_fds=(asks, answering), stdin=subprocess.DEVNULL, stdout=subprocess.DEVNULL, stderr=subprocess.DEVNULL,
        )
        os.close(asks)
        os.close(answering)
        try:
            yield Page(asking, answers)
        finally:
            os.close(asking)
            running.wait(PATIENCE)
            os.close(answers)


class Page:
    def __init__(self, asking, answers):
        self.asking, self.answers, self.told = asking, answers, b""
        self.number, self.session, self.events = 0, {}, set()
        target = self.call("Target.createTarget", url="about:blank")["targetId"]
        self.session = {"sessionId": self.call("Target.attachToTarget", targetId=target, flatten=True)["sessionId"]}
        self.call("Page.enable")
        self.call("Performance.enable", timeDomain="threadTicks")

    def call(self, method, **given):
        self.number += 1
        asked = {"id": self.number, "method": method, "params": given, **self.session}
        os.write(self.asking, json.dumps(asked).encode() + b"\0")
        while (answer := self.next()).get("id") != self.number:
            pass
        if "error" in answer:
            raise RuntimeError(answer["error"]["message"])
        return answer["result"]

    def next(self):
        """The next answer or event that is told; the kinds of events are kept."""
        while b"\0" not in self.told:
            more = os.read(self.answers, 1 << 20)
            if not more:
                raise EOFError("the browser ended")
            self.told += more
        one, _, self.told = self.told.partition(b"\0")
        told = json.loads(one)
        self.events.add(told.get("method"))
        return told

    def open(self, url):
        self.events.clear()
        self.call("Page.navigate", url=url)
        while "Page.loadEventFired" not in self.events:
            self.next()
        self.ask("new Promise(done => requestAnimationFrame(() => requestAnimationFrame(() => done(0))))")

    def busy(self):
        """Of how many seconds of a processor the page had need so far."""
        metrics = self.call("Performance.getMetrics")["metrics"]
        return next(it["value"] for it in metrics if it["name"] == "TaskDuration")

    def ask(self, expression):
        answer = self.call("Runtime.evaluate", expression=expression, awaitPromise=True, returnByValue=True)
        if "exceptionDetails" in answer:
            raise RuntimeError(answer["exceptionDetails"]["exception"].get("description", "an error"))
        return answer["result"].get("value")

    def press(self, key):
        for kind in ("keyDown", "keyUp"):
            self.call("Input.dispatchKeyEvent", type=kind, key=key, code=key)
