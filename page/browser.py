"""A headless Chromium for the cases, driven by chromedriver over its HTTP protocol.

    with Browser() as browser:
        browser.open("page.html", "#view=list")
        browser.run("return document.title")
"""
import json
import os
import re
import subprocess
import sys
import tempfile
import time
import urllib.request

WORDS = ["--headless=new", "--no-sandbox", "--disable-gpu", "--disable-dev-shm-usage", "--no-first-run", "--window-size=1400,900"]


class Browser:
    def __enter__(self):
        self.room = tempfile.TemporaryDirectory()
        self.driver = subprocess.Popen(["chromedriver", "--port=0"], stdout=subprocess.PIPE, stderr=subprocess.DEVNULL, text=True,
                                       env=dict(os.environ, DBUS_SESSION_BUS_ADDRESS="disabled:"))
        self.top = "http://127.0.0.1:%s" % self.port()
        words = WORDS + ["--user-data-dir=" + self.room.name]
        options = {"args": words}
        wanted = {"browserName": "chrome", "goog:chromeOptions": options, "goog:loggingPrefs": {"browser": "ALL"}}
        try:
            self.session = self.ask("POST", "/session", {"capabilities": {"alwaysMatch": wanted}})["sessionId"]
        except BaseException:
            self.driver.terminate()
            raise
        return self

    def __exit__(self, *_):
        try:
            self.ask("DELETE", "/session/" + self.session)
        finally:
            self.driver.terminate()
            self.driver.wait()
            self.room.cleanup()

    def port(self):
        for line in self.driver.stdout:
            found = re.search(r"successfully on port (\d+)", line)
            if found:
                return found.group(1)
        raise SystemExit("chromedriver did not start")

    def ask(self, method, path, body=None):
        data = None if body is None else json.dumps(body).encode()
        request = urllib.request.Request(self.top + path, data=data, method=method, headers={"Content-Type": "application/json"})
        try:
            with urllib.request.urlopen(request, timeout=120) as answer:
                return json.load(answer)["value"]
        except urllib.error.HTTPError as error:
            raise SystemExit("the browser: " + json.load(error)["value"]["message"].split("\n")[0])

    def of_session(self, method, path, body=None):
        return self.ask(method, "/session/%s/%s" % (self.session, path), body)

    def open(self, path, link=""):
        """Opens the page anew, also where only what stands behind # is another. Returns how many seconds it took."""
        self.of_session("POST", "url", {"url": "about:blank"})
        begun = time.time()
        self.of_session("POST", "url", {"url": "file://" + urllib.request.pathname2url(os.path.abspath(path)) + link})
        self.run("return document.body.offsetHeight")
        return time.time() - begun

    def run(self, script, *words):
        return self.of_session("POST", "execute/sync", {"script": script, "args": list(words)})

    def element(self, selector):
        found = self.of_session("POST", "element", {"using": "css selector", "value": selector})
        return next(iter(found.values()))

    def click(self, selector):
        self.of_session("POST", "element/%s/click" % self.element(selector), {})

    def keys(self, keys, selector=None):
        """Types keys as a person does, into what has the focus or into an element."""
        if selector is not None:
            self.of_session("POST", "element/%s/value" % self.element(selector), {"text": keys})
            return
        actions = [{"type": way, "value": key} for key in keys for way in ("keyDown", "keyUp")]
        self.of_session("POST", "actions", {"actions": [{"type": "key", "id": "keys", "actions": actions}]})

    def devtools(self, command, words):
        return self.of_session("POST", "goog/cdp/execute", {"cmd": command, "params": words})

    def complaints(self):
        """What the console of the browser was told since the last time."""
        return [entry["message"] for entry in self.of_session("POST", "se/log", {"type": "browser"})]

    def texts(self, selector):
        return self.run("return Array.from(document.querySelectorAll(arguments[0]), made => made.textContent)", selector)

    def rows(self, selector="#view .rows-table tbody tr", last=4):
        """The rows of a table as texts of their cells, without the sign in front; all of them, after Show more."""
        return self.run("""
            for (let more; (more = document.querySelector('#view .more')); ) more.click();
            const texts = row => Array.from(row.cells).slice(1, arguments[1]).map(cell => cell.textContent);
            return Array.from(document.querySelectorAll(arguments[0]), texts);
        """, selector, last)


def program():
    """The program that ./np runs: where dist/np is current it is run by itself, since ./np looks at its sources each time."""
    root = os.environ["ROOT"]
    current = subprocess.run([sys.executable, root + "/tools/program.py", "current"], check=False)
    return root + "/dist/np" if current.returncode == 0 else os.environ["NP"]


NP = program()


def np(*words):
    return subprocess.run([NP, *words], check=True, capture_output=True, text=True).stdout


def rows_of(*words):
    """The rows of np, each as a list of source, destination and connections."""
    return [[row["source"], row["destination"], row["connections"]] for row in json.loads(np(*words, "--format", "json"))]


def make_page(path, *words, **more):
    """Writes the page that np-page makes with the words, and returns its size."""
    with open(path, "wb") as file:
        subprocess.run([os.environ["ROOT"] + "/np-page", *words], check=True, stdout=file, stderr=subprocess.DEVNULL,
                       env=dict(os.environ, NP_PAGE_PROGRAM=NP), **more)
    return os.path.getsize(path)


class Checks:
    """Tells what is not as it should be, and at the end whether all was."""

    def __init__(self):
        self.count = 0
        self.failed = 0

    def same(self, what, found, wanted):
        self.count += 1
        if found != wanted:
            self.failed += 1
            print("%s: found %.2000r, wanted %.2000r" % (what, found, wanted))

    def true(self, what, holds):
        self.same(what, bool(holds), True)

    def end(self):
        print("all as it should be" if not self.failed else "%d of %d checks failed" % (self.failed, self.count))
        raise SystemExit(1 if self.failed else 0)
