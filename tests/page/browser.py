"""A browser for tests: Debian's Chromium without a window, driven by its driver over WebDriver, with the standard library alone."""

import base64
import http.client
import json
import shutil
import socket
import subprocess
import time

ELEMENT = "element-6066-11e4-a52e-4f735466cecf"
KEYS = {"Enter": "\ue007", "Tab": "\ue004", "Space": " ", "Left": "\ue012", "Up": "\ue013", "Right": "\ue014", "Down": "\ue015", "Shift": "\ue008"}
PATIENCE = 60


class Failed(Exception):
    """The driver could not do what it was asked."""


def free_port() -> int:
    with socket.socket() as one:
        one.bind(("127.0.0.1", 0))
        return one.getsockname()[1]


def tried(page, checks, address, names):
    """Runs the checks with these names, all if none is named, and prints how long each took: how many were run, and what failed ones said."""
    chosen, failed = [check for check in checks if not names or check.__name__ in names], []
    for check in chosen:
        begun = time.monotonic()
        try:
            check(page, address)
            print(f"{check.__name__}: {time.monotonic() - begun:.1f} s")
        except (AssertionError, Failed) as why:
            failed.append(f"{check.__name__}: {why}")
    return len(chosen), failed


class Browser:
    def __init__(self, folder, width=1280, height=1000, dark=False):
        self.port, self.session, self.patience, self.timed = free_port(), None, PATIENCE, False
        self.driver = subprocess.Popen(["chromedriver", f"--port={self.port}"], stdout=subprocess.DEVNULL, stderr=subprocess.DEVNULL)
        words = ["--headless=new", "--no-sandbox", "--disable-gpu", "--disable-dev-shm-usage", "--hide-scrollbars", "--no-first-run",
                 "--disable-background-networking", "--disable-component-update", f"--window-size={width},{height}", f"--user-data-dir={folder}"]
        if dark:
            words.append("--blink-settings=preferredColorScheme=0")
        wanted = {"browserName": "chrome", "goog:loggingPrefs": {"browser": "ALL", "performance": "ALL"},
                  "goog:chromeOptions": {"binary": shutil.which("chromium"), "args": words}}
        for _ in range(PATIENCE * 5):
            try:
                self.session = self.ask("POST", "/session", {"capabilities": {"alwaysMatch": wanted}})["sessionId"]
                return
            except ConnectionError:
                time.sleep(0.2)
        raise Failed("the driver does not answer")

    def __enter__(self):
        return self

    def __exit__(self, *_):
        if self.session:
            self.ask("DELETE", f"/session/{self.session}")
        self.driver.terminate()
        self.driver.wait()

    def ask(self, method, path, body=None):
        line = http.client.HTTPConnection("127.0.0.1", self.port, timeout=120)
        try:
            line.request(method, path, json.dumps(body) if body is not None else None, {"Content-Type": "application/json"})
            value = json.loads(line.getresponse().read())["value"]
        finally:
            line.close()
        if isinstance(value, dict) and value.get("error"):
            raise Failed(f"{value['error']}: {value['message'].splitlines()[0]}")
        return value

    def here(self, method, path, body=None):
        return self.ask(method, f"/session/{self.session}{path}", body)

    def open(self, url):
        self.here("POST", "/url", {"url": "about:blank"})
        self.here("POST", "/url", {"url": url})
        self.until("return document.documentElement.dataset.ready === 'yes'", "the page is ready")

    def run(self, script, *values):
        """Runs a script in the page; what it gives may be promised."""
        wrapped = "const done = arguments[arguments.length - 1]; (async (...given) => { " + script + " })(...[...arguments].slice(0, -1)).then(done, (why) => done({ failed: String(why) }))"
        value = self.here("POST", "/execute/async", {"script": wrapped, "args": list(values)})
        if isinstance(value, dict) and "failed" in value:
            raise Failed(f"{script}: {value['failed']}")
        return value

    def until(self, script, what):
        end = time.monotonic() + self.patience
        while not self.run(script):
            if time.monotonic() > end:
                raise Failed(f"waited for: {what}")
            time.sleep(0.02)

    def find(self, selector):
        return self.here("POST", "/element", {"using": "css selector", "value": selector})[ELEMENT]

    def click(self, selector):
        """A click at the middle of an element, as a hand makes it."""
        self.run("document.querySelector(given[0]).scrollIntoView({ block: 'center' })", selector)
        point = {"type": "pointer", "id": "mouse", "parameters": {"pointerType": "mouse"}, "actions": [
            {"type": "pointerMove", "origin": {ELEMENT: self.find(selector)}, "x": 0, "y": 0}, {"type": "pointerDown", "button": 0}, {"type": "pointerUp", "button": 0}]}
        self.here("POST", "/actions", {"actions": [point]})

    def keys(self, *names):
        """Keys to whatever has the focus: names of KEYS, or text."""
        actions = []
        for name in names:
            for key in [KEYS[name]] if name in KEYS else list(name):
                actions += [{"type": "keyDown", "value": key}, {"type": "keyUp", "value": key}]
        self.here("POST", "/actions", {"actions": [{"type": "key", "id": "keys", "actions": actions}]})

    def fill(self, selector, text):
        """Text into a field, in place of what it has, as if typed."""
        self.run("const one = document.querySelector(given[0]); one.value = given[1]; one.dispatchEvent(new Event('input', { bubbles: true })); one.dispatchEvent(new Event('change', { bubbles: true }))", selector, text)

    def upload(self, selector, path):
        self.here("POST", f"/element/{self.find(selector)}/value", {"text": str(path)})

    def text(self, selector):
        return self.run("return document.querySelector(given[0])?.textContent ?? null", selector)

    def picture(self, path, selector=None):
        """A picture of what the window shows, or of one element."""
        where = f"/element/{self.find(selector)}/screenshot" if selector else "/screenshot"
        path.write_bytes(base64.b64decode(self.here("GET", where)))

    def thread_time(self):
        """The milliseconds of the processor that the page's own thread has taken: scripts, styles, layout and painting."""
        command = lambda name: self.here("POST", "/goog/cdp/execute", {"cmd": f"Performance.{name}", "params": {}})
        if not self.timed:
            command("enable")
            self.timed = True
        return 1000 * next(one["value"] for one in command("getMetrics")["metrics"] if one["name"] == "ThreadTime")

    def log(self, kind):
        return self.here("POST", "/se/log", {"type": kind})
