"""The checks in Firefox, by hand: `python3 tests/page/firefox.py target/page/garage.html [CHECK..]`, after tests/page/run. Firefox's own
protocol (Marionette) has the driver's commands under other names, so no driver is needed. What only Chromium's driver can tell, its logs and
the processor's time, is left out; the gate does not run this."""

import json
import os
import shutil
import socket
import subprocess
import sys
import tempfile
import time
from pathlib import Path

import checks
import logs
import looks
from browser import PATIENCE, Browser, Failed, free_port, tried

COMMANDS = {"/url": "Navigate", "/execute/async": "ExecuteAsyncScript", "/element": "FindElement", "/actions": "PerformActions", "/window/rect": "SetWindowRect", "/print": "Print"}
CHECKS = [checks.parks_by_clicks, checks.fetches_by_keys, checks.jam_and_image, checks.refusals_are_told, checks.two_orders, checks.motors_play, checks.garage_drawn,
          checks.plan_judged, checks.station_link, logs.night_log, logs.journal, logs.random_messages, logs.bad_files, logs.headed_journal, logs.cards_in_a_log,
          logs.begins_elsewhere, logs.by_the_clock, looks.contrast_and_labels, looks.on_a_phone, looks.on_paper, looks.as_a_module]


class Firefox(Browser):
    def __init__(self, folder):
        self.patience, self.timed, self.asked = PATIENCE, False, 0
        port = free_port()
        Path(folder, "user.js").write_text(f'user_pref("marionette.port", {port});\n')
        words = [shutil.which("firefox-esr") or "firefox", "--headless", "--marionette", "--no-remote", "--profile", folder, "--width", "1280", "--height", "1000"]
        self.driver = subprocess.Popen(words, stdout=subprocess.DEVNULL, stderr=subprocess.DEVNULL, env={**os.environ, "HOME": folder})
        for _ in range(PATIENCE * 5):
            try:
                self.line = socket.create_connection(("127.0.0.1", port), timeout=120)
                break
            except ConnectionError:
                time.sleep(0.2)
        self.read()
        self.session = self.command("NewSession", {})["sessionId"]

    def __exit__(self, *_):
        self.driver.terminate()
        self.driver.wait()

    def read(self):
        size = b""
        while not size.endswith(b":"):
            size += self.line.recv(1)
        text, left = b"", int(size[:-1])
        while len(text) < left:
            text += self.line.recv(left - len(text))
        return json.loads(text)

    def command(self, name, values):
        self.asked += 1
        text = json.dumps([0, self.asked, f"WebDriver:{name}", values]).encode()
        self.line.sendall(b"%d:%s" % (len(text), text))
        _, _, error, value = self.read()
        if error:
            raise Failed(f"{error['error']}: {error['message'].splitlines()[0]}")
        return value

    def here(self, method, path, body=None):
        parts = path.split("/")
        if path.endswith("/value"):
            return self.command("ElementSendKeys", {"id": parts[2], "text": body["text"]})
        if path.endswith("/screenshot"):
            return self.command("TakeScreenshot", {"id": parts[2] if len(parts) > 3 else None, "full": len(parts) <= 3})["value"]
        value = self.command(COMMANDS[path], body if path != "/execute/async" else {**body, "scriptTimeout": 120000, "newSandbox": False, "sandbox": None})
        return value.get("value", value) if path in ("/execute/async", "/element", "/print") else value

    def log(self, kind):
        return []


def main(path, names):
    with tempfile.TemporaryDirectory() as folder, Firefox(folder) as page:
        _, failed = tried(page, CHECKS, path.as_uri(), names)
    for line in failed:
        print(f"failed: {line}")
    print(f"firefox: {len(failed)} failed")
    return 1 if failed else 0


sys.exit(main(Path(sys.argv[1]).resolve(), sys.argv[2:]))
