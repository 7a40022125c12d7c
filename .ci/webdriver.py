"""A browser driven by the WebDriver protocol (W3C): headless Chromium and its driver, as Debian has them."""
import base64
import json
import os
import shutil
import socket
import subprocess
import time
import urllib.error
import urllib.request
from pathlib import Path

ELEMENT = "element-6066-11e4-a52e-4f735466cecf"
PACKAGES = {"chromium": "chromium", "chromedriver": "chromium-driver", "nginx": "nginx",
            "pdftotext": "poppler-utils", "zbarimg": "zbar-tools"}
# The keys of the protocol.
TAB, ENTER, SPACE, DOWN, END, SHIFT, CONTROL = "\ue004", "\ue007", " ", "\ue015", "\ue010", "\ue008", "\ue009"


def missing():
    """The names of the programs that are wanted and can't be installed."""
    os.environ["PATH"] += os.pathsep + "/usr/sbin"
    wanted = [package for program, package in PACKAGES.items() if shutil.which(program) is None]
    if wanted:
        quiet = {"stdout": subprocess.DEVNULL, "stderr": subprocess.DEVNULL}
        environment = {**os.environ, "DEBIAN_FRONTEND": "noninteractive"}
        install = ["apt-get", "-o", "DPkg::Lock::Timeout=60", "install", "-y", "--no-install-recommends", *wanted]
        try:
            if subprocess.run(install, env=environment, timeout=240, **quiet).returncode != 0:
                subprocess.run(["apt-get", "update"], timeout=120, **quiet)
                subprocess.run(install, env=environment, timeout=240, **quiet)
        except (OSError, subprocess.TimeoutExpired):
            pass
    return [program for program in PACKAGES if shutil.which(program) is None]


def free_port():
    with socket.create_server(("127.0.0.1", 0)) as taken:
        return taken.getsockname()[1]


class Failed(Exception):
    """The browser or its driver refused a command."""


class Browser:
    """One session of the browser. Its tabs stand apart, each with what is kept for a tab alone."""

    def __init__(self, folder):
        self.port = free_port()
        environment = {**os.environ, "HOME": folder, "TMPDIR": folder, "LANG": "en_US.UTF-8"}
        words = ["chromedriver", f"--port={self.port}", f"--log-path={folder}/driver.log"]
        self.process = subprocess.Popen(
            words, env=environment, stdout=subprocess.DEVNULL, stderr=subprocess.DEVNULL, start_new_session=True)
        self.session, self.used = "", None
        options = {"args": ["--headless=new", "--no-sandbox", "--disable-dev-shm-usage", "--disable-gpu", "--lang=en-US",
                            "--hide-scrollbars", f"--user-data-dir={folder}/profile"]}
        asked = {"browserName": "chrome", "goog:chromeOptions": options, "goog:loggingPrefs": {"browser": "ALL"}}
        self.wait_for_driver()
        self.session = self.ask("POST", "/session", {"capabilities": {"alwaysMatch": asked}})["sessionId"]

    def wait_for_driver(self):
        for _ in range(200):
            try:
                self.ask("GET", "/status")
                return
            except OSError:
                time.sleep(0.1)
        raise Failed("the driver does not answer")

    def ask(self, method, path, body=None):
        where = f"http://127.0.0.1:{self.port}" + (f"/session/{self.session}" if self.session else "") + path
        data = None if method != "POST" else json.dumps(body or {}).encode()
        request = urllib.request.Request(where, data, {"Content-Type": "application/json"}, method=method)
        try:
            with urllib.request.urlopen(request, timeout=120) as answer:
                return json.load(answer)["value"]
        except urllib.error.HTTPError as fault:
            value = json.load(fault)["value"]
            raise Failed(f"{value['error']}: {value['message'].splitlines()[0]}") from None

    def close(self):
        try:
            self.ask("DELETE", "")
        except (OSError, Failed):
            pass
        self.process.terminate()
        self.process.wait(30)

    # Tabs.

    def new_tab(self):
        """A tab in front: one behind another has less of the processor."""
        tab = self.ask("POST", "/window/new", {"type": "tab"})["handle"]
        self.use(tab)
        self.devtools("Page.bringToFront", {})
        return tab

    def use(self, tab):
        self.ask("POST", "/window", {"handle": tab})
        self.used = tab

    def close_tab(self):
        left = self.ask("DELETE", "/window")
        self.use(left[0])

    def tabs(self):
        return self.ask("GET", "/window/handles")

    def go(self, url):
        self.ask("POST", "/url", {"url": url})

    def resize(self, width, height):
        metrics = {"width": width, "height": height, "deviceScaleFactor": 1, "mobile": False}
        self.devtools("Emulation.setDeviceMetricsOverride", metrics)

    def devtools(self, command, values):
        return self.ask("POST", "/goog/cdp/execute", {"cmd": command, "params": values})

    def use_scheme(self, scheme):
        self.devtools("Emulation.setEmulatedMedia", {"features": [{"name": "prefers-color-scheme", "value": scheme}]})

    def use_media(self, media):
        self.devtools("Emulation.setEmulatedMedia", {"media": media})

    def errors(self):
        """What the page wrote to its console as an error since it was asked last."""
        entries = self.ask("POST", "/se/log", {"type": "browser"})
        return [entry["message"] for entry in entries if entry["level"] == "SEVERE"]

    # Elements.

    def script(self, text, *values):
        return self.ask("POST", "/execute/sync", {"script": text, "args": list(values)})

    def script_async(self, text, *values):
        """What a script hands to the function that is its last argument."""
        return self.ask("POST", "/execute/async", {"script": text, "args": list(values)})

    def find_all(self, css):
        return [found[ELEMENT] for found in self.ask("POST", "/elements", {"using": "css selector", "value": css})]

    def find(self, css):
        return self.ask("POST", "/element", {"using": "css selector", "value": css})[ELEMENT]

    def by_script(self, text, *values):
        """The element that a script returns, or None."""
        found = self.script(text, *values)
        return found and found[ELEMENT]

    def click(self, element):
        self.ask("POST", f"/element/{element}/click")

    def click_with_control(self, element):
        """A click that opens a link in another tab."""
        origin = {ELEMENT: element}
        pointer = [{"type": "pause"}, {"type": "pointerMove", "origin": origin, "x": 0, "y": 0}, {"type": "pointerDown", "button": 0},
                   {"type": "pointerUp", "button": 0}]
        keys = [{"type": "keyDown", "value": CONTROL}, {"type": "pause"}, {"type": "pause"}, {"type": "pause"}, {"type": "keyUp", "value": CONTROL}]
        self.ask("POST", "/actions", {"actions": [{"type": "key", "id": "keys", "actions": keys}, {"type": "pointer", "id": "mouse", "actions": pointer}]})

    def type(self, element, text):
        self.ask("POST", f"/element/{element}/value", {"text": text})

    def clear(self, element):
        self.ask("POST", f"/element/{element}/clear")

    def label(self, element):
        return self.ask("GET", f"/element/{element}/computedlabel")

    def role(self, element):
        return self.ask("GET", f"/element/{element}/computedrole")

    def press(self, *keys):
        """Presses keys one after the other, wherever the focus is."""
        moves = [{"type": kind, "value": key} for key in keys for kind in ("keyDown", "keyUp")]
        self.ask("POST", "/actions", {"actions": [{"type": "key", "id": "keys", "actions": moves}]})

    def press_with_shift(self, key):
        moves = [{"type": "keyDown", "value": SHIFT}, {"type": "keyDown", "value": key},
                 {"type": "keyUp", "value": key}, {"type": "keyUp", "value": SHIFT}]
        self.ask("POST", "/actions", {"actions": [{"type": "key", "id": "keys", "actions": moves}]})

    def screenshot(self):
        return self.ask("GET", "/screenshot")

    def print_pages(self, folder, width=21.59, height=27.94):
        """The pages that the browser prints, each as its text with its layout; paper is as large as said, in cm."""
        made = self.ask("POST", "/print", {"page": {"width": width, "height": height}, "shrinkToFit": False})
        path = Path(folder) / "printed.pdf"
        path.write_bytes(base64.b64decode(made))
        text = subprocess.run(["pdftotext", "-layout", path, "-"], check=True, capture_output=True, text=True, timeout=60).stdout
        return text.split("\f")[:-1]

    def keep_downloads(self, folder):
        self.devtools("Browser.setDownloadBehavior", {"behavior": "allow", "downloadPath": str(folder)})
