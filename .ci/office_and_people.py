"""What the trials of the page stand on: an office in a file, the proxy before it, and the people who use the page."""
import json
import os
import re
import signal
import subprocess
import time
import urllib.error
import urllib.request
from datetime import datetime, timezone
from pathlib import Path

import webdriver
from webdriver import Failed, free_port

TOP = Path(__file__).resolve().parent.parent
PROGRAM = Path(os.environ.get("PERMIT") or TOP / "crates/permit/out/permit").resolve()
POLICY = TOP / "policies/department.toml"
TODAY = datetime.now(timezone.utc).date()
CHIEF = "abcdefghijklmnopqrstuvwxyz"
TOKENS = {"clerk": "clerk2clerk2clerk2", "reviewer": "reviewer3reviewer3", "inspector": "inspector4inspector4",
          "public": "public5public5public5", "official": CHIEF, "nobody": "nobody6nobody6nobody6"}
DEPARTMENT = json.loads((TOP / "web/department.json").read_text()) | {"staff": [
    {"number": 1, "name": "Ada Chief", "role": "official"}, {"number": 2, "name": "Cal Ortiz", "role": "clerk"},
    {"number": 3, "name": "Rita Vogel", "role": "reviewer"}, {"number": 4, "name": "Ian Moss", "role": "inspector"}]}
WORST = 60  # seconds that a view may take, with 99,999 files and on a machine that does other things too


class Wrong(Exception):
    """The page did something else than is wanted."""


def want(got, wanted, what):
    if got != wanted:
        raise Wrong(f"{what}\n  wanted {repr(wanted)[:800]}\n  got    {repr(got)[:800]}")


def want_in(part, whole, what):
    if part not in whole:
        raise Wrong(f"{what}\n  wanted {part!r}\n  in     {whole!r}")


# The office and the proxy.


class Proxy:
    """nginx with the configuration of `./counter`, with the page and the department's own words, before an office on a port."""

    def __init__(self, folder, office):
        port = free_port()
        self.url = f"http://127.0.0.1:{port}"
        words = [TOP / "counter", "configuration", folder, str(port), str(office)]
        configuration, self.log = Path(folder) / "nginx.conf", Path(folder) / "nginx.log"
        told = Path(folder) / "department.json"
        told.write_text(json.dumps(DEPARTMENT))
        own = f'location = /office/department.json {{ alias "{told}"; }}\n    location /office/ {{'
        made = subprocess.run(words, check=True, capture_output=True, text=True).stdout
        configuration.write_text(made.replace("location /office/ {", own))
        self.process = subprocess.Popen(["nginx", "-e", "stderr", "-p", folder, "-c", configuration], stderr=self.log.open("w"))
        self.wait()

    def wait(self):
        for _ in range(100):
            try:
                with urllib.request.urlopen(f"{self.url}/office/") as answer:
                    return answer.read()
            except OSError:
                time.sleep(0.1)
        raise Wrong("nginx does not answer: " + self.log.read_text())

    def close(self):
        self.process.terminate()
        self.process.wait(30)


class Office:
    """An office in a file, which goes away and comes back on one port, and the proxy before it."""

    def __init__(self, folder, policy=POLICY):
        self.db, self.policy = str(Path(folder) / "office.db"), policy
        self.port = free_port()
        words = ["init", "--db", self.db, "--name", "Chief", "--token", CHIEF, "--day", str(TODAY)]
        subprocess.run([PROGRAM, *words], check=True, stdout=subprocess.DEVNULL)
        self.start()
        self.proxy = Proxy(folder, self.port)
        self.url = self.proxy.url

    def start(self, day=TODAY):
        words = ["serve", "--db", self.db, "--policy", str(self.policy), "--day", str(day), "--listen", f"127.0.0.1:{self.port}"]
        self.process = subprocess.Popen([PROGRAM, *words], stdout=subprocess.PIPE, text=True)
        want(self.process.stdout.readline(), f"listening 127.0.0.1:{self.port}\n", "the office listens")

    def stop(self):
        self.process.send_signal(signal.SIGKILL)
        self.process.communicate()

    def restart(self, day=TODAY):
        self.stop()
        self.start(day)

    def close(self):
        self.stop()
        self.proxy.close()

    def ask(self, method, path, body=None, who="official"):
        """The status and the body of an answer, without the page."""
        data = json.dumps(body or {}).encode() if method == "POST" else None
        heads = {"Authorization": f"Bearer {TOKENS[who]}"}
        request = urllib.request.Request(f"http://127.0.0.1:{self.port}{path}", data, heads, method=method)
        try:
            with urllib.request.urlopen(request) as answer:
                return answer.status, answer.read().decode()
        except urllib.error.HTTPError as fault:
            return fault.code, fault.read().decode()

    def do(self, path, body=None, who="official"):
        """A command that has to be accepted; its number."""
        status, answer = self.ask("POST", path, body, who)
        want(status, 200, f"{path} {body}: {answer}")
        return json.loads(answer)["number"]


# What is said of each command that was done.
DONE = {
    "Assign a reviewer": r"Party \d+(, .+,)? reviews file {file}\.", "Assign an inspector": r"Party \d+(, .+,)? inspects file {file}\.",
    "Start the review": r"The review of file {file} has begun\.", "Approve the plans": r"The plans of file {file} are approved\.",
    "Return the plans for changes": r"The plans of file {file} went back to the applicant for changes\.",
    "Reject the plans": r"File {file} is rejected and closed\.", "Send the plans again": r"The plans of file {file} were sent again\.",
    "Issue the permit": r"The permit of file {file} is issued\.", "Begin the work": r"The work on file {file} has begun\.",
    "Request an inspection": r"The inspection of \w+ is requested on file {file}\.",
    "Approve a step": r"The inspection of \w+ is approved on file {file}\.",
    "Give a correction notice": r"Correction notice \d+ is given on file {file}\.",
    "Clear a correction notice": r"Correction notice \d+ of file {file} is cleared\.",
    "Order the work stopped": r"The work on file {file} is stopped\.", "Lift the stop work order": r"The stop work order on file {file} is lifted\.",
    "Ask for more time": r"\d+ days more are asked for on file {file}\.", "Grant the extension": r"File {file} has \d+ days more\.",
    "Refuse the extension": r"The extension of file {file} is refused\.",
    "Name the contractor": r"Party \d+(, .+,)? is the contractor of file {file}\.",
    "Give a temporary certificate": r"File {file} has a temporary certificate of \d+ days\.",
    "Give the certificate": r"File {file} has its certificate\.", "Revoke the permit": r"The permit of file {file} is revoked\.",
}


# A person's tab.

SETTLED = """const main = document.querySelector('main');
return main.querySelector('h1') !== null && !main.hasAttribute('aria-busy') && main.dataset.place === location.hash"""
FORM = """return [...document.querySelectorAll('form')].find(form => form.getAttribute('aria-label') === arguments[0])"""


class Person:
    """A tab of the browser, in which one person uses the page."""

    def __init__(self, browser, office):
        self.browser, self.office = browser, office
        self.tab = browser.new_tab()
        browser.resize(1200, 900)
        browser.go(f"{office.url}/office/")
        self.wait(SETTLED, "the page")

    def use(self):
        if self.browser.used != self.tab:
            self.browser.use(self.tab)
            self.browser.devtools("Page.bringToFront", {})

    def wait(self, script, what, *values, seconds=15):
        self.use()
        ends = time.time() + seconds
        while time.time() < ends:
            try:
                found = self.browser.script(script, *values)
                if found:
                    return found
            except Failed:
                pass
            time.sleep(0.05)
        raise Wrong(f"{what} did not come; the page shows:\n{self.text()}")

    def text(self, css="body"):
        self.use()
        return self.browser.script("return document.querySelector(arguments[0])?.innerText ?? null", css)

    def sign_in(self, view, token=None):
        self.use()
        self.browser.type(self.browser.find("input[type=password]"), token or TOKENS[view])
        self.browser.click(self.browser.find(f"input[value={view}]"))
        self.browser.click(self.browser.find("form button[type=submit]"))
        if token is None:
            self.wait("return document.querySelector('main h1').textContent === 'What waits for me'", f"signing in as {view}")
        return self

    def open(self, place):
        """Shows a place anew."""
        self.use()
        self.browser.script("document.querySelector('main').replaceChildren()")
        self.browser.script(
            "if (location.hash === arguments[0]) location.reload(); else location.hash = arguments[0]", f"#/{place}")
        self.wait(SETTLED, place, seconds=WORST)

    def reload(self):
        """Reads the page anew, which knows then nothing of the day."""
        self.use()
        self.browser.script("document.querySelector('main').replaceChildren(); location.reload()")
        self.wait(SETTLED, "the page anew")

    def open_again(self, place):
        """Goes to a place without reading the page anew."""
        self.use()
        self.browser.script("location.hash = arguments[0]", f"#/{place}")
        self.wait(SETTLED, place)

    def view(self, view):
        """Chooses another view, which is no right."""
        self.use()
        self.browser.script(
            "const chooser = document.querySelector('#account select'); chooser.value = arguments[0]; chooser.dispatchEvent(new Event('change'))", view)
        self.wait(SETTLED, f"the view {view}")

    def back(self, place):
        """Goes back by the browser's own button, to a place."""
        self.use()
        self.browser.script("history.back()")
        self.wait(f"return location.hash === arguments[0] && (() => {{ {SETTLED} }})()", f"back to {place}", f"#/{place}")

    def form(self, label):
        self.use()
        form = self.browser.by_script(FORM, label)
        if form is None:
            raise Wrong(f"no form {label}; the page shows:\n{self.text()}")
        self.browser.script(
            "for (let at = arguments[0]; at; at = at.parentElement?.closest('details')) if (at.tagName === 'DETAILS') at.open = true",
            {webdriver.ELEMENT: form})
        return form

    def fill(self, label, **values):
        """Fills in a form's fields, by their names in a body."""
        form = {webdriver.ELEMENT: self.form(label)}
        for name, value in values.items():
            field = self.browser.by_script("return arguments[0].elements[arguments[1]]", form, name)
            is_select = self.browser.script("return arguments[0].elements[arguments[1]].tagName === 'SELECT'", form, name)
            if is_select or not value.isprintable() or not value.isascii() or len(value) > 200:
                self.browser.script(
                    "const field = arguments[0].elements[arguments[1]]; field.value = arguments[2];"
                    "field.dispatchEvent(new Event('input', {bubbles: true}))", form, name, value)
            else:
                self.browser.clear(field)
                self.browser.type(field, value)

    def press_submit(self, label):
        form = {webdriver.ELEMENT: self.form(label)}
        self.browser.script("document.getElementById('said').replaceChildren()")
        self.browser.click(self.browser.by_script("return arguments[0].querySelector('button[type=submit]')", form))

    def submit(self, label):
        """Sends a form, and says yes where it is asked once more; what was asked then."""
        self.press_submit(label)
        asked = self.browser.script("return document.querySelector('.check:not([hidden])')?.innerText ?? null")
        if asked is not None:
            self.browser.click(self.browser.find(".check:not([hidden]) .yes"))
        return asked

    def answered(self):
        """What was said to what was sent: of what was done, or of a refusal."""
        return self.wait(
            "const done = document.querySelector('#said .words')?.textContent, refused = document.querySelector('.refusal');"
            "return done || (refused && refused.innerText)", "an answer")

    def send(self, label, **values):
        self.fill(label, **values)
        self.submit(label)
        return self.answered()

    def command(self, file, label, **values):
        """Opens a file and does a command on it, which has to be accepted; what was asked before it was sent."""
        self.open(f"files/{file}")
        self.fill(label, **values)
        asked = self.submit(label)
        said = self.answered()
        want(re.fullmatch(DONE[label].format(file=file), said) is not None, True, f"{label}: {said}")
        self.wait(SETTLED, "the file")
        return asked

    def refused(self, file, label, words, **values):
        """The same, which has to be refused in these words."""
        self.open(f"files/{file}")
        said = self.send(label, **values)
        for part in words:
            want_in(part, said, label)

    def type_text(self, css, text):
        """Puts a text into a field that is found by a selector."""
        self.use()
        self.browser.script(
            "const field = document.querySelector(arguments[0]); field.value = arguments[1];"
            "field.dispatchEvent(new Event('input', {bubbles: true}))", css, text)

    def click_button(self, label):
        self.use()
        self.browser.click(self.browser.by_script(
            "return [...document.querySelectorAll('button')].find(button => button.textContent === arguments[0])", label))

    def click_link(self, label):
        """Clicks on a place of the page, which may be the one where one is."""
        self.use()
        self.browser.script("document.querySelector('main').replaceChildren()")
        self.browser.click(self.browser.by_script(
            "return [...document.querySelectorAll('nav a')].find(link => link.textContent === arguments[0])", label))
        self.wait(SETTLED, label)

    def click_column(self, label):
        self.use()
        self.browser.click(self.browser.by_script(
            "return [...document.querySelectorAll('th button')].find(button => button.textContent === arguments[0])", label))

    def close(self):
        """Closes the tab."""
        self.use()
        self.browser.close_tab()

    def waits(self, file, title):
        """A file stands in a group of what waits. A table draws the rows that are looked at, so its end is looked at too."""
        self.open("waiting")
        groups = self.browser.script("""return [...document.querySelectorAll('main section')].map(at => {
            const beginning = at.innerText;
            at.querySelector('tr[data-index]')?.dispatchEvent(new KeyboardEvent('keydown', { key: 'End', bubbles: true }));
            return [at.querySelector('h2').textContent, beginning + at.innerText];
        })""")
        found = [text for heading, text in groups if heading.startswith(title + " (")]
        want_in(f"File {file}", "".join(found), f"what waits under {title}")
        return "".join(found)

    def sees(self, *parts):
        """The page shows these in what it is about, soon: places come once they are known."""
        for part in parts:
            self.wait("return document.querySelector('main').innerText.includes(arguments[0])", f"{part!r}", part)
