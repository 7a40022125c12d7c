"""Nothing is lost: links behind the sign-in, a sign-in in the middle of work, an office that hangs, double clicks, idleness."""
import json
import socket
import tempfile
import threading
import time

from office_and_people import TOKENS, Person, Proxy, want, want_in
from page_life import file_in_work

HEADING = "return document.querySelector('main h1').textContent === arguments[0]"
TYPED = """const form = [...document.querySelectorAll('form')].find(form => form.getAttribute('aria-label') === arguments[0]);
return form && [...form.elements].filter(at => at.name).map(at => at.value)"""


def sign_in_here(person, view, token=None):
    """Signs in where the page asks for it, without going elsewhere."""
    person.browser.clear(person.browser.find("input[type=password]"))
    person.sign_in(view, token or TOKENS[view])


def try_a_link(people, office):
    """A link to a file leads there behind the sign-in, signed out or in a new tab; a token has spaces around it."""
    number = file_in_work(office, description="Behind a link")
    browser = people["public"].browser
    person = Person(browser, office)
    browser.go("about:blank")
    browser.go(f"{office.url}/office/#/files/{number}")
    person.wait(HEADING, "the sign-in", "Sign in")
    person.sees("The page that you asked for comes once you have signed in.")
    sign_in_here(person, "public", f"  {TOKENS['public']} ")
    person.wait(HEADING, "the file behind the sign-in", f"File {number}: Repair")
    person.sees("Behind a link")
    person.click_button("Sign out")
    person.wait(HEADING, "the sign-in", "Sign in")
    person.browser.script("location.hash = arguments[0]", f"#/files/{number}/papers/1")
    person.sees("The page that you asked for comes once you have signed in.")
    sign_in_here(person, "public")
    person.wait(HEADING, "the paper behind the sign-in", "Building permit")


def try_a_401(people, office):
    """Behind a 401 in the middle of work the sign-in comes up, and then the form is there, filled as it was."""
    resident = people["public"]
    number = file_in_work(office)
    resident.open(f"files/{number}")
    resident.fill("Ask for more time", days="40", text="The windows are late")
    resident.browser.script("sessionStorage.setItem('token', 'nobodynobodynobody')")
    resident.submit("Ask for more time")
    resident.wait(HEADING, "the sign-in", "Sign in")
    resident.sees("Nobody in this office has this token.")
    sign_in_here(resident, "public")
    resident.wait(HEADING, "the file again", f"File {number}: Repair")
    want(resident.browser.script(TYPED, "Ask for more time"), ["40", "The windows are late"], "the form is still filled")
    want(resident.send("Ask for more time"), f"40 days more are asked for on file {number}.", "sending it then")
    resident.open("apply/1")
    resident.fill("File an application", kind="repair", valuation="1", description="Half typed")
    resident.browser.script("sessionStorage.setItem('token', 'nobodynobodynobody')")
    resident.submit("File an application")
    resident.wait(HEADING, "the sign-in", "Sign in")
    sign_in_here(resident, "public")
    resident.wait(HEADING, "the form again", "File an application")
    want(resident.browser.script(TYPED, "File an application"), ["1", "repair", "1", "Half typed"], "the form is still filled")


def try_a_double_click(people, office):
    """A double click on what sends an application files it once."""
    resident = people["public"]
    resident.open("apply/1")
    before = office.ask("GET", "/files")[1].count('"id"')
    resident.fill("File an application", kind="repair", valuation="1", description="Filed by a double click")
    resident.press_submit("File an application")
    resident.browser.script("const yes = document.querySelector('.check .yes'); for (let turn = 0; turn < 4; turn += 1) yes.click()")
    want_in("was filed", resident.answered(), "filing")
    time.sleep(1)
    want(office.ask("GET", "/files")[1].count('"id"'), before + 1, "it is filed once")
    number = file_in_work(office)
    resident.open(f"files/{number}")
    resident.browser.script(
        "const form = [...document.querySelectorAll('form')].find(form => form.getAttribute('aria-label') === 'Request an inspection');"
        "const send = form.querySelector('button[type=submit]'); send.click(); send.click()")
    want(resident.answered(), f"The inspection of frame is requested on file {number}.", "a double click on a command")
    time.sleep(0.5)
    want(resident.text(".refusal"), None, "it is sent once")


# Moves the clock that the page looks at.
MOVED = "window.realNow ??= Date.now; const by = arguments[0]; Date.now = () => window.realNow() + by"
MINUTE = 60_000


def try_idleness(people, office):
    """Who does nothing for 15 minutes is signed out, told so a minute before, and finds what was typed; another one doesn't."""
    person = Person(people["public"].browser, office).sign_in("public")
    number = file_in_work(office)
    person.open(f"files/{number}")
    person.fill("Ask for more time", days="7", text="Private words")
    person.browser.script(MOVED, 13.5 * MINUTE)
    time.sleep(1.5)
    want(person.text(".warning"), None, "nothing is said before the 14th minute")
    person.browser.script(MOVED, 14.2 * MINUTE)
    person.wait("return document.querySelector('.warning') !== null", "the warning a minute before")
    want_in("You will be signed out in a minute.", person.text(".warning"), "the warning")
    person.click_button("Stay signed in")
    want(person.text(".warning"), None, "the warning goes")
    person.browser.script(MOVED, (14.2 + 14.5) * MINUTE)
    person.wait("return document.querySelector('.warning') !== null", "the warning again")
    person.browser.script(MOVED, (14.2 + 15.1) * MINUTE)
    person.wait(HEADING, "signed out", "Sign in")
    person.sees("You were signed out, since nothing was done here for 15 minutes.")
    want(person.browser.script("return sessionStorage.length"), 0, "nothing is kept in the tab's store")
    want("Private words" in person.browser.script("return document.documentElement.outerHTML"), False, "what was typed isn't shown")
    sign_in_here(person, "public")
    person.wait(HEADING, "the file again", f"File {number}: Repair")
    want(person.browser.script(TYPED, "Ask for more time"), ["7", "Private words"], "the same person finds what was typed")
    person.browser.script(MOVED, (14.2 + 31) * MINUTE)
    person.wait(HEADING, "signed out again", "Sign in")
    sign_in_here(person, "official")
    person.wait(HEADING, "the file as another", f"File {number}: Repair")
    want(person.browser.script(TYPED, "Ask for more time"), ["", ""], "another one finds nothing of it")
    person.click_button("Sign out")


def try_signing_out(people, _office):
    """Who signs out leaves nothing in the tab, and no tab knows what another does."""
    resident = people["public"]
    resident.open("files/1")
    resident.click_button("Sign out")
    resident.wait(HEADING, "signing in anew", "Sign in")
    want(resident.browser.script("return [sessionStorage.length, Object.keys(localStorage), document.cookie]"), [0, ["role"], ""], "what the tab keeps")
    want("New kitchen" in resident.text(), False, "a file after signing out")
    resident.browser.script("history.back()")
    time.sleep(0.5)
    want(resident.text("main h1"), "Sign in", "going back after signing out")
    resident.browser.script("location.hash = '#/files/1'")
    time.sleep(0.5)
    want(resident.text("main h1"), "Sign in", "a file's address after signing out")
    resident.sign_in("public", "nobodynobodynobody")
    want_in("Nobody in this office has this token.", resident.answered(), "a token of nobody")
    people["clerk"].open("waiting")
    want(people["clerk"].text("main h1"), "What waits for me", "another tab is still signed in")
    resident.use()
    sign_in_here(resident, "public")
    resident.wait(HEADING, "the file behind the sign-in", "File 1: Alter")


class Hanging:
    """Stands before an office and hands on what it is sent; where a request begins with one of `held`, its answer never comes."""

    def __init__(self, port):
        self.to, self.held = port, ()
        self.server = socket.create_server(("127.0.0.1", 0), backlog=128)
        self.port = self.server.getsockname()[1]
        threading.Thread(target=self.serve, daemon=True).start()

    def serve(self):
        while True:
            try:
                client, _ = self.server.accept()
            except OSError:
                return
            threading.Thread(target=self.pass_on, args=(client,), daemon=True).start()

    def pass_on(self, client):
        with client:
            asked = client.recv(65536)
            while asked and (b"\r\n\r\n" not in asked or len(asked) < self.whole(asked)):
                asked += client.recv(65536)
            is_held = asked.startswith(self.held)
            with socket.create_connection(("127.0.0.1", self.to)) as office:
                office.sendall(asked)
                while part := office.recv(65536):
                    if not is_held:
                        client.sendall(part)
            if is_held:
                time.sleep(40)

    @staticmethod
    def whole(asked):
        head, _, _ = asked.partition(b"\r\n\r\n")
        sizes = [int(line.split(b":")[1]) for line in head.split(b"\r\n") if line.lower().startswith(b"content-length:")]
        return len(head) + 4 + (sizes[0] if sizes else 0)

    def close(self):
        self.server.close()


def try_a_hang(people, office):
    """A request that hangs is given up after 15 seconds, says that it may have been done, and looks whether it was."""
    number, other = file_in_work(office), file_in_work(office, description="Read at last")
    hanging, folder = Hanging(office.port), tempfile.TemporaryDirectory()
    proxy = Proxy(folder.name, hanging.port)
    try:
        reader = Person(people["public"].browser, proxy).sign_in("public")
        person = Person(people["public"].browser, proxy).sign_in("public")
        person.open(f"files/{number}")
        person.fill("Ask for more time", days="9", text="Done behind a hang")
        hanging.held = (b"POST ", f"GET /files/{other} ".encode())
        reader.use()
        reader.browser.script("location.hash = arguments[0]", f"#/files/{other}")
        begun = time.time()
        person.use()
        person.submit("Ask for more time")
        said = person.wait("return document.querySelector('.refusal')?.innerText", "giving up", seconds=25)
        took = time.time() - begun
        want(14 < took < 18, True, f"given up after 15 seconds, and not {took:.1f}")
        want_in("The office has not answered for 15 seconds.", said, "giving up")
        want_in("may or may not have been done", said, "giving up")
        want(person.browser.script(TYPED, "Ask for more time"), ["9", "Done behind a hang"], "the form is still filled")
        person.wait("return document.querySelector('.looked').innerText.includes('The file has changed since')", "what looking found")
        want(json.loads(office.ask("GET", f"/files/{number}")[1])["ask"], 9, "it was done indeed")
        person.click_button("Look again")
        person.sees("Extension asked for")
        reader.use()
        reader.sees("The office has not answered for 15 seconds.", "It is asked again by itself.")
        hanging.held = ()
        reader.wait(HEADING, "the file once it is answered", f"File {other}: Repair", seconds=20)
    finally:
        proxy.close()
        hanging.close()
        folder.cleanup()
