"""Signing in: the slip and its code, tabs that belong together, and what is lost of adding somebody."""
import base64
import subprocess
import tempfile
from pathlib import Path

from office_and_people import SETTLED, TOKENS, Person, Proxy, want, want_in
from page_life import file_in_work
from page_lost import HEADING, Hanging

PASSWORD = "return [...document.querySelectorAll('form input')].map(at => [at.type, at.autocomplete])"


def code_of(person, folder):
    """The text of the code that is shown, as a decoder reads it from a picture of the page."""
    person.browser.script("document.querySelector('.qr').scrollIntoView({block: 'center'})")
    path = Path(folder) / "slip.png"
    path.write_bytes(base64.b64decode(person.browser.screenshot()))
    found = subprocess.run(["zbarimg", "-q", "--raw", path], capture_output=True, text=True, timeout=60)
    return found.stdout.strip()


def try_slip(people, office):
    """A slip has the token in groups, the parcels, and a code that leads to the sign-in with the token filled in."""
    clerk, token = people["clerk"], "slipslip7slipslip7"
    given = office.do("/parcels", {"lot": "N-0", "address": "8 Old St", "owner": 2}, "clerk")
    clerk.open("people")
    clerk.fill("Add a person", name="Nina", role="public", token=token)
    clerk.submit("Add a person")
    clerk.wait("return document.querySelector('.slip') !== null", "the slip")
    clerk.fill("Add a parcel of this person", lot="N-1", address="9 New St")
    clerk.submit("Add a parcel of this person")
    clerk.sees("lot N-1, 9 New St", "slip slip 7sli psli p7")
    clerk.fill("Transfer a parcel to this person", parcel=str(given))
    clerk.submit("Transfer a parcel to this person")
    clerk.sees("lot N-0, 8 Old St")
    with tempfile.TemporaryDirectory() as folder:
        read = code_of(clerk, folder)
        pages = clerk.browser.print_pages(folder)
    want(read, f"{office.url}/office/#/in/public/{token}", "what a decoder reads")
    want((len(pages), "9 New St" in pages[0], "Transfer a parcel" in pages[0]), (1, True, False), "the printed slip")
    person = Person(clerk.browser, office)
    person.browser.go("about:blank")
    person.browser.go(read)
    person.wait(HEADING, "the sign-in", "Sign in")
    person.sees("The token of your slip is filled in.")
    want(person.browser.script("return location.href"), f"{office.url}/office/#/", "the token doesn't stay in the address")
    person.click_button("Show")
    want(person.browser.script("const at = document.querySelector('[name=token]'); return [at.type, at.value]"), ["text", token], "the token, shown")
    person.click_button("Hide")
    want(person.browser.script(PASSWORD)[:2], [["text", "username"], ["password", "current-password"]], "what a password manager looks for")
    person.browser.click(person.browser.find("form button[type=submit]"))
    person.wait(HEADING, "signing in by the slip", "What waits for me")
    person.open("parcels")
    person.sees("A parcel of yours that has no file yet can be opened by its number")
    person.close()


def try_tabs(people, office):
    """A tab that a link opened is signed in, another one isn't; both of one sign-in sign out together, and the role is remembered."""
    number = file_in_work(office)
    person = Person(people["reviewer"].browser, office).sign_in("reviewer")
    browser = person.browser
    person.open(f"files/{number}")
    before = browser.tabs()
    browser.click_with_control(browser.by_script("return [...document.querySelectorAll('nav a')].find(at => at.textContent === 'All files')"))
    opened = Person.__new__(Person)
    opened.browser, opened.office, opened.tab = browser, office, (set(browser.tabs()) - set(before)).pop()
    opened.wait(HEADING, "the opened tab", "All files")
    want(browser.script("return document.querySelector('#account select').value"), "reviewer", "the view of the opened tab")
    other = Person(browser, office)
    browser.script("location.hash = '#/files'")
    other.wait(HEADING, "a tab that nobody opened", "Sign in")
    want(browser.script("return document.querySelector('[name=view]:checked').value"), "reviewer", "the role is remembered")
    other.close()
    opened.click_button("Sign out")
    opened.wait(HEADING, "signed out", "Sign in")
    person.wait(HEADING, "the other tab of this sign-in", "Sign in")
    want(people["reviewer"].text("main h1") != "Sign in", True, "another sign-in stays")
    opened.close()
    person.close()


def try_lost_answers(people, office):
    """Where the answer to adding somebody or to a filing is lost, the page says how it stands; nothing is done twice."""
    hanging, folder = Hanging(office.port), tempfile.TemporaryDirectory()
    proxy = Proxy(folder.name, hanging.port)
    token = "lostlost8lostlost8"
    try:
        clerk = Person(people["clerk"].browser, proxy).sign_in("clerk")
        resident = Person(people["clerk"].browser, proxy).sign_in("public")
        hanging.held = (b"POST /parties", b"POST /files ")
        clerk.open("people")
        clerk.fill("Add a person", name="Lost", role="public", token=token)
        clerk.submit("Add a person")
        want_in("Sending", clerk.browser.script("return document.querySelector('main form button[type=submit]').textContent"), "that it is being sent")
        resident.open("apply/1")
        resident.fill("File an application", kind="repair", valuation="77", description="Lost on the way")
        resident.submit("File an application")
        want(resident.browser.script("const at = document.querySelector('.check .yes'); return [at.textContent, at.disabled]"), ["Sending\u2026", True],
             "that it is being sent")
        clerk.wait("return document.querySelector('.looked')?.innerText.includes('the person was added')", "what looking found", seconds=30)
        want_in("permit renew-token", clerk.text("main"), "how a token is renewed")
        clerk.click_button("Show the slip")
        clerk.sees("lost lost 8los tlos t8", "Somebody was added")
        resident.wait("return document.querySelector('.looked')?.innerText.includes('There is a file like this one')", "the file that was filed", seconds=30)
        want(office.ask("GET", "/files")[1].count("Lost on the way"), 1, "it is filed once")
        hanging.held = ()
        clerk.open("people")
        clerk.fill("Add a person", name="Lost", role="public", token=token)
        clerk.submit("Add a person")
        want_in("Token: Somebody has this token already.", clerk.answered(), "adding once more")
        resident.close()
        clerk.close()
    finally:
        proxy.close()
        hanging.close()
        folder.cleanup()


def try_small_sounds(people, office):
    """What is left of a text is read out after a pause alone, and the warning of idleness takes no focus and needs its button."""
    resident = people["public"]
    resident.open("apply/1")
    resident.fill("File an application", description="x" * 1900)
    field = resident.browser.by_script("return document.querySelector('textarea')")
    heard = "return document.querySelector('textarea').closest('.field').querySelector('[role=status]').textContent"
    resident.browser.script("window.heard = []; const at = document.querySelector('textarea').closest('.field').querySelector('[role=status]');"
                            "new MutationObserver(() => heard.push(at.textContent)).observe(at, {childList: true, characterData: true, subtree: true})")
    resident.browser.type(field, "abcdefgh")
    resident.wait(f"return (() => {{ {heard} }})().startsWith('92 letters left')", "what is left, once")
    want(len(resident.browser.script("return window.heard")) <= 2, True, "each letter is not read out")
    want(resident.browser.script("return document.querySelector('.length').ariaHidden"), "true", "the count that is seen")
    resident.browser.script("window.realNow ??= Date.now; Date.now = () => window.realNow() + 14.2 * 60000")
    resident.wait("return document.querySelector('.warning') !== null", "the warning")
    want(resident.browser.script("return [document.activeElement.tagName, document.querySelector('.warning').role]"), ["TEXTAREA", "alert"], "the focus stays")
    resident.browser.type(field, "y")
    want(resident.text(".warning") is None, False, "a key doesn't dismiss the warning")
    resident.click_button("Stay signed in")
    want(resident.text(".warning"), None, "its button does")
    resident.reload()
    want(resident.browser.script(SETTLED), True, "the page")
    want(TOKENS["public"] in resident.browser.script("return location.href"), False, "no token in an address")
