"""What people see is how it is now: lists that are read anew, what is said after a command, narrowed lists in the address."""
import json
import tomllib

from office_and_people import SETTLED, TOP, Person, want, want_in
from page_life import file_in_work
from page_lost import sign_in_here

COUNT = "return document.querySelector('main .lead').textContent"
SHOWN = "return [...document.querySelectorAll('tbody td.at-id a')].map(at => Number(at.textContent.slice(5)))"


def count_of(person, number):
    person.wait(f"{COUNT}.startsWith(arguments[0])", "the count", f"{number} of {number} file")


def try_fresh_lists(people, office):
    """Two people have the same list: a visit and a click on the place where one is read it anew, and Back shows it as it was."""
    official, clerk = people["official"], people["clerk"]
    number = file_in_work(office, step="frame")
    for person in (official, clerk):
        person.open("files")
        count_of(person, number)
    office.do("/files", {"parcel": 1, "kind": "repair", "valuation": 1, "description": "Filed meanwhile"}, "public")
    for person in (official, clerk):
        person.click_link("All files")
        count_of(person, number + 1)
    official.open_again(f"files/{number}")
    office.do("/files", {"parcel": 1, "kind": "repair", "valuation": 1, "description": "Filed later"}, "public")
    official.back("files")
    count_of(official, number + 1)
    official.sees("The list was read at")
    official.click_link("All files")
    count_of(official, number + 2)
    official.open_again(f"files/{number + 2}")
    official.fill("Assign a reviewer", party="3")
    official.submit("Assign a reviewer")
    want(official.answered(), f"Party 3, Rita Vogel, reviews file {number + 2}.", "what was changed")
    official.open_again("waiting")
    official.click_link("Waiting")
    official.sees("The office today")
    clerk.open("people")
    clerk.fill("Add a person", name="Fay", role="public")
    clerk.submit("Add a person")
    clerk.wait("return document.querySelector('main .slip') !== null", "the slip")
    clerk.click_link("People")
    clerk.wait("return document.querySelector('main .slip') === null && document.querySelector('main form') !== null", "the form again")


def try_what_is_said(people, office):
    """After a command the page is at its top with the focus on its heading, and says what was changed, until it is dismissed."""
    clerk = people["clerk"]
    first, second = (office.do("/files", {"parcel": 1, "kind": "repair", "valuation": 1, "description": "Waits"}, "public") for _ in range(2))
    clerk.open("files?sort=id&down")
    clerk.browser.click(clerk.browser.by_script("return [...document.querySelectorAll('tbody a')].find(at => at.textContent === arguments[0])", f"File {second}"))
    clerk.wait("return document.querySelector('main h1').textContent === arguments[0]", "the file", f"File {second}: Repair")
    clerk.fill("Assign a reviewer", party="3")
    clerk.browser.script("scrollTo(0, document.body.scrollHeight)")
    clerk.submit("Assign a reviewer")
    want(clerk.answered(), f"Party 3, Rita Vogel, reviews file {second}.", "what was changed")
    clerk.wait(SETTLED, "the file")
    place = clerk.browser.script("const at = document.activeElement, box = at.getBoundingClientRect();"
                                 "return [scrollY, at.tagName, box.top >= 0 && box.bottom <= innerHeight]")
    want(place, [0, "H1", True], "the focus on a heading that is seen")
    want_in(f"Next file: {first}", clerk.text("#said"), "the next file of the list")
    clerk.click_button("Dismiss")
    want(clerk.text("#said"), "", "the message once it is dismissed")
    clerk.submit("Assign a reviewer")
    clerk.wait("return document.querySelector('.refusal') !== null", "a fault")
    want(clerk.text("#said"), "", "no message beside a fault")
    clerk.open_again("waiting")
    want(clerk.text("#said"), "", "no message in another place")
    reviewer = people["reviewer"]
    reviewer.open(f"files/{second}")
    reviewer.submit("Start the review")
    want(reviewer.answered(), f"The review of file {second} has begun.", "what was changed")
    reviewer.wait("return [...document.querySelectorAll('#said button')].some(at => at.textContent === 'Next: Approve the plans')", "the next step")
    reviewer.click_button("Next: Approve the plans")
    want(reviewer.browser.script("return document.activeElement.textContent"), "Approve the plans", "where the next step leads")


def check_saved(clerk):
    """The list that is shown is saved by a name, found again, and removed."""
    clerk.browser.script("document.querySelector('.saved').open = true")
    clerk.type_text(".saved input", "Files of Rita")
    clerk.click_button("Save")
    clerk.open("files")
    saved = clerk.browser.script("return [...document.querySelectorAll('.saved-lists a')].map(at => [at.textContent, at.getAttribute('href')])")
    want(saved, [["Files of Rita", "#/files?text=vogel&sort=filed"]], "the saved lists")
    clerk.browser.script("document.querySelector('.saved').open = true")
    clerk.click_button("remove")
    want(clerk.browser.script("return [...document.querySelectorAll('.saved-lists a')].length + localStorage.length"), 1, "a list that was removed")


def check_by_name(clerk, office, files):
    """The files of a reviewer by name, sorted, which their address and a saved list keep."""
    clerk.type_text(".narrowing input[type=search]", "vogel")
    mine = [file["id"] for file in files if file["reviewer"] == 3]
    clerk.wait(f"{COUNT} === arguments[0]", "the files of a reviewer by name", f"{len(mine)} of {len(files)} files")
    clerk.click_column("Filed")
    want(clerk.browser.script("return location.hash"), "#/files?text=vogel&sort=filed", "the address keeps it")
    check_saved(clerk)
    other = Person(clerk.browser, office)
    other.browser.script("location.hash = '#/files?text=vogel&sort=filed'")
    sign_in_here(other, "clerk")
    other.wait(f"{COUNT} === arguments[0]", "the same list by its address", f"{len(mine)} of {len(files)} files")
    oldest = [file["id"] for file in sorted(files, key=lambda file: file["filed"]) if file["reviewer"] == 3]
    shown = other.browser.script(SHOWN)
    want((shown, len(shown) > 1), (oldest[:len(shown)], True), "oldest first")
    other.close()


def try_searches(people, office):
    """A list is found by a number, by words in any order and by a name, and its address keeps how it is narrowed and sorted."""
    clerk = people["clerk"]
    number = office.do("/files", {"parcel": 2, "kind": "demolish", "valuation": 1, "description": "Garage by the brook"}, "public")
    office.do(f"/files/{number}/assign-reviewer", {"party": 3})
    files = json.loads(office.ask("GET", "/files")[1])["files"]
    clerk.open("files?stage=filed&kind=demolish&sort=filed")
    want(clerk.browser.script(SHOWN), [file["id"] for file in files if (file["stage"], file["kind"]) == ("filed", "demolish")], "by the address")
    for typed, wanted in (("file 1", [1]), ("#1", [1]), ("brook garage", [number]), ("ST high brook", [number])):
        clerk.open("files")
        clerk.type_text(".narrowing input[type=search]", typed)
        clerk.wait(f"return JSON.stringify((() => {{ {SHOWN} }})()) === arguments[0]", f"what {typed} finds", json.dumps(wanted).replace(" ", ""))
    check_by_name(clerk, office, files)
    clerk.open("waiting")
    want(clerk.browser.script("return [...document.querySelectorAll('main *')].filter(at => at.scrollHeight > at.clientHeight + 1"
                              " && ['auto', 'scroll'].includes(getComputedStyle(at).overflowY)).length"), 0, "lists in what waits don't scroll by themselves")


# The words of the page for what the policy forbids to whom declared an interest.
FORBIDDEN = {"start-review": "start a review", "return": "return,", "approve-plans": "approve", "reject": "reject plans", "issue": "issue a permit",
             "approve-step": "approve an inspection", "notice": "give or clear a notice", "clear-notice": "clear a notice", "temporary": "give a certificate",
             "certify": "give a certificate"}


def check_text(person, number, label, parts, **values):
    """What is asked once more before a command is sent, which is then left."""
    person.open(number if isinstance(number, str) else f"files/{number}")
    person.fill(label, **values)
    person.press_submit(label)
    said = person.wait("return document.querySelector('.check:not([hidden])')?.innerText", label)
    for part in parts:
        want_in(part, said, label)
    person.click_button("Go back")
    return said


def try_what_follows(people, office):
    """What can't be taken back is asked once more, with a sentence of what will follow by the rules."""
    official, inspector, clerk = people["official"], people["inspector"], people["clerk"]
    number = file_in_work(office, step="frame")
    check_text(inspector, number, "Order the work stopped", ["has to stop", "can be given", "deadline runs on", "Only the building official can lift"],
               text="Unsafe", conditions="Rail")
    check_text(inspector, number, "Give a correction notice", ["the inspection of frame is closed", "can't be approved before this notice is cleared"], text="Nail")
    rules = tomllib.loads((TOP / "policies/standard.toml").read_text())["rule"]
    denied = next(rule for rule in rules if rule["name"] == "no-conflict")["action"]
    want(sorted(FORBIDDEN), sorted(denied), "what the policy forbids")
    for person in (official, clerk, inspector):
        said = check_text(person, "parcels/2", "Declare an interest in this parcel", ["2 High St"])
        forbids, _, allows = said.partition("It forbids neither")
        want([part for part in FORBIDDEN.values() if part not in forbids], [], "what is forbidden")
        for part in ("stop", "revoke", "lift a stop work order", "answer an extension request"):
            want_in(part, allows, "what is not forbidden")
    check_text(clerk, "parcels/2", "Transfer this parcel", ["Parcel 2 belongs to party 5 from now on"], to="5")
    asked = file_in_work(office)
    office.do(f"/files/{asked}/ask-extension", {"days": 10, "text": "Rain"}, "public")
    check_text(official, asked, "Refuse the extension", ["The deadline stays", "can ask again"], text="No")
    resident = people["public"]
    resident.open("apply/2")
    resident.sees("This is not your parcel.")
    said = check_text(resident, "apply/2", "File an application", ["This is not your parcel."], kind="repair", valuation="1", description="Roof")
    want_in("Repair", said, "the check before filing")


# What each role does, by the standard policy and the rules: the commands of a file that the page shows it.
def acting(role):
    rules = tomllib.loads((TOP / "policies/standard.toml").read_text())["rule"]
    mine = [rule for rule in rules if rule["effect"] == "allow" and role in rule.get("role", [])]
    return {action for rule in mine for action in rule.get("action", [])}


LABELS = {"assign-reviewer": "Assign a reviewer", "assign-inspector": "Assign an inspector", "name-contractor": "Name the contractor",
          "start-review": "Start the review", "return": "Return the plans for changes", "approve-plans": "Approve the plans", "reject": "Reject the plans",
          "resubmit": "Send the plans again", "ask-extension": "Ask for more time", "begin-work": "Begin the work",
          "request-inspection": "Request an inspection", "approve-step": "Approve a step", "notice": "Give a correction notice",
          "clear-notice": "Clear a correction notice", "stop": "Order the work stopped"}


def try_own_commands(people, office):
    """Each role sees its own commands and no other, and nobody is sent to themselves."""
    number = file_in_work(office)
    for role in ("clerk", "reviewer", "inspector", "public"):
        person = people[role]
        person.open(f"files/{number}")
        person.browser.script("document.querySelectorAll('details').forEach(at => { at.open = true; })")
        shown = person.browser.script("return [...document.querySelectorAll('.command > summary, .others li strong')].map(at => at.textContent)")
        want(sorted(shown), sorted(LABELS[action] for action in acting(role) if action in LABELS), f"the commands of the {role}")
        want("you can ask for more time" in person.text("main").lower(), False, "untilOf under a permit")
    parcel = office.do("/parcels", {"lot": "F-1", "address": "1 Far St", "owner": 5}, "clerk")
    filed = office.do("/files", {"parcel": parcel, "kind": "repair", "valuation": 1, "description": "For staff"}, "public")
    people["clerk"].open(f"files/{filed}")
    people["clerk"].sees("The applicant can ask for more time until then.")
    people["public"].open(f"files/{filed}")
    people["public"].sees("You can ask for more time until then.")
    people["clerk"].view("reviewer")
    people["clerk"].refused(filed, "Start the review", ["Refused. The policy of the office denies this."])
    want_in("ask the clerk whose part it is", people["clerk"].text(".refusal"), "whom a reviewer asks")
    people["clerk"].view("clerk")
    for path in ("waiting", "parcels", f"files/{filed}"):
        people["clerk"].open(path)
        want("ask the clerk" in people["clerk"].text("main"), False, "a clerk is sent to the clerk")
