"""The tasks of five people, end to end, with the places that they see, and what goes wrong between them."""
import re
from datetime import timedelta

import webdriver
from office_and_people import TODAY, TOKENS, Person, want, want_in

PEOPLE = ["official", "clerk", "reviewer", "inspector", "public"]
# The parcel of the life, as a reader meets it, and one that is the official's.
PLACE, OTHERS_PLACE = "Parcel 1, lot C-7, 1 Main St", "Parcel 2, lot C-8, 2 High St"


def add_party(person, number, name, view, said):
    """Somebody new is shown with the name and the token, this once, on a slip."""
    person.open("people")
    person.fill("Add a person", name=name, role=view, token=f" {TOKENS[view][:4]} {TOKENS[view][4:]} ")
    person.submit("Add a person")
    person.wait("return document.querySelector('main h1').textContent === arguments[0]", "the slip", f"Party {number} was added")
    in_fours = " ".join(re.findall(".{1,4}", TOKENS[view]))
    for part in (name, said, f"party {number}", in_fours, f"{person.office.url}/office/"):
        want_in(part, person.text(".slip"), "the slip")
    person.open("waiting")
    left = person.browser.script("return document.documentElement.outerHTML")
    want([part for part in (TOKENS[view], in_fours) if part in left], [], "the token is shown once")


def people_of(browser, office):
    """Five people, each signed in on a tab: those that aren't there yet are added by the page."""
    people = {"official": Person(browser, office).sign_in("official")}
    for number, view in enumerate(("clerk", "reviewer", "inspector"), 2):
        add_party(people["official"], number, view.title(), view, view.title())
    people["clerk"] = Person(browser, office).sign_in("clerk")
    add_party(people["clerk"], 5, "Sam", "public", "Resident")
    people["clerk"].open("parcels")
    want(people["clerk"].send("Add a parcel", lot=" c-7 ", address="1 Main St", owner=" 5 "), "Parcel 1 was added.", "a parcel as it is typed")
    people["clerk"].sees("C-7", "1 Main St", "party 5")
    office.do("/parcels", {"lot": "C-8", "address": "2 High St", "owner": 2}, "clerk")
    for view in ("reviewer", "inspector", "public"):
        people[view] = Person(browser, office).sign_in(view)
    return people


def file_by_page(resident, office):
    """Filing shows the place as soon as the number is typed, and everything once before it is sent."""
    resident.open("apply")
    resident.fill("File an application", parcel="2")
    resident.sees("This is not your parcel.")
    resident.fill("File an application", parcel="77")
    resident.sees("There is no file or parcel with this number.")
    resident.fill("File an application", parcel=" 1", kind="alter", valuation="$250,000.50 ", description="New kitchen")
    resident.sees(PLACE, "1,989 letters left")
    asked = resident.submit("File an application")
    for part in ("Check what you send.", PLACE, "Alter", "frame, energy, lath, final", "$250,000.50", "New kitchen", "180 days"):
        want_in(part, asked, "everything is shown before it is sent")
    want(resident.answered(), "File 1 was filed.", "filing")
    resident.wait("return document.querySelector('main h1').textContent === 'File 1: Alter'", "the new file")
    resident.sees("$250,000.50", PLACE)
    want(office.ask("GET", "/files")[1].count('"id"'), 1, "one file is filed")


def try_a_life(people, office):
    """A file goes from its filing to its certificate, each part of it by the one whose part it is, who sees the place."""
    official, clerk, reviewer, inspector, resident = (people[view] for view in PEOPLE)
    file_by_page(resident, office)
    resident.sees("You have nothing to do now.", "The permit has to be issued by")
    waits_at(clerk, "Filed, without a reviewer")
    clerk.command(1, "Assign a reviewer", party="3")
    clerk.open("files/1")
    clerk.form("Assign a reviewer")
    clerk.sees("Now the reviewer is party 3, Rita Vogel. You name another in their place.", PLACE)
    waits_at(reviewer, "Filed, for a review to start")
    reviewer.command(1, "Start the review")
    waits_at(reviewer, "In review")
    reviewer.command(1, "Return the plans for changes", text="Which wall comes out?")
    resident.open("waiting")
    resident.sees("Answer the reviewer", PLACE)
    resident.command(1, "Send the plans again", text="The one to the hall")
    asked = reviewer.command(1, "Approve the plans")
    for part in ("The plans of file 1 are approved as they are.", "This can't be taken back.", PLACE, "New kitchen"):
        want_in(part, asked, "what will be so")
    waits_at(clerk, "Plans approved, without an inspector")
    clerk.command(1, "Assign an inspector", party="4")
    waits_at(official, "Plans approved, for a permit")
    want_in("The permit of file 1 is issued today.", official.command(1, "Issue the permit"), "what will be so")
    resident.open("files/1")
    resident.sees("Begin the work, and say here that it has begun.", "Do this by", "or the permit lapses.")
    resident.command(1, "Begin the work")
    work_and_inspect(official, inspector, resident)
    waits_at(official, "Work approved, for a certificate")
    want_in("may be occupied from today, for good", official.command(1, "Give the certificate"), "what will be so")
    resident.open("files/1")
    want_in("Certified\nnow", resident.text("ol.way:has(.certified)"), "the way has ended")
    want(resident.browser.script("return document.querySelectorAll('ol.papers li').length"), 7, "the papers of a life")


def waits_at(person, title):
    """File 1 waits for somebody, with its place."""
    person.waits(1, title)
    person.sees(PLACE)


def work_and_inspect(official, inspector, resident):
    """The inspections of the work, with a notice and an extension on the way."""
    resident.sees("Request the inspection of frame once the work is ready for it.")
    resident.command(1, "Request an inspection")
    waits_at(inspector, "Requested inspections")
    want_in("Frame, since", inspector.text("main"), "the step that is requested")
    inspector.open("day")
    inspector.sees("1 Main St, lot C-7, parcel 1", "Frame: File 1, alter")
    inspector.open("files/1")
    inspector.sees(f"Frame is to be inspected at {PLACE}.")
    inspector.command(1, "Give a correction notice", text="Two studs are cracked")
    waits_at(inspector, "Open notices")
    resident.command(1, "Request an inspection")
    want_in("Two studs are cracked", resident.text("section.against"), "an open notice comes first")
    inspector.open("files/1")
    inspector.sees("What can't be done now")
    inspector.browser.script("document.querySelector('details.others').open = true")
    inspector.sees("Approve a step: A correction notice is open.")
    inspector.command(1, "Clear a correction notice")
    want_in("The inspection of frame is approved", inspector.command(1, "Approve a step"), "what will be so")
    resident.command(1, "Ask for more time", days="30", text="Snow")
    waits_at(official, "Extensions asked for")
    want_in("The deadline moves by 30 days", official.command(1, "Grant the extension"), "what will be so")
    for step in ("energy", "lath", "final"):
        resident.command(1, "Request an inspection")
        asked = inspector.command(1, "Approve a step")
    want_in("All of the work on file 1 is approved.", asked, f"what is so with the step {step}")


def file_in_work(office, kind="repair", step=None, **more):
    """A file in work, made without the page; with a step, its inspection is requested."""
    body = {"parcel": 1, "kind": kind, "valuation": 100, "description": "Roof", **more}
    number = office.do("/files", body, "public")
    for path, body in (("assign-reviewer", {"party": 3}), ("start-review", None), ("approve-plans", None), ("issue", None),
                       ("assign-inspector", {"party": 4}), ("begin-work", None)):
        office.do(f"/files/{number}/{path}", body)
    if step:
        office.do(f"/files/{number}/request-inspection", {"step": step}, "public")
    return number


def try_a_denial(people, office):
    """Who may not do it reads that it is denied and which rule does it, and goes on; an empty list says why."""
    number = file_in_work(office)
    people["public"].view("official")
    people["public"].refused(number, "Revoke the permit", ["Refused. The policy of the office denies this."], text="No")
    want("default" in people["public"].text(".refusal"), False, "the rule is told on request alone")
    people["public"].browser.script("document.querySelector('.refusal details').open = true")
    want_in("The rule: default", people["public"].text(".refusal"), "the rule on request")
    people["public"].view("public")
    people["clerk"].open("parcels/1")
    asked = people["clerk"].submit("Declare an interest in this parcel")
    want_in(PLACE, asked, "what will be so")
    want(people["clerk"].answered(), "Your interest in parcel 1 is declared.", "declaring")
    people["clerk"].open("parcels/1")
    want_in("You declared an interest in this parcel before.", people["clerk"].send("Declare an interest in this parcel"), "declaring again")
    people["official"].open("files/99")
    want_in("There is no file or parcel with this number.", people["official"].text("main"), "a file that isn't there")
    people["public"].open("parcels/2")
    want_in("The lot and the address of parcel 2 are not open to you.", people["public"].text("main"), "a parcel that may not be read")
    want("Transfer this parcel" in people["public"].text("main"), False, "what is no part of a resident's")
    people["reviewer"].open("parcels/2")
    people["reviewer"].sees("2 High St")


# How often a parcel was asked by this page since it was read.
ASKED = "return performance.getEntriesByType('resource').filter(at => new URL(at.name).pathname === arguments[0]).length"


def try_parcels(people, office):
    """Parcels are found by lot or by address, with their files, and each is asked once."""
    clerk = people["clerk"]
    file_in_work(office)
    office.do("/files", {"parcel": 1, "kind": "repair", "valuation": 1, "description": "Waits for a reviewer"}, "public")
    clerk.reload()
    for place in ("parcels", "files", "waiting", "files/1", "registers/files"):
        clerk.open_again(place)
        clerk.sees("1 Main St")
    want(clerk.browser.script(ASKED, "/parcels/1"), 1, "how often a parcel was asked")
    clerk.open_again("parcels")
    for typed, wanted, other in (("c-8", "2 High St", "1 Main St"), ("main", "1 Main St", "2 High St")):
        clerk.type_text(".field input[type=search]", typed)
        clerk.sees("1 of ", wanted)
        want(other in clerk.text(".scroller"), False, f"what is found by {typed}")
    clerk.browser.click(clerk.browser.find(".scroller a"))
    clerk.sees("Files on this parcel", "Roof")


def try_a_number_alone(people, office):
    """Under the standard policy a reviewer reads no parcel: the number stands alone, with the reason on request."""
    number = office.do("/files", {"parcel": 1, "kind": "repair", "valuation": 100, "description": "Gate"}, "public")
    office.do(f"/files/{number}/assign-reviewer", {"party": 3}, "clerk")
    office.policy = office.policy.parent / "standard.toml"
    office.restart()
    try:
        reviewer = Person(people["reviewer"].browser, office).sign_in("reviewer")
        reviewer.open(f"files/{number}")
        reviewer.sees("Parcel 1 why no address?")
        want("1 Main St" in reviewer.text("main"), False, "the address of a parcel that may not be read")
        reviewer.click_button("why no address?")
        want_in("The lot and the address of parcel 1 are not open to you. No rule allows it to you here.", reviewer.text("#said"), "the reason")
        reviewer.open("parcels")
        reviewer.sees("No parcel is there yet, or the policy of the office lets you read none.")
    finally:
        office.policy = office.policy.parent / "department.toml"
        office.restart()


def try_a_stop(people, office):
    """A stop work order comes first, stands against the work, and is lifted."""
    number = file_in_work(office)
    people["public"].open(f"files/{number}")
    people["inspector"].command(number, "Order the work stopped", text="Unsafe scaffold", conditions="A rail all round")
    want_in("A stop work order stands.", people["public"].send("Request an inspection"), "a file that was read before the order")
    people["public"].open(f"files/{number}")
    for words in ("Stop work order", "Unsafe scaffold", "A rail all round"):
        want_in(words, people["public"].text("section.against"), "the order and its conditions")
    people["public"].sees("Stop the work. Do what the stop work order asks")
    people["official"].waits(number, "Stop work orders")
    people["official"].command(number, "Lift the stop work order")
    people["public"].command(number, "Request an inspection")
    people["public"].browser.script("document.querySelector('details.others').open = true")
    people["public"].sees("Begin the work: Not in the stage work under way, only in: permit issued.")


HOSTILE = [
    "<script>window.broken = 1</script><img src=x onerror='window.broken = 1'>",
    "\"'`&lt;b&gt;${1}{{2}}</textarea></main>",
    "\u202eover\u202d \u2067right to left \u05e9\u05dc\u05d5\u05dd \u200f\u0645\u0631\u062d\u0628\u0627",
    "javascript:alert(1) \\u003cb\\u003e \ufeff\u2028 e\u0301 \U0001f3d7\ufe0f",
    "W" * 2000,
    "\u00e9" * 1000,
]
BY_PAGE = HOSTILE[0], HOSTILE[2]
SAID = "return [...document.querySelectorAll('main .said')].map(at => at.textContent)"
# The letters of an element that are outside of what somebody wrote, by where they are seen: from left to right, line by line.
TURNED = """
const walker = document.createTreeWalker(document.querySelector(arguments[0]), NodeFilter.SHOW_TEXT), range = document.createRange();
let last = null, turned = 0;
while (walker.nextNode()) {
  const node = walker.currentNode;
  if (node.parentElement.closest('.said')) continue;
  for (let at = 0; at < node.length; at += 1) {
    range.setStart(node, at); range.setEnd(node, at + 1);
    const box = range.getClientRects()[0];
    if (!box || !box.width) continue;
    if (last && box.top < last.bottom - 2 && box.bottom > last.top + 2 && box.left < last.left) turned += 1;
    last = box;
  }
}
return [last !== null, turned];
"""


def hostile_file(people, office, place, text):
    """A parcel and a file with a text in each place that takes one; their numbers."""
    clerk, resident = people["clerk"], people["public"]
    clerk.open("parcels")
    parcel = int(re.search(r"Parcel (\d+) was added", clerk.send("Add a parcel", lot=f"H-{place}", address=text, owner="5"))[1])
    clerk.wait("return document.querySelector('main h1').textContent === arguments[0]", "the new parcel", f"Parcel {parcel}")
    clerk.wait("return document.querySelector('main dl .said') !== null", "its facts")
    want(clerk.browser.script(SAID), [f"H-{place}", text], "an address")
    resident.open(f"apply/{parcel}")
    said = resident.send("File an application", kind="repair", valuation="1", description=text)
    filed = int(re.search(r"File (\d+) was filed", said)[1])
    resident.wait("return document.querySelector('main h1').textContent === arguments[0]", "the new file", f"File {filed}: Repair")
    return parcel, filed


def hostile_papers(people, office, number, text, by_page):
    """A notice, a stop work order and an ask with a text, by the page or without it."""
    if by_page:
        people["inspector"].command(number, "Give a correction notice", text=text)
        people["inspector"].command(number, "Order the work stopped", text=text, conditions=text)
        people["public"].command(number, "Ask for more time", days="1", text=text)
    else:
        office.do(f"/files/{number}/notice", {"text": text}, "inspector")
        office.do(f"/files/{number}/stop", {"text": text, "conditions": text}, "inspector")
        office.do(f"/files/{number}/ask-extension", {"days": 1, "text": text}, "public")


def try_hostile_texts(people, office):
    """What others wrote is shown as text, letter by letter, in every field that comes back, and turns nothing around it."""
    official, resident = people["official"], people["public"]
    for place, text in enumerate(HOSTILE):
        parcel, filed = hostile_file(people, office, place, text)
        resident.wait("return document.querySelectorAll('.where .said').length === 2", "the place of the file")
        want(resident.browser.script(SAID), [text, *[f"H-{place}", text] * 2], "a description and an address")
        want(resident.browser.script(TURNED, ".where"), [True, 0], "an address turns what stands around it")
        number = file_in_work(office, "repair", "frame", parcel=parcel)
        hostile_papers(people, office, number, text, text in BY_PAGE)
        resident.open(f"files/{number}")
        shown = resident.browser.script("return [...document.querySelectorAll('.against .said, .papers .said')].map(at => at.textContent)")
        want(shown, [text] * 7, "texts of papers")
        want(resident.browser.script(TURNED, ".against"), [True, 0], "the text of a notice turns what stands around it")
        official.open("files")
        official.type_text("input[type=search]", f"{filed} {text[:40]}" if text.isascii() else text)
        official.wait("return [...document.querySelectorAll('td.at-text .said')].some(at => at.textContent === arguments[0])", "in the list", text)
        official.wait("return [...document.querySelectorAll('td.at-parcel .said')].some(at => at.textContent === arguments[0])", "the address", text)
        if len(text) < 200:
            want(official.browser.script(TURNED, "td.at-parcel"), [True, 0], "an address turns what stands around it in a table")
    for view in PEOPLE:
        people[view].use()
        want(people[view].browser.script("return [window.broken ?? null, document.querySelectorAll('main script, main img').length]"),
             [None, 0], f"no text became markup for the {view}")


def try_faults(people, _office):
    """What is wrong with a form stands above it, with a link to each field; a refusal names the field that is the cause."""
    resident, clerk = people["public"], people["clerk"]
    resident.open("apply/1")
    resident.fill("File an application", valuation="1.2.3", description="x" * 2001)
    resident.press_submit("File an application")
    want([line for line in resident.text(".refusal").splitlines() if line], [
        "There is a problem", "Kind of work: Choose one.", "Valuation of the work: Give an amount, such as 2500 or 2,500.00.",
        "Description of the work and the use: This is too long by 1. Shorten it."], "the summary")
    want(resident.browser.script("return document.title").startswith("Error: "), True, "the title says so too")
    resident.browser.click(resident.browser.find(".refusal li:nth-child(2) a"))
    want(resident.browser.script("return [document.activeElement.name, document.activeElement.ariaInvalid, location.hash]"),
         ["valuation", "true", "#/apply/1"], "a link of the summary leads to its field")
    clerk.open("parcels")
    want_in("Lot: A parcel of this lot is there already.", clerk.send("Add a parcel", lot="C-7", address="x", owner="5"), "a lot twice")
    want(clerk.browser.script("return document.querySelector('[aria-invalid=true]').name"), "lot", "the field of a refusal")
    clerk.open("parcels")
    want_in("Number of the owner: The party is not there", clerk.send("Add a parcel", lot="C-9", address="x", owner="999"), "nobody")


def try_two_who_approve(people, office):
    """Two have the same file open, and both approve the step: one is done, the other reads what happened."""
    number = file_in_work(office, step="frame")
    for view in ("inspector", "official"):
        people[view].open(f"files/{number}")
    want(people["inspector"].send("Approve a step"), f"The inspection of frame is approved on file {number}.", "who is first")
    want_in("Nothing is pending that this would answer.", people["official"].send("Approve a step"), "who is second")
    people["official"].click_button("Look again")
    people["official"].wait("return document.querySelector('main .next').innerText.includes('Request the inspection of final')",
                            "the file as it stands")
    number = office.do("/files", {"parcel": 1, "kind": "repair", "valuation": 100, "description": "Door"}, "public")
    office.do(f"/files/{number}/assign-reviewer", {"party": 3})
    office.do(f"/files/{number}/start-review", None, "reviewer")
    for view in ("reviewer", "official"):
        people[view].open(f"files/{number}")
    want(people["reviewer"].send("Approve the plans"), f"The plans of file {number} are approved.", "who is first")
    want_in("The file is not in a stage for this.", people["official"].send("Approve the plans"), "who is second")


def try_an_office_away(people, office):
    """The office goes away and comes back: nothing that was typed is lost, and the page goes on by itself."""
    resident = people["public"]
    number = file_in_work(office)
    resident.open(f"files/{number}")
    resident.fill("Ask for more time", days="20", text="Late windows")
    office.stop()
    resident.submit("Ask for more time")
    want_in("The office does not answer.", resident.answered(), "sending while the office is away")
    want_in("may or may not have been done", resident.answered(), "sending while the office is away")
    resident.browser.script("location.hash = '#/files'")
    resident.wait("return document.querySelector('main h1').textContent === \"This can't be shown\"", "reading while the office is away")
    office.start()
    resident.wait("return document.querySelector('main h1').textContent === 'All files'", "the office again, by itself")
    resident.open(f"files/{number}")
    form = {webdriver.ELEMENT: resident.form("Ask for more time")}
    typed = resident.browser.script("return [arguments[0].elements.days.value, arguments[0].elements.text.value]", form)
    want(typed, ["20", "Late windows"], "what was typed is there")
    resident.submit("Ask for more time")
    want(resident.answered(), f"20 days more are asked for on file {number}.", "sending once the office is back")
    office.restart(TODAY - timedelta(days=1))
    resident.open(f"files/{number}")
    want_in("The clock of the office is behind", resident.text("main"), "a clock that is behind")
    office.restart()


def try_an_empty_list(people, office):
    """Who has no file, or whose deadlines have passed, reads why nothing is there and whom to ask."""
    nobody = TOKENS["nobody"]
    office.do("/parties", {"name": "Nell", "role": "public", "token": nobody}, "clerk")
    person = people["public"]
    person.click_button("Sign out")
    person.sign_in("public", nobody)
    person.sees("You have no file under way.", "A file may be missing once its deadline has passed", "ask the counter")
    person.open("files")
    person.sees("A file may be missing once its deadline has passed")
    for name in ("files", "deadlines", "inspections"):
        person.open(f"registers/{name}")
        want(person.text("main .none") not in (None, "") and "that you see" in person.text("main .none") or name == "files", True, name)
    person.click_button("Sign out")
    person.sign_in("public")
