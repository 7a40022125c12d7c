"""Files past their deadline, revoked and stopped: on the screen, in print, and in the official's overview."""
import json
import tempfile
from datetime import date, timedelta

from office_and_people import DEPARTMENT, TODAY, Person, want, want_in
from page_life import file_in_work
from page_papers import A4, flat, printed, shown_day

EPOCH = date(1970, 1, 1)


def file_at(office, number):
    return json.loads(office.ask("GET", f"/files/{number}")[1])


def try_ended_permits(people, office):
    """A permit that was revoked or is stopped says so, large, with the day, and doesn't say that the work is permitted."""
    resident, today = people["public"], shown_day(TODAY)
    for word, action, body in (("REVOKED", "revoke", {"text": "Another parcel's plans"}), ("STOP WORK", "stop", {"text": "Unsafe", "conditions": "A rail"})):
        number = file_in_work(office)
        resident.open(f"files/{number}/papers/1")
        want_in("The work described above is permitted.", resident.text(".sheet"), "a permit in force")
        office.do(f"/files/{number}/{action}", body)
        resident.open(f"files/{number}/papers/1")
        large = resident.browser.script("const at = document.querySelector('.sheet .stamp .word'); return [at.innerText, parseFloat(getComputedStyle(at).fontSize)]")
        want((large[0], large[1] > 24), (word, True), "the word, large")
        for text in (resident.text(".sheet"), printed(resident, f"a permit: {word}", [word, f"since {today}"])):
            want("is permitted" in text, False, f"a permit: {word}")
        if action == "revoke":
            resident.open(f"files/{number}")
            resident.sees(f"The permit was revoked on {today}.", "Another parcel's plans", "File this again")
    office.do(f"/files/{number}/lift")
    resident.open(f"files/{number}/papers/1")
    want_in("The work described above is permitted.", resident.text(".sheet"), "a permit whose order was lifted")


def try_printed_views(people, office):
    """A file and a list are printed with the letterhead and all that is in them, and without what is to be clicked."""
    official = people["official"]
    number = file_in_work(office, step="frame", description="Printed as a whole")
    office.do(f"/files/{number}/notice", {"text": "A post on sand"}, "inspector")
    official.open(f"files/{number}")
    text = printed(official, "a file", [DEPARTMENT["name"], *DEPARTMENT["address"], "Printed as a whole", "Correction notice, open", "A post on sand"], None)
    for control in ("Revoke the permit", "What you can do", "Add the deadline", "Print paper", "In the place of somebody else"):
        want(control in text, False, f"a printed file has {control}")
    files = json.loads(office.ask("GET", "/files")[1])["files"]
    for place, wanted in (("files", [file["id"] for file in files]), ("files?stage=filed", [file["id"] for file in files if file["stage"] == "filed"])):
        official.open(place)
        with tempfile.TemporaryDirectory() as folder:
            pages = official.browser.print_pages(folder, *A4)
        text = flat(" ".join(pages))
        want_in(DEPARTMENT["name"], text, "the letterhead of a list")
        want_in(f"{len(wanted)} of {len(files)} files", text, "the count of a list")
        rows = [line.split()[0] for page in pages for line in page.splitlines() if line.split()[:1] and line.split()[0].isdigit()]
        want([number for number in wanted if str(number) not in rows], [], f"the rows of {place}")
        want("Saved lists" in text or "Download" in text, False, "a printed list has its controls")


def rows_of(office, name):
    """A register's rows, each by its heads."""
    head, *rows = [line.split() for line in office.ask("GET", f"/registers/{name}")[1].splitlines()[:-1]]
    return [dict(zip(head, row)) for row in rows]


def days_of(text):
    return (date.fromisoformat(text) - EPOCH).days


def counts_of(office, day):
    """The counts of the official's overview, from the registers, and what isn't there from the files."""
    files, due, inspections = (rows_of(office, name) for name in ("files", "deadlines", "inspections"))
    listed = json.loads(office.ask("GET", "/files")[1])["files"]
    today = (day - EPOCH).days
    open_or_past = {"filed", "review", "returned", "approved", "issued", "working", "abandoned", "lapsed"}
    return {
        "Waiting for review": sum(row["STAGE"] in ("filed", "review") for row in files),
        "Waiting for an inspection": sum(row["REQUESTED"] != "-" for row in inspections),
        "Extension requests to answer": sum(file["ask"] is not None and file["stage"] in open_or_past for file in listed),
        "Past their deadline": sum(row["TIMING"] == "past" for row in due),
        "Lapsed in the last 30 days": sum(row["STAGE"] == "lapsed" and days_of(row["DEADLINE"]) + 1 > today - 30 for row in due),
        "Under a stop work order": sum(file["stopped"] for file in listed),
        "Temporary certificates that end within 14 days": sum(
            file["temporary"] is not None and file["stage"] != "certified" and today <= file["temporary"] <= today + 14 for file in listed),
    }


OVERVIEW = """return Object.fromEntries([...document.querySelectorAll('.overview a')].map(at =>
  [at.textContent.replace(/^[\\d,]+ /, ''), [Number(at.querySelector('strong').textContent.replace(',', '')), at.getAttribute('href')]]))"""


def try_overview(people, office, day=TODAY):
    """The official's counts are those of the registers, and each leads to a list of as many files."""
    official = people["official"]
    if day == TODAY:
        for days in (14, 15):
            office.do(f"/files/{file_in_work(office, 'alter')}/temporary", {"days": days, "text": "Ground floor"})
    official.open("waiting")
    shown = official.browser.script(OVERVIEW)
    want({label: count for label, (count, _) in shown.items()}, counts_of(office, day), "the counts of the overview")
    for label, (count, href) in shown.items():
        official.open(href[2:])
        official.wait("return document.querySelector('main .lead').textContent.startsWith(arguments[0])", label, f"{count:,} of ")


def prepare(office):
    """Files that end at their deadline, which is 180 days from today: an application, a permit, and one with an ask."""
    asked = office.do("/files", {"parcel": 1, "kind": "repair", "valuation": 4200, "description": "Asked for too late"}, "public")
    office.do(f"/files/{asked}/ask-extension", {"days": 9, "text": "Rain"}, "public")
    lapsing = file_in_work(office, description="Lapsing")
    temporary = file_in_work(office, "alter", description="Lives there already")
    office.do(f"/files/{temporary}/temporary", {"days": 180, "text": "Ground floor"})
    return asked, lapsing, temporary


def try_ended(people, office):
    """Past a deadline the one who applied reads what happened, when, and what to do; under the standard policy, why a file is missing."""
    resident, official = people["public"], people["official"]
    asked, lapsing, _ = office.ending
    last, since = (shown_day(TODAY + timedelta(days=days)) for days in (180, 181))
    resident.open(f"files/{asked}")
    resident.sees("Abandoned", f"No permit was issued by {last}.", f"counts as abandoned since {since}", "9 days that was asked for was not granted",
                  "More time can't be given any more.", "File this again")
    resident.open(f"files/{lapsing}")
    resident.sees("Lapsed", last, f"holds no longer since {since}", "No work may go on under this permit")
    resident.waits(lapsing, "My files that ended at their deadline")
    resident.open(f"files/{lapsing}/papers/1")
    want_in("LAPSED", resident.text(".sheet .stamp .word"), "the word on a lapsed permit")
    text = printed(resident, "a lapsed permit", ["LAPSED", f"since {since}"])
    want("is permitted" in text, False, "a lapsed permit")
    resident.open(f"files/{asked}")
    resident.browser.click(resident.browser.by_script("return [...document.querySelectorAll('main a')].find(at => at.textContent === 'File this again')"))
    resident.wait("return document.querySelector('main form')?.elements.description.value === 'Asked for too late'", "the form as it was")
    values = resident.browser.script("return [...document.querySelector('main form').elements].filter(at => at.name).map(at => at.value)")
    want(values, ["1", "repair", "42.00", "Asked for too late"], "what is filed again")
    official.reload()
    want_in(f"File {asked}", official.waits(asked, "Extensions asked for"), "an ask past its deadline")
    try_overview(people, office, TODAY + timedelta(days=181))
    official.open("registers/deadlines")
    left = official.browser.script("return [...document.querySelectorAll('td.at-left')].map(at => Number(at.textContent))")
    want((left, len(left) > 2), (sorted(left), True), "deadlines by the days left")
    near = [row["FILE"] for row in rows_of(office, "deadlines") if row["TIMING"] == "near"]
    official.open("registers/deadlines?TIMING=near")
    want_in(f"{len(near)} of", official.text("main .lead"), "deadlines that are near")
    office.policy = office.policy.parent / "standard.toml"
    office.restart(TODAY + timedelta(days=181))
    try:
        person = Person(resident.browser, office).sign_in("public")
        person.sees("A file may be missing once its deadline has passed")
        person.open(f"files/{lapsing}")
        person.sees("The deadline of this file has passed.", "file a new application", "ask the counter")
        want("Try again" in person.text("main"), False, "what stays denied isn't tried again")
        person.close()
    finally:
        office.policy = office.policy.parent / "department.toml"
        office.restart(TODAY + timedelta(days=181))
