"""What goes out on paper and as files: documents and day sheets read back from their PDF, CSV and calendar entries."""
import csv
import io
import json
import re
import tempfile
import time
from datetime import date, timedelta
from pathlib import Path

from office_and_people import DEPARTMENT, TODAY, want, want_in
from page_life import file_in_work

# What no print has: controls of the page, its places and its foot.
CONTROLS = ["Sign out", "Skip to the content", "Waiting", "All files", "Registers", "Print", "Back to file", "Download", "View"]
A4 = (21.0, 29.7)
NOTE = "This is a print of what the department keeps"


def shown_day(day):
    """A date as the page writes it."""
    return f"{day.strftime('%b')} {day.day}, {day.year}"


def flat(text):
    """A text without its layout."""
    return " ".join(text.split())


def printed(person, what, parts, pages=1):
    """What is printed of a view: so many pages (None for any), with these parts and no control of the page, on Letter and A4."""
    with tempfile.TemporaryDirectory() as folder:
        for size in ((21.59, 27.94), A4):
            found = person.browser.print_pages(folder, *size)
            want(len(found), pages or len(found), f"{what}: its pages on paper of {size} cm")
            text = flat(" ".join(found))
            for part in parts:
                want_in(part, text, f"{what}: printed")
            for control in CONTROLS:
                want(re.search(rf"\b{control}\b", text.replace(NOTE, "")), None, f"{what}: a control is printed: {control}")
    return text


def print_paper(person, file, number, parts):
    """A paper of a file as it is printed: with the letterhead, whose it is, where it is, and a line to sign on."""
    person.open(f"files/{file}")
    person.browser.click(person.browser.by_script(
        "return document.querySelector(`.papers a[href='#/files/${arguments[0]}/papers/${arguments[1]}']`)", file, number))
    person.wait("return document.querySelector('main .sheet') !== null", f"paper {number}")
    always = [DEPARTMENT["name"], *DEPARTMENT["address"], f"Paper {number}", "Applicant party 5", "Lot C-7", "Signature of", "Date", NOTE,
              "not this print"]
    text = printed(person, f"paper {number}", parts)
    for part in always:
        # Terms are above their values: each word is wanted by itself.
        for word in part.split():
            want_in(word, text, f"paper {number}: printed")
    want_in("1 Main St", text, f"paper {number}: printed")
    return text


def life_of_papers(office):
    """A file that has a paper of each sort that somebody is owed; its number, and the days that the papers speak of."""
    body = {"parcel": 1, "kind": "alter", "valuation": 25000050, "description": "Dormer to the yard"}
    number = office.do("/files", body, "public")
    todo = [
        ("assign-reviewer", {"party": 3}, "clerk"), ("start-review", None, "reviewer"), ("return", {"text": "Show the rafters"}, "reviewer"),
        ("resubmit", {"text": "On sheet 2"}, "public"), ("ask-extension", {"days": 20, "text": "The plans"}, "public"),
        ("grant-extension", None, "official"), ("approve-plans", None, "reviewer"), ("issue", None, "official"),
        ("assign-inspector", {"party": 4}, "clerk"), ("name-contractor", {"party": 3}, "public"), ("begin-work", None, "public"),
        ("request-inspection", {"step": "frame"}, "public"), ("notice", {"text": "Nail the third rafter"}, "inspector"),
        ("ask-extension", {"days": 30, "text": "Snow"}, "public"), ("grant-extension", None, "official"),
        ("stop", {"text": "Unsafe scaffold", "conditions": "A rail all round"}, "inspector")]
    for action, body, who in todo:
        office.do(f"/files/{number}/{action}", body, who)
    return number


def try_documents(people, office):
    """Each paper that a person is owed is printed as one page, with its data and its section, and nothing of the page."""
    number = life_of_papers(office)
    resident, official = people["public"], people["official"]
    today = shown_day(TODAY)
    print_paper(resident, number, 1, ["Plans returned for changes", "Show the rafters", "section 105.3.1 ", today])
    print_paper(resident, number, 4, ["Extension granted", "20 days", "section 105.3.2 "])
    print_paper(resident, number, 6, ["Correction notice", "Nail the third rafter", "section 110.6 ", "Signature of the inspector"])
    print_paper(resident, number, 8, ["Extension granted", "30 days", "section 105.5 ", f"Deadline: {shown_day(TODAY + timedelta(days=210))}"])
    stop = print_paper(official, number, 9, ["STOP WORK", "Unsafe scaffold", "A rail all round", "section 115.2 ", "until the department has lifted"])
    want("Valuation" in stop, False, "a valuation on a stop work order")
    office.do(f"/files/{number}/lift")
    print_paper(official, number, 9, ["STOP WORK", "LIFTED", f"since {today}", "This order was lifted by paper 10"])
    permit = print_paper(resident, number, 5, [
        "Building permit", "$250,000.50", "Dormer to the yard", "section 105.3.1 ", f"Deadline: {shown_day(TODAY + timedelta(days=210))}",
        "within 180 days", "at most 180 days", "before the department has given a certificate"])
    want(re.findall(r"\d\. (Frame|Energy|Lath|Final|Footing|Slab):", permit), ["Frame", "Energy", "Lath", "Final"], "the way of inspections of a permit")
    office.do(f"/files/{number}/clear-notice", {"paper": 6}, "inspector")
    office.do(f"/files/{number}/temporary", {"days": 30, "text": "The ground floor"})
    print_paper(resident, number, 11, ["Temporary certificate of occupancy", f"Last day: {shown_day(TODAY + timedelta(days=30))}", "The ground floor",
                                       "section 111.3 "])
    for step in ("frame", "energy", "lath", "final"):
        office.do(f"/files/{number}/request-inspection", {"step": step}, "public")
        office.do(f"/files/{number}/approve-step", {"step": step}, "inspector")
    office.do(f"/files/{number}/certify")
    print_paper(resident, number, 12, ["Certificate of occupancy", "$250,000.50", "section 111.2 "])
    closed = office.do("/files", {"parcel": 1, "kind": "construct", "valuation": 1, "description": "Tower"}, "public")
    office.do(f"/files/{closed}/assign-reviewer", {"party": 3}, "clerk")
    office.do(f"/files/{closed}/start-review", None, "reviewer")
    office.do(f"/files/{closed}/reject", {"text": "Higher than the lane is wide"}, "reviewer")
    print_paper(resident, closed, 1, ["Application rejected", "Higher than the lane is wide", "section 105.3.1 "])
    revoked = file_in_work(office)
    office.do(f"/files/{revoked}/revoke", {"text": "Issued on another parcel's plans"})
    print_paper(resident, revoked, 2, ["Permit revoked", "another parcel's plans", "section 105.6 "])


def try_long_documents(people, office):
    """Texts as long as they can be are set smaller: a document stays one page, whole."""
    inspector = people["inspector"]
    address = "Lane " * 399 + "north"
    parcel = office.do("/parcels", {"lot": "L-1", "address": address, "owner": 5}, "clerk")
    number = file_in_work(office, parcel=parcel, description="Barn " * 399 + "roofs")
    office.do(f"/files/{number}/stop", {"text": "W" * 1995 + "CAUSE", "conditions": "\u00e9" * 995 + "RAILS"}, "inspector")
    inspector.open(f"files/{number}/papers/2")
    printed(inspector, "a long stop work order", ["STOP WORK", "roofs", "north"])
    text = printed(inspector, "a long stop work order", []).replace(" ", "")
    for end in ("WCAUSE", "\u00e9RAILS"):
        want_in(end, text, "the end of a long text")


def try_day_sheet(people, office):
    """The day sheet has what is requested of the inspector, by address, oldest first, on as few sheets as it takes."""
    inspector = people["inspector"]
    other = office.do("/parties", {"name": "Ina", "role": "inspector", "token": "inspector9inspector9"})
    not_mine = file_in_work(office, description="Not of this inspector")
    office.do(f"/files/{not_mine}/assign-inspector", {"party": other})
    office.do(f"/files/{not_mine}/request-inspection", {"step": "frame"}, "public")
    noticed = file_in_work(office, step="frame", description="Porch with a notice")
    office.do(f"/files/{noticed}/notice", {"text": "A post stands on sand"}, "inspector")
    office.do(f"/files/{noticed}/request-inspection", {"step": "frame"}, "public")
    far = file_in_work(office, parcel=2, step="frame", description="Fence on the other lot")
    inspector.open("day")
    want(inspector.text("main h1"), "Day sheet of party 4, Ian Moss", "whose sheet it is")
    listed = [file for file in json.loads(office.ask("GET", "/files/stage/working", who="inspector")[1])["files"]
              if file["request"] and file["inspector"] == 4]
    shown = inspector.browser.script(
        "return [...document.querySelectorAll('.visits')].map(at => [at.querySelector('h2').innerText,"
        "[...at.querySelectorAll('h3 a')].map(link => Number(link.textContent.slice(5)))])")
    want(sorted(number for _, files in shown for number in files), sorted(file["id"] for file in listed), "what is requested of me")
    asked = {file["id"]: (file["requested"], file["id"]) for file in listed}
    for _, files in shown:
        want([asked[number] for number in files], sorted(asked[number] for number in files), "the oldest first at a place")
    firsts = [asked[files[0]] for _, files in shown]
    want(firsts, sorted(firsts), "the place with the oldest first")
    places = dict((head, files) for head, files in shown)
    want(far in places["2 High St, lot C-8, parcel 2"] and noticed in places["1 Main St, lot C-7, parcel 1"], True, "the places")
    sheets = -(-len(listed) // 6)
    with tempfile.TemporaryDirectory() as folder:
        found = inspector.browser.print_pages(folder)
        want(len(found) <= sheets, True, f"{len(listed)} visits on {len(found)} sheets")
        text = flat(" ".join(found))
    for part in ("A post stands on sand", "Fence on the other lot", "Porch with a notice", DEPARTMENT["name"], "Frame: File"):
        want_in(part, text, "the printed day sheet")
    want(text.count("Remarks"), len(listed), "room for remarks at each visit")
    for absent in ("Not of this inspector", "Sign out", "Download", "Waiting"):
        want(absent in text, False, f"the printed day sheet has {absent}")
    return listed


def downloaded(person, label, name):
    """The text of a file that a button hands out."""
    with tempfile.TemporaryDirectory() as folder:
        person.use()
        person.browser.keep_downloads(folder)
        person.click_button(label)
        path = Path(folder) / name
        for _ in range(100):
            if path.exists():
                break
            time.sleep(0.1)
        return path.read_bytes().decode("utf-8-sig")


def rows_of(text):
    """The rows of a CSV as Python reads it."""
    want("\r\n" in text and not text.replace("\r\n", "").count("\r"), True, "the ends of lines")
    return list(csv.DictReader(io.StringIO(text, newline="")))


ODD = "He said \"no\", twice;\u202e and\\went"


def try_csv(people, office):
    """Lists and registers go out as CSV, which Python reads as the office has them; no text becomes a formula."""
    official = people["official"]
    odd = file_in_work(office, description=ODD, valuation=9999999999999)
    formula = file_in_work(office, description="=1+2")
    files = {file["id"]: file for file in json.loads(office.ask("GET", "/files")[1])["files"]}
    official.open("files")
    official.wait("return document.querySelector('main .lead').textContent.startsWith(arguments[0])", "all files", f"{len(files)} of {len(files)}")
    time.sleep(1)
    rows = rows_of(downloaded(official, "Download as CSV", "files.csv"))
    want([int(row["File"]) for row in rows], sorted(files), "the files of the list")
    for row in rows:
        file = files[int(row["File"])]
        due = "" if file["deadline"] is None else str(date(1970, 1, 1) + timedelta(days=file["deadline"]))
        want((row["Deadline"], row["Parcel"], row["Applicant"]), (due, str(file["parcel"]), str(file["applicant"])), f"file {file['id']}")
    by_number = {int(row["File"]): row for row in rows}
    want((by_number[odd]["Description"], by_number[odd]["Valuation"], by_number[odd]["Address"], by_number[odd]["Lot"]),
         (ODD, "99999999999.99", "1 Main St", "C-7"), "an odd text and the largest value")
    want(by_number[formula]["Description"], "'=1+2", "a text that a spreadsheet would reckon")
    official.open("registers/files")
    time.sleep(0.5)
    rows = rows_of(downloaded(official, "Download as CSV", "register-files.csv"))
    register = [line.split() for line in office.ask("GET", "/registers/files")[1].splitlines()[1:-1]]
    want([(row["File"], row["Parcel"], row["Timing"].replace("no deadline", "none"), row["Deadline"] or "-", row["Valuation"].replace(".", "").lstrip("0") or "0") for row in rows],
         [(line[0], line[1], line[4], line[5], line[6]) for line in register], "the register of files")
    people["inspector"].open("day")
    rows = rows_of(downloaded(people["inspector"], "Download as CSV", "day-sheet.csv"))
    want(all(row["Address"] and row["Inspection"] and row["Requested"] for row in rows), True, "the day sheet")
    want(len(rows), people["inspector"].browser.script("return document.querySelectorAll('.visit').length"), "the day sheet")


def unfolded(text):
    """The properties of a calendar, as RFC 5545 has them: lines of at most 75 octets, folded ones joined."""
    want(text.endswith("\r\n") and "\n" not in text.replace("\r\n", ""), True, "the ends of lines of a calendar")
    want([line for line in text.split("\r\n") if len(line.encode()) > 75], [], "lines of a calendar that are too long")
    lines = re.sub(r"\r\n[ \t]", "", text).splitlines()
    return [line.split(":", 1) for line in lines]


def try_calendar(people, office):
    """A file's deadline goes out as an entry of a calendar, on its day, with the place."""
    resident = people["public"]
    address = "1 Main St; rear, " + "\u00e9" * 60
    parcel = office.do("/parcels", {"lot": "Q-1", "address": address, "owner": 5}, "clerk")
    number = office.do("/files", {"parcel": parcel, "kind": "repair", "valuation": 1, "description": "Roof"}, "public")
    resident.open(f"files/{number}")
    resident.sees("Q-1")
    text = downloaded(resident, "Add the deadline to a calendar", f"file-{number}-deadline.ics")
    pairs = unfolded(text)
    due = TODAY + timedelta(days=180)
    want([pair for pair in pairs if pair[0] in ("BEGIN", "END")], [
        ["BEGIN", "VCALENDAR"], ["BEGIN", "VEVENT"], ["BEGIN", "VALARM"], ["END", "VALARM"], ["END", "VEVENT"], ["END", "VCALENDAR"]], "its parts")
    event = dict(pairs)
    want((event["VERSION"], event["DTSTART;VALUE=DATE"], event["DTEND;VALUE=DATE"]),
         ("2.0", due.strftime("%Y%m%d"), (due + timedelta(days=1)).strftime("%Y%m%d")), "the day of the deadline")
    want(re.fullmatch(r"\d{8}T\d{6}Z", event["DTSTAMP"]) is not None and event["UID"].startswith(f"file-{number}-"), True, "its stamp")
    plain = re.sub(r"\\([\\;,])", r"\1", event["LOCATION"])
    want(plain, f"lot Q-1 {address}", "the place in a calendar")
    want(next(value for name, value in pairs if name == "SUMMARY"), f"Deadline of file {number}", "its title")
