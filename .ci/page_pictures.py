"""The pictures of docs/pictures, which pngquant makes smaller where it is there."""
import base64
import shutil
import subprocess
import tempfile
import time
from datetime import timedelta
from pathlib import Path

from office_and_people import TODAY, TOKENS, Person
from page_many import FIRST_STEPS, KINDS
from page_rules import BODIES, ISSUED

STREETS = ["Main St", "High St", "Mill Lane", "Church Rd", "River St", "Oak Ave"]

WORKS = [("repair", "New roof over the north wing"), ("alter", "Kitchen moved to the garden side"), ("construct", "House with two flats"),
         ("enlarge", "Second floor on the garage"), ("occupancy", "Bakery in the former shop"), ("demolish", "Shed behind the house"),
         ("move", "Summer house to the back of the lot")]




def town_files(office, count, first):
    """Files of several kinds, each a bit further on its way than the one before it."""
    for place in range(first, first + count):
        kind, text = WORKS[place % len(WORKS)]
        body = {"parcel": place % 6 + 1, "kind": kind, "valuation": 1250000 * (place + 1), "description": text}
        number = office.do("/files", body, "public")
        for action in [*ISSUED[:3], "assign-inspector", "issue", "begin-work"][: place * 5 % 7]:
            office.do(f"/files/{number}/{action}", {"party": 4} if action == "assign-inspector" else BODIES.get(action))
        if place * 5 % 7 == 6:
            office.do(f"/files/{number}/request-inspection", {"step": FIRST_STEPS[KINDS.index(kind)]}, "public")


def town(office):
    """An office with some parcels, with files in many stages, and with deadlines that are past, near and ahead."""
    for name, role in (("Cal", "clerk"), ("Rae", "reviewer"), ("Ian", "inspector"), ("Sam", "public")):
        office.do("/parties", {"name": name, "role": role, "token": TOKENS[role]})
    for place in range(6):
        office.do("/parcels", {"lot": f"A-{place + 1}", "address": f"{place + 1} {STREETS[place]}", "owner": 5})
    town_files(office, 7, 0)
    office.restart(TODAY + timedelta(days=40))
    town_files(office, 14, 7)
    office.restart(TODAY + timedelta(days=120))
    town_files(office, 7, 21)
    body = {"parcel": 2, "kind": "alter", "valuation": 4830000, "description": "Wall between kitchen and hall taken out"}
    number = office.do("/files", body, "public")
    for path, body, who in (
            ("assign-reviewer", {"party": 3}, "clerk"), ("start-review", None, "reviewer"),
            ("return", {"text": "Say what carries the ceiling once the wall is out."}, "reviewer"),
            ("resubmit", {"text": "A steel beam; its sheet is added to the drawings."}, "public"), ("approve-plans", None, "reviewer"),
            ("assign-inspector", {"party": 4}, "clerk"), ("issue", None, "official"), ("begin-work", None, "public"),
            ("request-inspection", {"step": "frame"}, "public"), ("notice", {"text": "The beam rests on one brick; 20 cm are wanted."}, "inspector"),
            ("request-inspection", {"step": "frame"}, "public"), ("ask-extension", {"days": 30, "text": "The steel comes late."}, "public")):
        office.do(f"/files/{number}/{path}", body, who)
    office.restart(TODAY + timedelta(days=195))
    return number


SIZES = {"wide": (1200, 900, "light"), "narrow": (360, 780, "dark")}


def print_picture(browser, path):
    """The first printed page of a view, as a picture."""
    with tempfile.TemporaryDirectory() as folder:
        browser.print_pages(folder)
        words = ["pdftoppm", "-r", "72", "-png", "-singlefile", f"{folder}/printed.pdf", path.with_suffix("")]
        subprocess.run(words, check=True, timeout=60)


def make_pictures(browser, office, folder):
    """What waits, a file, a list and a register, what is asked and refused, wide or narrow, and what is printed."""
    number = town(office)
    stopped = office.do("/files", {"parcel": 3, "kind": "repair", "valuation": 980000, "description": "Chimney rebuilt"}, "public")
    for action in [*ISSUED, "assign-inspector", "stop"]:
        office.do(f"/files/{stopped}/{action}", {"text": "The scaffold leans on the chimney.", "conditions": "A scaffold that stands by itself."}
                  if action == "stop" else {"party": 4} if action == "assign-inspector" else BODIES.get(action))
    person = Person(browser, office).sign_in("inspector")

    def take(name, size, css=None, block="center"):
        width, height, scheme = SIZES[size]
        person.use()
        browser.resize(width, height)
        browser.use_scheme(scheme)
        if css:
            browser.script("document.querySelector(arguments[0]).scrollIntoView({block: arguments[1]})", css, block)
        time.sleep(0.5)
        (Path(folder) / f"{name}-{size}.png").write_bytes(base64.b64decode(browser.screenshot()))
        browser.use_scheme("light")

    def signed_in(view):
        person.click_button("Sign out")
        person.sign_in(view)

    def show(place):
        person.open(place)
        person.wait("return document.querySelector('main .said') !== null", place)

    show(f"files/{number}")
    for size in SIZES:
        take("file", size)
    show("waiting")
    for size in SIZES:
        take("waiting", size)
    for name, place in (("permit", f"files/{number}/papers/3"), ("stop-work", f"files/{stopped}/papers/2"), ("day-sheet", "day")):
        show(place)
        print_picture(browser, Path(folder) / f"{name}.png")
    signed_in("official")
    show("waiting")
    take("overview", "wide")
    for name, place in (("files", "files"), ("register", "registers/files")):
        show(place)
        take(name, "wide")
    show(f"files/{number}")
    person.press_submit("Grant the extension")
    take("asked-once-more", "narrow", ".check:not([hidden])", "end")
    show(f"files/{number}")
    person.press_submit("Revoke the permit")
    take("fault", "wide", ".refusal")
    signed_in("public")
    show("apply/2")
    person.fill("File an application", kind="alter", valuation="48,300", description="Wall between kitchen and hall taken out")
    person.press_submit("File an application")
    take("check", "narrow")
    if shutil.which("pngquant"):
        subprocess.run(["pngquant", "--force", "--ext", ".png", "64", *Path(folder).glob("*.png")], check=True, timeout=60)
