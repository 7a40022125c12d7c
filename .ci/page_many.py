"""As many files as there can be, and an office that fails. What opens and reads a database of them is tried by
bench/listings; here a stand-in answers."""
import http.server
import json
import re
import threading
import time
import urllib.error
import urllib.request
from datetime import date, timedelta

from office_and_people import TODAY, WORST, Person, Proxy, want
from webdriver import END

FILES = 99_999
EPOCH = date(1970, 1, 1)
KINDS = ["construct", "enlarge", "alter", "repair", "move", "demolish", "occupancy"]
FIRST_STEPS = ["footing", "footing", "frame", "frame", "footing", "final", "final"]
PARCELS = 400


def parcel_of(number):
    street = "Elm St" if number % 40 == 7 else "Meridian Ave"
    return {"address": f"{number} {street}", "id": number, "lot": f"M-{number}", "owner": 2}


def file_of(number):
    """A file just filed, as an answer has it; one in a thousand is near its deadline."""
    filed = (TODAY - EPOCH).days - (160 if number % 1000 == 7 else number % 100)
    return {"applicant": 2, "ask": None, "contractor": None, "deadline": filed + 180, "description": f"House {number} on a corner lot",
            "done": [], "filed": filed, "id": number, "inspector": None, "kind": KINDS[number % 7], "next": FIRST_STEPS[number % 7],
            "notices": 0, "parcel": number % PARCELS + 1, "request": None, "requested": None, "reviewer": None, "stage": "filed", "stopped": False,
            "temporary": None, "timing": "near" if number % 1000 == 7 else "ahead", "valuation": number * 100}


def iso(day):
    return str(EPOCH + timedelta(days=day))


def many_answers():
    """The texts of a stand-in's answers, by their paths."""
    files = [file_of(number) for number in range(1, FILES + 1)]
    listing = json.dumps({"files": files}, separators=(",", ":"))
    lines = [f"{f['id']:5} {f['parcel']:6} {f['kind']:9} {f['stage']:9} {f['timing']:6} {iso(f['deadline'])} {f['valuation']:13}" for f in files]
    head = " FILE PARCEL KIND      STAGE     TIMING DEADLINE           CENTS"
    due = [f for f in files if f["timing"] == "near"]
    due_lines = [f"{f['id']:5} {f['stage']:9} {f['timing']:6} {iso(f['deadline'])} {20:7}" for f in due]
    return {"/files": listing, "/files/stage/filed": listing,
            "/registers/files": "\n".join([head, *lines, f"files {FILES}", ""]),
            "/registers/deadlines": "\n".join([" FILE STAGE     TIMING DEADLINE      LEFT", *due_lines, f"files {len(due)}", ""])}


class StandIn(http.server.BaseHTTPRequestHandler):
    """Answers as an office with many files does to who may list them all; commands fail."""
    answers = {}
    parcels_asked = 0
    failing = 500, '{"refused":"store"}'

    def do_GET(self):
        text = self.answers.get(self.path)
        number = re.fullmatch(r"/(files|parcels)/(\d+)", self.path)
        if number:
            StandIn.parcels_asked += number[1] == "parcels"
            text = json.dumps({**file_of(int(number[2])), "papers": []} if number[1] == "files" else parcel_of(int(number[2])))
        body = ('{"files":[]}' if text is None else text).encode()
        self.send_response(200)
        is_register = self.path.startswith("/registers/")
        self.send_header("Content-Type", "text/plain; charset=utf-8" if is_register else "application/json")
        self.send_header("Content-Length", str(len(body)))
        self.end_headers()
        self.wfile.write(body)

    def do_POST(self):
        status, text = self.failing
        self.send_response(status)
        self.send_header("Content-Type", "application/json" if text.startswith("{") else "text/html")
        self.send_header("Content-Length", str(len(text)))
        self.end_headers()
        self.wfile.write(text.encode())

    def log_message(self, *_):
        pass


def timed(what, limit, call):
    begun = time.time()
    call()
    took = time.time() - begun
    print(f"page:   {what}: {took:.1f} s", flush=True)
    want(took < limit, True, f"{what} within {limit} s")


READING = "return document.querySelector('main').innerText.match(/Addresses: ([\\d,]+) of 400 are read/)?.[1] ?? null"
HELD = "limiting requests"
# Types a text into the search, and says after how many milliseconds the list is the one that is wanted.
SEARCH = """
const [text, wanted, tell] = arguments, field = document.querySelector('input[type=search]'), begun = performance.now();
field.value = text;
field.dispatchEvent(new Event('input', {bubbles: true}));
const look = () => {
  if (document.querySelector('main .lead').textContent === wanted) requestAnimationFrame(() => tell(Math.round(performance.now() - begun)));
  else setTimeout(look, 5);
};
look();
"""


def try_many_files(person, _proxy):
    """99,999 files are listed, sorted, narrowed and gone through with few rows drawn."""
    browser = person.browser
    rows = "return document.querySelectorAll('tbody tr').length"
    count = "return document.querySelector('main .lead').textContent"
    timed("all files are listed", WORST, lambda: person.open("files"))
    want(browser.script(count), f"{FILES:,} of {FILES:,} files", "the count")
    want(0 < browser.script(rows) < 60, True, f"few rows are drawn: {browser.script(rows)}")

    def to_the_end():
        browser.script("document.querySelector('tbody a').focus()")
        browser.press(END)
        person.wait("return document.activeElement.textContent === arguments[0]", "the last file", f"File {FILES}")

    timed("to the last file by a key", 5, to_the_end)
    want(browser.script(rows) < 60, True, "few rows are drawn at the end")

    def by_deadline():
        browser.click(browser.by_script("return [...document.querySelectorAll('th button')].find(at => at.textContent === 'Deadline')"))
        person.wait("return document.querySelector('tbody tr').innerText.includes('near: 20 days left')", "the nearest deadline first")

    timed("sorted by deadline", 10, by_deadline)

    def narrowed():
        person.type_text("input[type=search]", "house 4321 on")
        person.wait(f"{count} === '1 of {FILES:,} files'", "one file")

    timed("narrowed by a text", 10, narrowed)
    browser.script("document.querySelector('tbody a').click()")
    person.wait("return document.querySelector('main h1').textContent === 'File 4321: Alter'", "the file")
    timed("back to the list", 10, lambda: person.back("files?text=house+4321+on&sort=deadline"))
    want(browser.script(count), f"1 of {FILES:,} files", "the list as it was")
    timed("the register of all files", WORST, lambda: person.open("registers/files"))
    want(browser.script(rows) < 60, True, "few rows of the register are drawn")
    timed("what waits for the official", WORST, lambda: person.open("waiting"))


def crowd(proxy, seconds):
    """Others behind the same address ask for more than the proxy allows, for some seconds."""
    ends = time.time() + seconds
    while time.time() < ends:
        try:
            urllib.request.urlopen(urllib.request.Request(f"{proxy.url}/files/stage/returned")).close()
        except urllib.error.HTTPError as fault:
            fault.close()


def try_addresses(person, proxy):
    """All addresses of a long list are read below the proxy's limit, also beside others; what is held back is asked again."""
    StandIn.parcels_asked, browser = 0, person.browser
    person = Person(browser, proxy).sign_in("official")
    on_elm = sum(parcel_of(number % PARCELS + 1)["address"].endswith("Elm St") for number in range(1, FILES + 1))
    person.open("files")
    person.wait(READING, "how many addresses are read")
    time.sleep(8)
    want(HELD in proxy.log.read_text(), False, "the page by itself asks for less than the limit")
    person.open("apply")
    time.sleep(1)
    before = StandIn.parcels_asked
    time.sleep(2)
    want(StandIn.parcels_asked, before, "no more is read once the reader has left the list")
    person.open("files")
    crowds = [threading.Thread(target=crowd, args=(proxy, 4)) for _ in range(4)]
    for one in crowds:
        one.start()
    for one in crowds:
        one.join()
    held = [line for line in proxy.log.read_text().splitlines() if HELD in line and '"GET /parcels/' in line]
    want(len(held) > 0, True, "the page met the limit")
    timed("the rest of the addresses", 2 * WORST, lambda: person.wait(f"return (() => {{ {READING} }})() === null", "the addresses", seconds=2 * WORST))
    # Where an answer is lost beside the crowd its parcel is asked again.
    want(PARCELS <= StandIn.parcels_asked <= PARCELS * 1.05, True, f"each parcel was asked once: {StandIn.parcels_asked} of {PARCELS}")
    want("no answer of the office" in person.text("main") or "Too many" in person.text("main"), False, "an answer 429 is no answer")
    took = browser.script_async(SEARCH, "st elm", f"{on_elm:,} of {FILES:,} files")
    print(f"page:   searched by an address: {took / 1000:.2f} s", flush=True)
    want(took < 1000, True, f"a search by an address within a second, and not {took} ms")
    shown = browser.script("return [...document.querySelectorAll('td.at-parcel')].map(at => at.textContent)")
    want([text for text in shown if "Elm St" not in text], [], "the files of the address")


def try_failures(person, _proxy):
    """A disk that fails is named, and so is an answer that is none, and one that was held back."""
    for failing, words in (((429, ""), "Too many requests came from your address at once."), ((500, '{"refused":"store"}'), "The disk or the memory of the office failed."),
                           ((413, "<p>too large"), "This is more than the office takes at once."),
                           ((502, "<p>no office"), "The office does not answer."),
                           ((200, "<p>hello"), "What came back is no answer of the office."),
                           ((400, '{"refused":"new-word"}'), "What came back is no answer of the office.")):
        StandIn.failing = failing
        person.refused(1, "Start the review", [words])


def try_with_stand_in(browser, folder, shown):
    """What an office shows that has many files, or that fails. `shown` is an answer of the program."""
    want(sorted({**file_of(1), "papers": []}), sorted(shown), "the stand-in answers with the program's keys")
    StandIn.answers = many_answers()
    server = http.server.ThreadingHTTPServer(("127.0.0.1", 0), StandIn)
    threading.Thread(target=server.serve_forever, daemon=True).start()
    proxy = Proxy(folder, server.server_address[1])
    try:
        person = Person(browser, proxy).sign_in("official")
        for trial in (try_many_files, try_addresses, try_failures):
            trial(person, proxy)
            print(f"page: {trial.__doc__.split('.')[0]}", flush=True)
    finally:
        proxy.close()
        server.shutdown()

