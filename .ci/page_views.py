"""What every view owes to those who do not see it, or have no mouse, or a small screen."""
import re

import webdriver
from office_and_people import TOKENS, Person, Wrong, want, want_in
from page_life import PEOPLE, file_in_work
from webdriver import DOWN, ENTER, TAB

CONTRAST = """
const parse = text => (text.match(/[\\d.]+/g) ?? [0, 0, 0, 0]).map(Number);
const light = ([r, g, b]) => [r, g, b].map(v => v / 255).map(v => (v <= 0.04045 ? v / 12.92 : ((v + 0.055) / 1.055) ** 2.4))
  .reduce((sum, v, at) => sum + v * [0.2126, 0.7152, 0.0722][at], 0);
function ground(at) {
  for (; at; at = at.parentElement) {
    const color = parse(getComputedStyle(at).backgroundColor);
    if (color.length < 4 || color[3] > 0) return color;
  }
  return [255, 255, 255];
}
const poor = [];
const walker = document.createTreeWalker(document.body, NodeFilter.SHOW_TEXT);
while (walker.nextNode()) {
  const at = walker.currentNode.parentElement;
  if (!walker.currentNode.textContent.trim() || !at.checkVisibility() || at.tagName === 'OPTION') continue;
  const [one, other] = [light(parse(getComputedStyle(at).color)), light(ground(at))].sort((left, right) => right - left);
  const ratio = (one + 0.05) / (other + 0.05);
  if (ratio < 4.5) poor.push(`${walker.currentNode.textContent.trim().slice(0, 30)} ${ratio.toFixed(1)}`);
}
return poor;
"""

MARKUP = """
const faults = [], ids = [...document.querySelectorAll('[id]')].map(at => at.id);
if (new Set(ids).size !== ids.length) faults.push('an id stands twice');
for (const at of document.querySelectorAll('[aria-describedby], label[for]')) {
  const ids = (at.getAttribute('aria-describedby') ?? at.htmlFor).split(' ');
  if (!ids.every(id => document.getElementById(id))) faults.push(`${at.outerHTML.slice(0, 60)} names what isn't there`);
}
if (document.querySelector('[tabindex]:not([tabindex="0"], [tabindex="-1"])')) faults.push('a tab order of its own');
if (document.querySelectorAll('h1').length !== 1 || document.querySelectorAll('main').length !== 1) faults.push('one h1 and one main');
const levels = [...document.querySelectorAll('h1, h2, h3')].map(at => Number(at.tagName[1]));
levels.forEach((level, at) => { if (level > (levels[at - 1] ?? 0) + 1) faults.push('a heading leaves out a level'); });
if (!document.documentElement.lang || !document.title) faults.push('no language or title');
if (document.documentElement.scrollWidth > innerWidth) faults.push(`wider than the screen: ${document.documentElement.scrollWidth}`);
return faults;
"""

FOCUSABLE = "a[href], button, input, select, textarea, summary, [tabindex='0']"


# Words of the program's inside, which are no words of the office.
INSIDE = re.compile(r"\b(bytes?|octets?|records?|routes?|json|http|null|utf-8|api|server|query|boolean|string)\b", re.I)


# The cells of a table, and all else, that have a text in which a part of it can't be seen.
CUT = """
const whole = [...document.querySelectorAll('td, dd, p')].filter(at => at.children.length === 0 && at.textContent.includes(arguments[0]));
const isCut = at => at.scrollWidth > at.clientWidth + 1 || at.scrollHeight > at.clientHeight + 1
  || at.getBoundingClientRect().right > innerWidth || getComputedStyle(at).textOverflow === 'ellipsis' && at.scrollWidth > at.clientWidth;
return [whole.length > 0, whole.filter(isCut).map(at => at.outerHTML)];
"""


def try_a_large_value(people, office):
    """The largest value is shown whole in each table and on each document, wide and narrow."""
    official = people["official"]
    number = file_in_work(office, valuation=9_999_999_999_999)
    for width in (1200, 700, 320):
        for place in ("registers/files", f"files/{number}", f"files/{number}/papers/1"):
            official.use()
            official.browser.resize(width, 900)
            official.open(place)
            official.browser.script("const at = document.querySelector('.scroller'); if (at) at.scrollTop = at.scrollHeight")
            official.sees("$99,999,999,999.99")
            want(official.browser.script(CUT, "$99,999,999,999.99"), [True, []], f"the largest value in {place} at {width}")
    official.browser.resize(1200, 900)


def check_words_of(person, what):
    """No text of a view has a word of the program's inside."""
    text = person.text()
    want(INSIDE.findall(text), [], f"{what}: words of the inside in {text[:300]!r}")


def check_view(person, what):
    """Names for all that takes the focus, sound markup, and texts that stand out from their ground."""
    browser = person.browser
    browser.script("document.querySelectorAll('details').forEach(at => { at.open = true; })")
    check_words_of(person, what)
    want(browser.script(MARKUP), [], f"{what}: markup")
    seen = browser.script("return [...document.querySelectorAll(arguments[0])].filter(at => at.checkVisibility())", FOCUSABLE)
    for element in (found[webdriver.ELEMENT] for found in seen):
        if not browser.label(element):
            raise Wrong(f"{what}: nothing names {browser.script('return arguments[0].outerHTML', {webdriver.ELEMENT: element})[:200]}")
    for scheme in ("light", "dark"):
        browser.use_scheme(scheme)
        want(browser.script(CONTRAST), [], f"{what}: contrast, {scheme}")
    browser.use_scheme("light")


def try_every_view(people, office):
    """Every view has labels, sound markup, contrast and plain words, at 1200 and at 320 pixels."""
    official = people["official"]
    number = file_in_work(office, step="frame")
    office.do(f"/files/{number}/notice", {"text": "A nail is missing"}, "inspector")
    office.do(f"/files/{number}/stop", {"text": "Unsafe scaffold", "conditions": "A rail all round"}, "inspector")
    closed = office.do("/files", {"parcel": 1, "kind": "construct", "valuation": 0, "description": "Tower"}, "public")
    for path, body in (("assign-reviewer", {"party": 3}), ("start-review", None), ("reject", {"text": "Too high"})):
        office.do(f"/files/{closed}/{path}", body)
    places = ["waiting", "files", f"files/{number}", f"files/{closed}", "files/99999", "registers/files", "registers/deadlines",
              "registers/inspections", "apply", "parcels", "parcels/1", "people", "day", f"files/{number}/papers/1", f"files/{number}/papers/3"]
    for width in (1200, 320):
        for place in places:
            official.use()
            official.browser.resize(width, 900)
            official.open(place)
            check_view(official, f"{place} at {width}")
    for view in PEOPLE[1:]:
        for place in ("waiting", f"files/{number}"):
            people[view].open(place)
            check_words_of(people[view], f"{place} of the {view}")
    official.browser.resize(1200, 900)


def focused(person):
    return person.browser.script(
        "const at = document.activeElement; return [at.tagName, at.labels?.[0]?.textContent ?? at.textContent.slice(0, 40)]")


def try_keyboard(people, office):
    """By the keyboard alone: signing in, opening a file from a list, and a command; the tab order is that of the page."""
    number = file_in_work(office, step="frame")
    person = Person(people["official"].browser, office)
    browser = person.browser
    check_view(person, "signing in")
    want(focused(person), ["H1", "Sign in"], "the focus at first")
    browser.press_with_shift(TAB)
    want(focused(person), ["BUTTON", "Skip to the content"], "the first place of the tab order")
    browser.press(TAB)
    want(focused(person), ["INPUT", "Token"], "the second")
    browser.press(*TOKENS["inspector"], TAB)
    want(focused(person), ["BUTTON", "Show"], "the third")
    browser.press(TAB)
    for _ in range(len(TOKENS)):
        if browser.script("return document.activeElement.value") == "inspector":
            break
        browser.press(DOWN)
    want(browser.script("return document.activeElement.value"), "inspector", "the view, which is the last one at first")
    browser.press(TAB)
    want(focused(person), ["BUTTON", "Sign in"], "after the five views")
    browser.press(ENTER)
    person.wait("return document.querySelector('main h1').textContent === 'What waits for me'", "signing in by keys")
    want(browser.script("return document.activeElement.tagName"), "H1", "the focus in a new view")
    order = []
    for _ in range(200):
        browser.press(TAB)
        order.append(focused(person))
        if order[-1][0] == "BUTTON" and order[-1][1].startswith("Show all"):
            browser.press(ENTER)
            order.append(focused(person))
            want(order[-1][1][:5], "File ", "the focus where all rows are shown")
        if order[-1] == ["A", f"File {number}"]:
            break
    want(order[-1], ["A", f"File {number}"], "a file is reached by the tab key")
    seen = browser.script("const at = getComputedStyle(document.activeElement); return [at.outlineStyle, at.outlineWidth]")
    want(seen, ["solid", "3px"], "the focus is seen")
    browser.press(ENTER)
    person.wait("return document.querySelector('main h1').textContent === arguments[0]", "the file by keys", f"File {number}: Repair")
    for _ in range(20):
        browser.press(TAB)
        if focused(person) == ["SUMMARY", "Approve a step"]:
            break
    browser.press(TAB, TAB, ENTER)
    want(browser.script("return document.activeElement.classList.contains('check')"), True, "the focus on what is asked once more")
    browser.press(TAB)
    want(focused(person)[0], "A", "the place in what is asked")
    browser.press(TAB)
    want(focused(person), ["BUTTON", "Approve a step"], "the answer yes")
    browser.press(ENTER)
    want(person.answered(), f"The inspection of frame is approved on file {number}.", "a command by keys")


def try_registers(people, office):
    """The registers can be read, and what is printed is the office's own text."""
    official = people["official"]
    file_in_work(office)
    for name in ("files", "deadlines", "inspections"):
        official.open(f"registers/{name}")
        status, text = office.ask("GET", f"/registers/{name}")
        want((status, official.browser.script("return document.querySelector('.printed').textContent")), (200, text), f"the text of {name}")
        rows = len(text.splitlines()) - 2
        want_in(f"{rows} file", official.text("main .lead"), f"the rows of {name}")
    official.open("registers/files")
    official.browser.use_media("print")
    shown = official.browser.script(
        "return ['.printed', 'header', '.scroller'].map(css => getComputedStyle(document.querySelector(css)).display)")
    official.browser.use_media("")
    want(shown, ["block", "none", "none"], "what is printed")
