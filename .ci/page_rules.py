"""What web/rules.js repeats of the office's rules, each thing of it held beside what the built program does."""
import json
from datetime import timedelta

from office_and_people import TODAY, want, want_in
from page_ended import prepare
from page_life import file_in_work

# The lists of the department's rules, in their order.
LISTS = {
    "ROLES": ["public", "clerk", "reviewer", "inspector", "official"],
    "KINDS": ["construct", "enlarge", "alter", "repair", "move", "demolish", "occupancy"],
    "CERTIFIABLE": ["construct", "enlarge", "alter", "move", "occupancy"],
    "STEPS": ["footing", "slab", "frame", "energy", "lath", "final"],
    "REGISTERS": ["files", "deadlines", "inspections"],
    "SORTS": ["permit", "returned", "resubmitted", "rejected", "asked", "granted", "refused", "notice", "stop", "lifted", "revoked",
              "temporary", "certificate"],
    "BEFORE_PERMIT": ["filed", "review", "returned", "approved"],
    "UNDER_PERMIT": ["issued", "working"],
    "CLOSED": ["rejected", "revoked", "abandoned", "lapsed"],
}
STAGES = ["filed", "review", "returned", "approved", "rejected", "issued", "working", "revoked", "finaled", "certified", "abandoned", "lapsed"]
# The commands by which the official brings a file into each stage; the last two come of themselves.
REVIEWED = ["assign-reviewer", "start-review"]
ISSUED = [*REVIEWED, "approve-plans", "issue"]
WORKING = [*ISSUED, "assign-inspector", "begin-work"]
FINALED = [*WORKING, "request-inspection", "approve-step"]
WAYS = {"filed": [], "review": REVIEWED, "returned": [*REVIEWED, "return"], "approved": ISSUED[:-1], "rejected": [*REVIEWED, "reject"],
        "issued": ISSUED, "working": WORKING, "revoked": [*ISSUED, "revoke"], "finaled": FINALED, "certified": [*FINALED, "certify"],
        "abandoned": [], "lapsed": ISSUED}
BODIES = {"assign-reviewer": {"party": 3}, "assign-inspector": {"party": 4}, "return": {"text": "."}, "reject": {"text": "."},
          "revoke": {"text": "."}, "request-inspection": {"step": "final"}, "approve-step": {"step": "final"}, "notice": {"text": "."},
          "stop": {"text": ".", "conditions": "."}, "ask-extension": {"days": 1, "text": "."}}
# More states that a file can be in, beside those of a stage alone: its kind, and what brings it there.
STATES = {
    "filed, asked": ("occupancy", ["ask-extension"]), "working, asked": ("occupancy", [*WORKING, "ask-extension"]),
    "requested": ("occupancy", [*WORKING, "request-inspection"]), "noticed": ("occupancy", [*WORKING, "request-inspection", "notice"]),
    "noticed, requested": ("occupancy", [*WORKING, "request-inspection", "notice", "request-inspection"]),
    "issued, stopped": ("occupancy", [*ISSUED, "stop"]), "working, stopped": ("occupancy", [*WORKING, "stop"]),
    "requested, stopped": ("occupancy", [*WORKING, "request-inspection", "stop"]), "finaled, stopped": ("occupancy", [*FINALED, "stop"]),
    "revoked, stopped": ("occupancy", [*ISSUED, "stop", "revoke"]),
    "working, without certificate": ("demolish", WORKING), "finaled, without certificate": ("demolish", FINALED),
}
# What of a file the page says by itself; every other reason is the office's to say.
TOLD = {"stage", "stopped", "pending", "nothing-pending", "notice-open", "no-such-notice", "kind"}


def rules_of(person):
    """What rules.js has, as the page has it, and the keys of the tables of words.js."""
    person.use()
    return person.browser.script_async(
        "const tell = arguments[0]; Promise.all([import('/office/rules.js'), import('/office/words.js')]).then(([rules, words]) => tell({"
        "...Object.fromEntries(Object.entries(rules).filter(([, value]) => typeof value !== 'function')),"
        "words: Object.fromEntries(Object.entries(words).filter(([, value]) => value && typeof value === 'object')"
        ".map(([name, value]) => [name, Object.keys(value)]))}))")


def refused(office, path, body, who="official"):
    """A status, with the reason of a refusal."""
    status, answer = office.ask("POST", path, body, who)
    return status, json.loads(answer).get("reason")


def file_by(office, actions, kind="occupancy"):
    """A file behind some commands of the official; its number, and the stages that it was in."""
    number = office.do("/files", {"parcel": 1, "kind": kind, "valuation": 1, "description": "Rules"}, "public")
    stages = ["filed"]
    for action in actions:
        office.do(f"/files/{number}/{action}", BODIES.get(action))
        stage = json.loads(office.ask("GET", f"/files/{number}")[1])["stage"]
        stages += [stage] if stage != stages[-1] else []
    return number, stages


def file_at(office, number):
    return json.loads(office.ask("GET", f"/files/{number}")[1])


def try_lists(people, office):
    """The lists of rules.js are those of the department, their words are known to the program, and each has its words."""
    rules = rules_of(people["official"])
    for name, wanted in LISTS.items():
        want(rules[name], wanted, f"rules.js: {name}")
    want(sorted(rules["STAGES"]), sorted(STAGES), "rules.js: STAGES")
    for words, name in (("VIEWS", "ROLES"), ("KINDS", "KINDS"), ("KIND_CHOICES", "KINDS"), ("STEPS", "STEPS"), ("STEP_HINTS", "STEPS"),
                        ("STAGES", "STAGES"), ("SORTS", "SORTS"), ("REGISTERS", "REGISTERS")):
        want(sorted(rules["words"][words]), sorted(rules[name]), f"words.js: {words}")
    asked = {f"/files/stage/{word}": 200 for word in rules["STAGES"]} | {f"/registers/{word}": 200 for word in rules["REGISTERS"]}
    want({path: office.ask("GET", path)[0] for path in [*asked, "/files/stage/new"]}, {**asked, "/files/stage/new": 404}, "stages and registers")
    for place, role in enumerate([*rules["ROLES"], "nobody"]):
        status, _ = refused(office, "/parties", {"name": "R", "role": role, "token": f"roles{place}roles{place}roles{place}"})
        want(status, 400 if role == "nobody" else 200, f"the role {role}")
    body = {"parcel": 1, "kind": "shed", "valuation": 1, "description": "."}
    want(refused(office, "/files", body, "public")[0], 400, "a kind that is none")
    for stage in STAGES:
        if stage not in ("abandoned", "lapsed"):
            number, stages = file_by(office, WAYS[stage])
            want((stages[-1], stages[:-1]), (stage, rules["PASSED"][stage]), f"the stages behind {stage}")
            ask = refused(office, f"/files/{number}/ask-extension", {"days": rules["LONGEST_EXTENSION"]["application"] + 1, "text": "."})
            wanted = (409, "days") if stage in rules["BEFORE_PERMIT"] else (200, None) if stage in rules["UNDER_PERMIT"] else (409, "stage")
            want(ask, wanted, f"more than may be asked for before a permit, in {stage}")
    want([rules["PASSED"][stage] for stage in ("abandoned", "lapsed")], [["filed"], rules["PASSED"]["working"]], "the stages behind a deadline")


def try_actors(people, office):
    """Who does what in rules.js is who may do it by the policy: each asks each command of a file that admits none."""
    rules = rules_of(people["official"])
    number, _ = file_by(office, WAYS["certified"])
    bodies = {"name-contractor": {"party": 3}, "resubmit": {"text": "."}, "refuse-extension": {"text": "."}, "clear-notice": {"paper": 1},
              "temporary": {"days": 1, "text": "."}, **BODIES}
    want(len(rules["COMMANDS"]), 22, "the commands on a file")
    for action, command in rules["COMMANDS"].items():
        may = []
        for who in LISTS["ROLES"]:
            status, _ = office.ask("POST", f"/files/{number}/{action}", bodies.get(action), who)
            want(status in (403, 409), True, f"{action} by the {who} of a certified file: {status}")
            may += [who] if status == 409 else []
        want(may, [who for who in LISTS["ROLES"] if who in [*command["who"], "official"]], f"rules.js: who does {action}")


def try_limits(people, office):
    """Each number of rules.js is the program's: what it allows is accepted, and one more is refused."""
    rules = rules_of(people["official"])
    fresh = {"parcel": 1, "kind": "alter", "valuation": 1, "description": "."}
    number, working = office.do("/files", fresh, "public"), file_in_work(office, "alter")
    want([rules[name] for name in ("TERM", "NEAR", "LONGEST_EXTENSION", "LONGEST_TEMPORARY", "LONGEST_TEXT")],
         [180, 30, {"application": 90, "permit": 180}, 180, 2000], "the numbers of the department's rules")
    for file in (number, working):
        shown = file_at(office, file)
        want(shown["deadline"] - shown["filed"], rules["TERM"], "rules.js: TERM")

    def edge(name, path, at, past, more_than="days"):
        want(refused(office, path, past), (400, None) if more_than is None else (409, more_than), f"rules.js: one more than {name}")
        want(refused(office, path, at)[0] in (200, 409), True, f"rules.js: {name}")

    longest = rules["LONGEST_EXTENSION"]
    for file, name in ((number, "application"), (working, "permit")):
        bodies = [{"days": longest[name] + more, "text": "."} for more in (0, 1)]
        edge(f"LONGEST_EXTENSION.{name}", f"/files/{file}/ask-extension", *bodies)
    edge("LONGEST_TEMPORARY", f"/files/{working}/temporary", *[{"days": rules["LONGEST_TEMPORARY"] + more, "text": "."} for more in (0, 1)])
    edge("LONGEST_TEXT", "/files", *[{**fresh, "description": "x" * (rules["LONGEST_TEXT"] + more)} for more in (0, 1)], None)
    edge("MOST_CENTS", "/files", *[{**fresh, "valuation": rules["MOST_CENTS"] + more} for more in (0, 1)], None)
    edge("LONGEST_LOT", "/parcels", *[{"lot": "L" * (rules["LONGEST_LOT"] + more), "address": ".", "owner": 5} for more in (0, 1)], None)
    edge("MOST_NUMBER", f"/files/{number}/assign-reviewer", *[{"party": rules["MOST_NUMBER"] + more} for more in (0, 1)], None)
    edge("MOST_PAPER", f"/files/{working}/clear-notice", *[{"paper": rules["MOST_PAPER"] + more} for more in (0, 1)], None)
    for size, status in ((rules["TOKEN_LETTERS"]["least"] - 1, 400), (rules["TOKEN_LETTERS"]["least"], 200),
                         (rules["TOKEN_LETTERS"]["most"], 200), (rules["TOKEN_LETTERS"]["most"] + 1, 400)):
        want(refused(office, "/parties", {"name": ".", "role": "public", "token": "t" * size})[0], status, f"rules.js: a token of {size}")


def try_steps(people, office):
    """The inspections of each kind in rules.js are those that the program asks for, and its certificates are the program's."""
    rules = rules_of(people["official"])
    for kind in LISTS["KINDS"]:
        number, steps = file_in_work(office, kind), []
        while (step := file_at(office, number)["next"]) is not None:
            steps.append(step)
            office.do(f"/files/{number}/request-inspection", {"step": step})
            office.do(f"/files/{number}/approve-step", {"step": step})
        want(rules["REQUIRED"][kind], steps, f"rules.js: the inspections of {kind}")
        wanted = (200, None) if kind in rules["CERTIFIABLE"] else (409, "kind")
        want(refused(office, f"/files/{number}/certify", {}), wanted, f"rules.js: the certificate of {kind}")


def try_deadlines(people, office):
    """Near and past deadlines are said in words, with the days that the office counts: the browser's clock stays behind."""
    official = people["official"]
    office.ending = prepare(office)
    near = rules_of(official)["NEAR"]
    number = office.do("/files", {"parcel": 1, "kind": "move", "valuation": 100, "description": "Shed"}, "public")
    official.open(f"files/{number}")
    want_in(", 180 days left", official.text("main .lead"), "on the day of the filing")
    office.restart(TODAY + timedelta(days=180 - near - 1))
    want(file_at(office, number)["timing"], "ahead", f"rules.js: NEAR, a day before {near} days are left")
    office.restart(TODAY + timedelta(days=180 - near))
    want(file_at(office, number)["timing"], "near", f"rules.js: NEAR, with {near} days left")
    official.reload()
    official.open(f"files/{number}")
    want_in("near: 30 days left", official.text("main .lead"), "150 days later")
    want_in("near: 30 days left", official.waits(number, "Applications that are abandoned within 30 days"), "what waits for the official")
    office.restart(TODAY + timedelta(days=180))
    official.reload()
    official.open(f"files/{number}")
    want_in("near: today is the last day", official.text("main .lead"), "180 days later")
    office.restart(TODAY + timedelta(days=181))
    official.reload()
    official.open(f"files/{number}")
    want_in("past by 1 day", official.text("main .lead"), "181 days later")
    want_in("Abandoned", official.text("main .lead"), "past its deadline")
    want_in("ended here", official.text("ol.way:has(.abandoned)"), "past its deadline")


def body_for(action, file):
    """A body that the state admits as far as can be, but for a party that isn't there."""
    notice = next((paper["number"] for paper in file["papers"] if paper["open"]), 1)
    step = {"step": file["request"] or file["next"] or "final"}
    return {"assign-reviewer": {"party": 99999}, "assign-inspector": {"party": 99999}, "name-contractor": {"party": 99999},
            "request-inspection": step, "approve-step": step, "clear-notice": {"paper": notice}, "temporary": {"days": 1, "text": "."},
            "resubmit": {"text": "."}, "refuse-extension": {"text": "."}}.get(action, BODIES.get(action))


def try_stages(people, office):
    """The page says of every command in every state of a file what the office says: each is tried."""
    official = people["official"]
    official.use()
    made = {name: file_by(office, WAYS[name])[0] for name in ("abandoned", "lapsed")}
    later = {name: [made[name], *(file_by(office, WAYS[name])[0] for _ in range(4))] for name in made}
    wrong = []

    def reasons_of(file):
        return official.browser.script_async(
            "const [file, tell] = arguments; import('/office/rules.js').then(rules => tell(Object.fromEntries("
            "Object.keys(rules.COMMANDS).map(action => [action, rules.reasonAgainst(action, file)]))))", file)

    def ask_each(state, fresh):
        file = file_at(office, fresh())
        for action, reason in reasons_of(file).items():
            if state in STATES and reason == "stage":
                continue
            status, given = refused(office, f"/files/{file['id']}/{action}", body_for(action, file))
            if status not in (200, 409) or (given if given in TOLD else None) != reason:
                wrong.append((state, action, reason, given or status))
            if status == 200:
                file = file_at(office, fresh())

    for stage in (stage for stage in WAYS if stage not in later):
        ask_each(stage, lambda stage=stage: file_by(office, WAYS[stage])[0])
    for state, (kind, actions) in STATES.items():
        ask_each(state, lambda kind=kind, actions=actions: file_by(office, actions, kind)[0])
    office.restart(TODAY + timedelta(days=400))
    for stage, numbers in later.items():
        ask_each(stage, iter(numbers).__next__)
    want(wrong, [], "what the page says against a command, and the office says otherwise")
