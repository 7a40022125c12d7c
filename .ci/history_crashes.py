"""Offices with their histories after crashes: older databases that are put back beside their text, and programs that are killed
while they serve, open or replay."""
import contextlib
import json
import os
import random
import signal
import sqlite3
import subprocess
import threading
import time
from concurrent.futures import ThreadPoolExecutor
from pathlib import Path

from histories import (CHIEF, DAY, FOUNDED, POLICY, PROGRAM, TODAY, Served, Wrong, begin_line, copy_database, digest, line, post, redid,
                       replay, rows_of, run, staffed, token_of, want, want_replayed, whole_lines)

# How many commands the text has that a database lacks which is put back.
BEHIND = (1000, 2, 1)
# Of the kills an eighth each are of openings that redo and of replays, and the others of this many offices that serve.
KILLED = 4


def left_behind(folder):
    """An office, and the databases that it had so many commands ago as BEHIND says."""
    office = staffed(folder, "ahead")
    older, served = {}, Served(office)
    try:
        with contextlib.closing(served.connect()) as connection:
            for left in range(max(BEHIND), 0, -1):
                if left in BEHIND:
                    older[left] = copy_database(office.db, Path(folder) / f"older-{left}.db")
                body, number = {"lot": f"O-{left}", "address": "1 Main St", "owner": 5}, 2 + max(BEHIND) - left
                want(post(connection, token_of(2), "/parcels", body), {"day": DAY, "done": "add-parcel", "number": number}, "a parcel")
                office.lines.append(line(DAY, 2, "add-parcel", number, body))
    finally:
        served.kill()
    office.check("served")
    return office, older


def behind(folder):
    """An older copy of the database is put back beside the text: each subcommand that opens it redoes the rest."""
    office, older = left_behind(folder)
    number, parcels = max(BEHIND) + 2, Path(folder) / "one.csv"
    parcels.write_text("lot,address,owner\nO-0,1 Main St,5\n")
    parcel = line(DAY, 2, "add-parcel", number, {"lot": "O-0", "address": "1 Main St", "owner": 5})
    token = "renewed0000000005"
    renewal = line(DAY, 0, "renew-token", None, {"digest": digest(token), "party": 5})

    def imported(other):
        return run("import", *other.asked(2), parcels)

    def renewed(other):
        return run("renew-token", "--db", other.db, "--party", 5, "--token", token, *other.history())

    def served(other):
        serving = Served(other)
        try:
            with contextlib.closing(serving.connect()) as connection:
                added = post(connection, token_of(2), "/parcels", {"lot": "O-0", "address": "1 Main St", "owner": 5})
        finally:
            err = serving.kill()
        return added, err

    for left, db in older.items():
        other = office.copy(folder, db)
        want(other.check_db()[0], 0, f"the comparison, {left} behind")
        lacks = run("history", "--history", other.text, "--db", db)
        want((lacks[0], lacks[2]), (0, f"history: the tables lack {left} commands\n"), f"what the tables lack, {left} behind")
        other.add_parcel(number, "O-0", redone=left)
        other.check(f"act, {left} behind")
        want_replayed(other, folder)
        for opened, said, more in [
            (imported, (0, f"1 added {number}\nadded 1 kept 0 refused 0\n", redid(left)), parcel),
            (renewed, (0, "party 5\n", redid(left)), renewal),
            (served, ({"day": DAY, "done": "add-parcel", "number": number}, redid(left)), parcel),
        ]:
            other = office.copy(folder, db)
            want(opened(other), said, f"{opened.__name__}, {left} behind")
            other.lines.append(more)
            other.check(f"{opened.__name__}, {left} behind")
            want_replayed(other, folder)
        other = office.copy(folder, db)
        want(replay(other, other.text), (0, f"replayed lines {len(office.lines)} new {left}\n", ""), f"replay, {left} behind")
        want(rows_of(other.db), rows_of(office.db), f"the rows of a replay, {left} behind")
    last_counts(folder, office)


def last_counts(folder, office):
    """Where several prefixes of a text give the tables, the last one counts, and nothing is redone."""
    before = copy_database(office.db, Path(folder) / "before.db")
    for to in (6, 5):
        office.done(2, "/parcels/1/transfer", {"to": to}, "transfer", None, {"to": to}, 1)
    other = office.copy(folder, before)
    other.add_parcel(max(BEHIND) + 2, "O-0")
    other.check("transferred there and back")
    want_replayed(other, folder)


def emptied(folder):
    """An empty database, as a crash of `init` leaves one, is founded from the text by whichever subcommand opens it; where the text
    founds no office nothing is changed."""
    office = staffed(folder, "emptied")
    token, parcel = "renewed0000000005", {"lot": "E-1", "address": "1 Main St", "owner": 5}
    records = Path(folder) / "emptied.csv"
    records.write_text("lot,address,owner\nE-1,1 Main St,5\n")
    empty = Path(folder) / "empty.db"
    empty.touch()
    for what, said, more in [
        ("act", "", None),
        ("import", "1 added 2\nadded 1 kept 0 refused 0\n", line(DAY, 2, "add-parcel", 2, parcel)),
        ("renew-token", "party 5\n", line(DAY, 0, "renew-token", None, {"digest": digest(token), "party": 5})),
        ("serve", "", None),
    ]:
        for count in (2, len(office.lines)):
            if count == 2 and what in ("import", "renew-token"):
                continue
            other = office.copy(folder, empty)
            other.lines = other.lines[:count]
            other.text.write_bytes(b"".join(other.lines))
            if what == "serve":
                served = Served(other)
                got = (0, "", served.kill())
            else:
                words = {"act": ["act", *other.asked(1), "GET", "/files"], "import": ["import", *other.asked(2), records],
                         "renew-token": ["renew-token", "--db", other.db, "--party", 5, "--token", token, *other.history()]}[what]
                got = run(*words)
            want((got[0], got[2]), (0, redid(count - 2)), f"{what} of an empty database and {count} lines")
            want(said in got[1], True, f"{what} of an empty database: {got[1]!r}")
            other.lines += [more] if more else []
            other.check(f"{what} of an empty database")
            want_replayed(other, folder)
    for bad in (b"", office.lines[0], b"".join(office.lines[1:]), b"".join(office.lines) + b"{}\n", begin_line(DAY, office.db)):
        other = office.copy(folder, empty)
        other.text.write_bytes(bad)
        status, out, _ = other.act(1, "GET", "/files")
        with contextlib.closing(sqlite3.connect(other.db)) as opened:
            tables = opened.execute("SELECT count(*) FROM sqlite_master").fetchone()[0]
        want((status, out, tables, other.text.read_bytes()), (2, "", 0, bad), f"an empty database and {bad[:40]!r}")
    foundings_that_are_killed(folder, 40)


def foundings_that_are_killed(folder, times):
    """An `init` that is killed has founded the office, or is done by the next opening or by another `init`."""
    luck, folder = random.Random(446), Path(folder)
    db, text = folder / "killed-founding.db", folder / "killed-founding.history"
    founding = ["init", "--db", db, "--name", "Chief", "--token", CHIEF, "--day", FOUNDED, "--history", text]
    opening = ["act", "--db", db, "--history", text, "--policy", POLICY, "--day", TODAY, "--token", CHIEF, "GET", "/files"]
    left = []
    for turn in range(times):
        for path in folder.glob("killed-founding.*"):
            path.unlink()
        process = subprocess.Popen([PROGRAM, *map(str, founding)], stdout=subprocess.DEVNULL, stderr=subprocess.DEVNULL)
        # Every other one is killed as soon as its text is begun.
        while turn % 2 and process.poll() is None and not (text.exists() and text.stat().st_size):
            pass
        time.sleep(luck.uniform(0, 0.02) if turn % 2 == 0 else 0)
        process.send_signal(signal.SIGKILL)
        process.wait()
        lines = text.read_bytes().count(b"\n") if text.exists() else 0
        if lines == 0:
            want(run(*founding), (0, "party 1\n", ""), "founding again")
        left.append(lines)
        want(run(*opening)[:2], (0, '{"files":[]}\n'), f"the opening after a founding that was killed with {lines} lines")
        want(run("check-db", "--db", db, "--history", text)[0], 0, "the comparison after a founding that was killed")
    print(f"history: {times} kills of a founding, {sum(map(bool, left))} with lines of its text")


def killed(words, luck):
    """Whether a run was killed that lasted longer than a random moment. One that ends before has to have done its work."""
    process = subprocess.Popen([PROGRAM, *map(str, words)], stdout=subprocess.PIPE, stderr=subprocess.PIPE)
    try:
        said = process.communicate(timeout=luck.uniform(0.005, 0.1))
    except subprocess.TimeoutExpired:
        process.send_signal(signal.SIGKILL)
        process.communicate()
        return True
    want(process.returncode, 0, f"{words[0]} that isn't killed: {said}")
    return False


def kill_often(times, words, luck, again):
    """Kills a run so many times. Once one has ended by itself, `again` puts back what it worked on."""
    count = 0
    for _ in range(20 * times):
        if count == times:
            return
        if killed(words, luck):
            count += 1
        else:
            again()
    raise Wrong(f"{words[0]} was killed {count} times of {times}, since it ends too soon")


def openings_that_are_killed(office, first, folder, times):
    """An opening that redoes the whole text over the office's first database is killed again and again, and whole in the end."""
    luck, other = random.Random(346), office.copy(folder, first)
    kill_often(times, ["act", *other.asked(5), "GET", "/files"], luck, lambda: copy_database(first, other.db))
    want(other.check_db()[0], 0, "the comparison after kills")
    want(other.act(5, "GET", "/files")[0], 0, "the opening after kills")
    want(other.text.read_bytes(), office.text.read_bytes(), "the text after kills")
    want(rows_of(other.db), rows_of(office.db), "the rows after kills")


def replays_that_are_killed(office, folder, times):
    """An office that is made of a text is killed meanwhile, again and again, and whole in the end."""
    luck, db = random.Random(246), Path(folder) / "killed-replay.db"

    def again():
        for end in ("", "-wal"):
            Path(f"{db}{end}").unlink(missing_ok=True)

    words = ["replay", "--settled", "--history", office.text, "--db", db]
    kill_often(times, words, luck, again)
    want(run(*words)[0], 0, "the replay after kills")
    want(rows_of(db), rows_of(office.db), "the rows after kills")
    want(run("check-db", "--db", db, "--history", office.text)[0], 0, "the comparison after kills")


def serve_and_kill(office, luck, turn):
    """Kills an office that serves four clients. The parcels that were answered as added, by their numbers."""
    served, found = Served(office), []

    def client(number):
        with contextlib.closing(served.connect()) as connection:
            for place in range(10_000):
                body = {"lot": f"K-{turn}-{number}-{place}", "address": "1 Main St", "owner": 5}
                answer = post(connection, token_of(2), "/parcels", body)
                if answer is None:
                    return
                found.append((answer.get("number"), body["lot"]))

    clients = [threading.Thread(target=client, args=(number,)) for number in range(4)]
    for thread in clients:
        thread.start()
    time.sleep(luck.uniform(0.02, 0.25))
    served.kill()
    for thread in clients:
        thread.join()
    return dict(found)


def kills_of_one(folder, number, times):
    """An office is killed so often: each time the next opening does each whole line, among them what was answered. What it had
    first, how much was answered, and how often a command was redone."""
    folder = Path(folder) / f"killed-{number}"
    folder.mkdir()
    office, luck = staffed(folder, "killed"), random.Random(46 + number)
    first = copy_database(office.db, folder / "first.db")
    answered, redone = {}, 0
    for turn in range(times):
        what = f"office {number}, kill {turn}"
        answered |= serve_and_kill(office, luck, turn)
        lines = whole_lines(office.text.read_bytes())
        want(office.check_db()[0], 0, f"{what}: the comparison")
        status, _, err = office.act(5, "GET", "/files")
        want((status, err in ("", redid(1))), (0, True), f"{what}: it opens with its history: {err!r}")
        redone += err != ""
        want(office.text.read_bytes(), b"".join(lines), f"{what}: the whole lines")
        parcels = dict((row[0], row[1]) for row in rows_of(office.db)["parcel"])
        told = {entry["number"]: entry["body"]["lot"] for entry in map(json.loads, lines) if entry["done"] == "add-parcel"}
        want(told, parcels, f"{what}: the parcels of the text and of the tables")
        if not answered.items() <= parcels.items():
            raise Wrong(f"{what}: answered and lost: {answered.items() - parcels.items()}")
    office.lines = lines
    return office, first, len(answered), redone


def kills(folder, count):
    """What was answered before a kill is in the tables and in the text, which go together again at the next opening."""
    others = count // 8
    times = [(count - 2 * others + place) // KILLED for place in range(KILLED)]
    with ThreadPoolExecutor(len(os.sched_getaffinity(0))) as pool:
        ended = list(pool.map(lambda number: kills_of_one(folder, number, times[number]), range(KILLED)))
    answered, redone = sum(one[2] for one in ended), sum(one[3] for one in ended)
    want(answered > 2 * sum(times), True, f"enough was answered: {answered}")
    want(redone > 0, True, "a kill between the line and its command")
    office, first = ended[0][:2]
    openings_that_are_killed(office, first, folder, others)
    replays_that_are_killed(office, folder, others)
    print(f"history: {sum(times)} kills of offices that served, after {redone} of which a command was redone; {others} kills of an opening that "
          f"redoes {len(office.lines)} lines, and {others} of a replay")
