"""Copies of an office with its history: how many are kept over a clock that is moved, what is refused and leaves nothing, and how
one is put back."""
import hashlib
import json
import os
import shutil
import subprocess
from datetime import date, timedelta

from installed import CHIEF, FOUNDED, ask, end, files_in, run, serve, want

# The days on which a copy is made: one after another, then one of a clock that was years ahead, and as before again.
KEPT = 3
FIRST = date(2026, 1, 5)
DAYS = [FIRST + timedelta(days=day) for day in range(4)] + [date(2031, 12, 24)] + [FIRST + timedelta(days=day) for day in (4, 5)]
CLERK = json.dumps({"name": "Cal", "role": "clerk", "token": "clerk2clerk2clerk2"})
LATE = json.dumps({"name": "Lee", "role": "clerk", "token": "late3late3late3late3"})


def found(root):
    """An office in the installed root with its history, and with the standard policy."""
    root.office.mkdir(parents=True)
    shutil.copy(root.path("usr/share/permit/policies/standard.toml"), root.office / "policy.toml")
    words = ["init", "--db", "office.db", "--history", "office.history", "--name", "Ada Chief", "--token", CHIEF, "--day", FOUNDED]
    founded = run(root.path("usr/bin/permit"), *words, cwd=root.office)
    want(founded == (0, "party 1\n"), f"founding: {founded}")


def sound(parties, text):
    """What is said of an office without parcels whose tables have all lines of its history."""
    lines = text.read_bytes()
    return f"sound parties {parties} parcels 0 files 0\nhistory lines {lines.count(10)} sha256 {hashlib.sha256(lines).hexdigest()}\n"


class Clock:
    """A folder for the path whose command `date` tells the day that it is set to."""

    def __init__(self, folder):
        self.folder = folder / "clock"
        self.folder.mkdir()
        (self.folder / "date").write_text(f'#!/bin/sh\nexec {shutil.which("date")} -d "$CLOCK" "$@"\n')
        (self.folder / "date").chmod(0o755)


def keep(root, clock, day, *words):
    """What the installed keep-backups says on a day, and its status."""
    path = f"{clock.folder}:{root.path('usr/bin')}:{os.environ['PATH']}"
    environment = {**os.environ, "PATH": path, "CLOCK": f"{day} 02:30"}
    return run(root.path("usr/libexec/permit/keep-backups"), *map(str, words), env=environment)


def try_kept(root, folder):
    """The last copies are kept, in the order in which they were made, whatever the clock says."""
    copies, clock, names = folder / "copies", Clock(folder), []
    copies.mkdir()
    # A copy that was never finished, and what is none.
    (copies / "new").mkdir()
    (copies / "note").touch()
    for number, day in enumerate(DAYS, 1):
        names.append(f"{number:06}-{day}")
        wanted = f"kept {names[-1]}: {sound(1, root.office / 'office.history')}"
        if number > KEPT:
            wanted += f"removed {names[-1 - KEPT]}\n"
        said = keep(root, clock, day, root.office / "office.db", copies, KEPT)
        want(said == (0, wanted), f"a copy on {day}: {said}, and not {wanted!r}")
        there = {path.name for path in copies.iterdir()}
        want(there == {*names[-KEPT:], "note"}, f"after the copy on {day} there are {sorted(there)}")
    try_refused(root, clock, copies)
    try_other_offices(root, clock, folder)


def try_other_offices(root, clock, folder):
    """An office without a history is copied, and one whose history begins with a copy of it; one with another's history is refused."""
    other, copies = folder / "other", folder / "copies-of-other"
    other.mkdir()
    copies.mkdir()
    db, text = (shutil.copy(root.office / f"office.{end}", other / f"office.{end}") for end in ("db", "history"))
    text.write_text(text.read_text().replace("Ada Chief", "Eva Chief"))
    said = keep(root, clock, FIRST, db, copies, KEPT)
    want(said == (1, "keep-backups: the new copy is refused, and is not kept: history: differs\n"), f"another's history: {said}")
    want(not list(copies.iterdir()), "a copy with another's history is kept")
    text.unlink()
    said = keep(root, clock, FIRST, db, copies, KEPT)
    want(said == (0, f"kept 000001-{FIRST}: sound parties 1 parcels 0 files 0\n"), f"an office without a history: {said}")
    begun = run(root.path("usr/bin/permit"), "begin-history", "--db", db, "--history", text)
    want(begun == (0, f"history begun {FOUNDED}\n"), f"a history that begins with a copy: {begun}")
    shutil.copy(db, other / "office.begun")
    said = keep(root, clock, FIRST, db, copies, KEPT)
    want(said == (0, f"kept 000002-{FIRST}: {sound(1, text)}"), f"an office whose history begins with a copy: {said}")
    there = files_in(copies / f"000002-{FIRST}")
    want({"office.db", "office.history", "office.begun"} <= there, f"the copy of an office whose history begins with a copy: {sorted(there)}")


def try_refused(root, clock, copies):
    """What can't be copied is said in a line, and removes nothing and leaves nothing."""
    office, before = root.office / "office.db", files_in(copies)
    damaged = copies.parent / "damaged.db"
    damaged.write_bytes(office.read_bytes()[:40000])
    missing, there = copies.parent / "none.db", copies.parent / "there"
    usage = "usage: keep-backups OFFICE.db FOLDER N, where N is 1 to 9999\n"
    nothing = "keep-backups: there is no new copy\n"
    rows = [
        ((missing, copies, KEPT), 1, f"permit-backup: {missing} is not there, or is no file\n{nothing}"),
        ((root.office, copies, KEPT), 1, f"permit-backup: {root.office} is not there, or is no file\n{nothing}"),
        (("/dev/zero", copies, KEPT), 1, f"permit-backup: /dev/zero is not there, or is no file\n{nothing}"),
        ((damaged, copies, KEPT), 1, "keep-backups: the new copy is refused, and is not kept: database: damaged\n"),
        ((office, there, KEPT), 1, f"keep-backups: {there} is not there, or is no folder\n"),
        ((office, office, KEPT), 1, f"keep-backups: {office} is not there, or is no folder\n"),
        *(((office, copies, number), 2, usage) for number in ("0", "03", "-1", "10000", "")),
        ((office, copies), 2, usage),
    ]
    for words, status, line in rows:
        said = keep(root, clock, FIRST, *words)
        want(said == (status, line), f"keep-backups {words}: {said}, and not {(status, line)}")
    want(files_in(copies) == before, "a copy that was refused changed the copies")
    try_refused_by_hand(root, office, copies)


def try_refused_by_hand(root, office, copies):
    """permit-backup says in a line what it can't copy, and leaves nothing behind."""
    command, missing, there = root.path("usr/bin/permit-backup"), copies.parent / "none.db", copies.parent / "there"
    rows = [
        ((missing, there), 1, f"permit-backup: {missing} is not there, or is no file\n"),
        ((office, copies), 1, f"permit-backup: {copies} is there already\n"),
        ((office,), 2, "usage: permit-backup OFFICE.db FOLDER\n"),
    ]
    if os.geteuid() != 0:
        closed = shutil.copy(office, copies.parent / "closed.db")
        os.chmod(closed, 0)
        rows.append(((closed, there), 1, f"permit-backup: {closed} may not be read\n"))
    for words, status, line in rows:
        said = run(command, *words)
        want(said == (status, line), f"permit-backup {words}: {said}, and not {(status, line)}")
    want(run(command, office, there / "deep")[0] == 1, "permit-backup into no folder")
    # Found only once the copy has begun.
    logged = shutil.copy(office, copies.parent / "logged.db")
    (copies.parent / "logged.db-wal").mkdir()
    said = run(command, logged, there)
    want(said[0] == 1 and f"permit-backup: {logged}-wal can't be read\n" in said[1], f"permit-backup of a log that is a folder: {said}")
    want(not there.exists() and not missing.exists(), "permit-backup of what is not there leaves something")


def try_restored(root, folder):
    """The database of a copy that was made while the office served is put back, and the history redoes what came after it; with
    the copy's history the office is as it was when it was made."""
    db, copies, permit = root.office / "office.db", folder / "restored", root.path("usr/bin/permit")
    serving, port = serve(root)
    try:
        added = ask(port, "POST", "/parties", CLERK)
        want(added == (200, '{"day":19723,"done":"add-staff","number":2}'), f"a party: {added}")
        copied = run(root.path("usr/bin/permit-backup"), db, copies)
        want(copied == (0, ""), f"permit-backup: {copied}")
        want(ask(port, "POST", "/parties", LATE)[0] == 200, "a party after the copy")
    finally:
        end(serving)
    with db.open("r+b") as file:
        file.seek(0)
        file.write(bytes(4096))
    checked = run(permit, "check-db", "--db", copies / "office.db", "--history", copies / "office.history")
    want(checked == (0, sound(2, copies / "office.history")), f"check-db of the copy: {checked}")
    damaged = run(permit, "check-db", "--db", db)
    want(damaged == (2, "database: damaged\n"), f"check-db of an office without its first page: {damaged}")
    put_back(root, copies, "damaged", "office.db")
    after = '{"reason":"taken","refused":"not-admitted"}'
    try_again(root, "history: redid 1 commands\n", (409, after), "the database alone")
    put_back(root, copies, "later", "office.db", "office.history")
    try_again(root, "", (200, '{"day":19723,"done":"add-staff","number":3}'), "the database and the history")


def put_back(root, copies, aside, *names):
    """Sets the office's files aside and puts those of the copy in their place, a database with its log."""
    kept = root.office / aside
    kept.mkdir()
    for name in [each for name in names for each in ([name, f"{name}-wal"] if name.endswith(".db") else [name])]:
        if (root.office / name).exists():
            (root.office / name).rename(kept / name)
        if (copies / name).exists():
            shutil.copy(copies / name, root.office)


def try_again(root, said, late, what):
    """Serves what was put back: what it says first, and what it answers to the parties of before and after the copy."""
    serving, port = serve(root, stderr=subprocess.PIPE)
    try:
        again, later = ask(port, "POST", "/parties", CLERK), ask(port, "POST", "/parties", LATE)
        want(again == (409, '{"reason":"taken","refused":"not-admitted"}'), f"{what}: the party of before the copy: {again}")
        want(later == late, f"{what}: the party of after the copy: {later}")
    finally:
        printed = end(serving)
    want(printed == said, f"{what}: the program says {printed!r}")
