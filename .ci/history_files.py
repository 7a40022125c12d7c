"""The file of a history that isn't as the program left it: what is no file of its own, a file that is made in vain, one that isn't
named, one that another program changes while the office serves, and one with commands that the tables lack."""
import contextlib
import json
import os
import shutil
import subprocess
from pathlib import Path

from histories import (CHIEF, DAY, FOUNDED, POLICY, PROGRAM, TODAY, TOP, Office, Served, Wrong, begin_line, copy_database, line, redid,
                       rows_of, run, staffed, token_of, want, whole_lines)

NEW_TOKEN = "renewed0000000005"
REFUSED = (500, {"refused": "store"})
# The subcommands that take a history: those that keep one, those that begin one in a new file, and those that only read one.
KEEP, BEGIN, READ = ("act", "import", "serve", "renew-token"), ("init", "upgrade", "begin-history"), ("check-db", "history", "replay")


def words_of(subcommand, db, folder):
    """The words of a subcommand on a database, but for its history."""
    asked, records = ["--db", db, "--policy", POLICY, "--day", TODAY], Path(folder) / "more.csv"
    records.write_text("lot,address,owner\nM-1,1 Main St,5\n")
    return [subcommand, *{
        "act": [*asked, "--token", CHIEF, "POST", "/parcels/1/declare"],
        "import": [*asked, "--token", token_of(2), records],
        "serve": [*asked, "--listen", "127.0.0.1:0"],
        "renew-token": ["--db", db, "--party", 5, "--token", NEW_TOKEN],
        "init": ["--db", db, "--name", "Chief", "--token", CHIEF, "--day", FOUNDED],
        "history": [],
        "replay": ["--settled", "--db", db],
    }.get(subcommand, ["--db", db])]


def ended(*words):
    """What the program says that doesn't wait, as it would for a pipe."""
    try:
        done = subprocess.run([PROGRAM, *map(str, words)], stdin=subprocess.DEVNULL, capture_output=True, timeout=60)
    except subprocess.TimeoutExpired:
        raise Wrong(f"{words} doesn't end") from None
    return done.returncode, done.stdout.decode(), done.stderr.decode()


def no_files(folder):
    """A pipe, a device, a folder and a file with two names are no histories, by whichever subcommand, and nothing is changed."""
    office = staffed(folder, "no-file")
    plain, old = copy_database(office.db, Path(folder) / "plain.db"), Path(folder) / "old-of-no-file.db"
    shutil.copy(TOP / ".ci/version-1/forty-files.db", old)
    pipe, here, linked, second = (Path(folder) / name for name in ("a-pipe", "a-folder", "linked", "second-name"))
    os.mkfifo(pipe)
    here.mkdir()
    shutil.copy(office.text, linked)
    os.link(linked, second)
    held, text, before = rows_of(plain), linked.read_bytes(), old.read_bytes()
    for subcommand in (*KEEP, *BEGIN, *READ):
        db = {"init": Path(folder) / "never.db", "upgrade": old}.get(subcommand, plain)
        for path in (pipe, here, linked, Path("/dev/zero")):
            said = f"cannot read {path}\n" if subcommand in READ else "history: store\n"
            want(ended(*words_of(subcommand, db, folder), "--history", path), (2, "", said), f"{subcommand} with {path}")
    want((rows_of(plain), linked.read_bytes(), old.read_bytes()), (held, text, before), "the office, its text and the old office")
    want((Path(folder) / "never.db").exists(), False, "no database is made")
    want(sorted(here.iterdir()), [], "nothing is made in the folder")


def other_databases(folder):
    """The database of another office is no history, and its log, which has what was done there, is left as it is."""
    office, other = staffed(folder, "one-of-two"), staffed(folder, "other-of-two")
    plain, old = copy_database(office.db, Path(folder) / "plain-of-two.db"), Path(folder) / "old-of-two.db"
    shutil.copy(TOP / ".ci/version-1/forty-files.db", old)
    served = Served(other)
    try:
        with contextlib.closing(served.connect()) as connection:
            want(answered(connection, "POST", "/parcels/1/declare", CHIEF)[0], 200, "a command of the other office")
    finally:
        served.kill()
    kept = {path: path.read_bytes() for path in Path(folder).glob("other-of-two*")}
    want(len(kept[Path(f"{other.db}-wal")]) > 0, True, "the other office has a log")
    read = "history: line 1\n" if b"\n" in kept[other.db] else "history: short\n"
    for subcommand in (*KEEP, *BEGIN, *READ):
        db = {"init": Path(folder) / "never-of-two.db", "upgrade": old}.get(subcommand, plain)
        said = "history: exists\n" if subcommand in BEGIN else read
        want(ended(*words_of(subcommand, db, folder), "--history", other.db), (2, "", said), f"{subcommand} with another office's database")
        want({path: path.read_bytes() for path in Path(folder).glob("other-of-two*")}, kept, f"the other office after {subcommand}")
    other.lines.append(line(DAY, 1, "declare", None, {}, 1))
    want(other.act(5, "GET", "/files")[0], 0, "the other office opens")
    other.check("the other office")


def in_vain(folder):
    """A file that `init`, `upgrade` or `begin-history` made is removed where they fail, and one that was there is left."""
    plain, none = Path(folder) / "in-vain.db", Path(folder) / "none" / "office.db"
    want(run(*words_of("init", plain, folder)), (0, "party 1\n", ""), "founding without a history")
    text, held = plain.with_suffix(".history"), rows_of(plain)
    for words, said in [(words_of("init", plain, folder), "database: exists"), (words_of("init", none, folder), "database: store"),
                        (words_of("upgrade", plain, folder), "database: version"), (words_of("upgrade", none, folder), "database: store"),
                        (words_of("begin-history", none, folder), "database: store")]:
        want(run(*words, "--history", text), (2, "", f"{said}\n"), f"{words[0]}, {said}")
        want(text.exists(), False, f"a file that {words[0]} made, {said}")
        text.touch()
        want(run(*words, "--history", text), (2, "", f"{said}\n"), f"{words[0]} with an empty file, {said}")
        want(text.read_bytes(), b"", f"an empty file that was there, {words[0]}")
        text.unlink()
    want(run("act", "--db", plain, "--policy", POLICY, "--day", TODAY, "--token", CHIEF, "GET", "/files")[0], 0, "the office without a history")
    want(rows_of(plain), held, "the tables")


def unused(folder):
    """Where a history is beside the database and isn't named, what would change the office is refused, unless that is asked for."""
    office, old = staffed(folder, "forgotten"), Path(folder) / "forgotten-old.db"
    shutil.copy(TOP / ".ci/version-1/forty-files.db", old)
    old.with_suffix(".history").write_bytes(office.text.read_bytes())
    opened = [words_of(subcommand, office.db, folder) for subcommand in KEEP] + [words_of("upgrade", old, folder)]
    held, closed, before = rows_of(office.db), office.db.read_bytes(), old.read_bytes()
    for words in opened:
        beside = old.with_suffix(".history") if words[0] == "upgrade" else office.text
        why = f"{beside}: there is a history, which isn't named\n"
        want(run(*words), (2, "", "history: unused\n"), f"{words[0]} without the history")
        want(run(*words, "--why"), (2, "", f"{why}history: unused\n"), f"{words[0]} --why")
        want(run(*words, "--no-history", "--history", beside)[:2], (2, ""), f"{words[0]} with and without the history")
    here = [word.name if word == office.db else word for word in opened[0]]
    done = subprocess.run([PROGRAM, *map(str, here)], cwd=folder, capture_output=True, text=True, timeout=60)
    want((done.returncode, done.stdout, done.stderr), (2, "", "history: unused\n"), "in the office's folder")
    asked = ["--db", office.db, "--policy", POLICY, "--day", TODAY]
    for words in (["list", *asked, "--token", CHIEF], ["register", "files", *asked, "--token", CHIEF], ["check-db", "--db", office.db]):
        want(run(*words)[0], 0, f"{words[0]} without the history")
    want((rows_of(office.db), office.db.read_bytes(), old.read_bytes()), (held, closed, before), "the databases")
    office.check("forgotten")
    unused_on_purpose(folder, office, old)


def unused_on_purpose(folder, office, old):
    """What `--no-history` does, and a database of another name, beside which no history is looked for."""
    want(run("upgrade", "--db", old, "--no-history"), (0, "upgraded files 40\n", ""), "an upgrade with --no-history")
    asked = ["act", "--db", office.db, "--policy", POLICY, "--day", TODAY, "--token", CHIEF, "--no-history"]
    want(run(*asked, "GET", "/files")[0], 0, "a reading with --no-history")
    office.check("a reading with --no-history")
    for subcommand in ("act", "import", "renew-token"):
        other = office.copy(folder)
        want(run(*words_of(subcommand, other.db, folder), "--no-history")[0], 0, f"{subcommand} --no-history")
        want(other.text.read_bytes(), b"".join(office.lines), f"the text after {subcommand} --no-history")
        want(other.act(5, "GET", "/files"), (2, "", "history: differs\n"), f"the history after {subcommand} --no-history")
    served_on_purpose(office.copy(folder))
    elsewhere = Path(shutil.copy(office.db, Path(folder) / "forgotten-too.sqlite"))
    elsewhere.with_suffix(".history").touch()
    want(run(*words_of("act", elsewhere, folder))[0], 0, "a database whose name doesn't end in .db")


def served_on_purpose(office):
    """The same of an office that serves."""
    text = office.text.read_bytes()
    office.history = lambda: ["--no-history"]
    served = Served(office)
    try:
        with contextlib.closing(served.connect()) as connection:
            want(answered(connection, "POST", "/parcels/1/declare", CHIEF)[0], 200, "a command with --no-history")
    finally:
        served.kill()
    del office.history
    want((office.text.read_bytes(), office.check_db()), (text, (2, "", "history: differs\n")), "after serve --no-history")


def lacking(folder):
    """How many of a text's last commands the tables of a database lack; the text and the database are only read."""
    office = staffed(folder, "lacking")
    older = copy_database(office.db, Path(folder) / "lacking-older.db")
    for to in (6, 4):
        office.done(2, "/parcels/1/transfer", {"to": to}, "transfer", None, {"to": to}, 1)
    words = ["history", "--history", office.text]
    status, shown, _ = run(*words)
    want((status, len(shown.splitlines())), (0, len(office.lines)), "the entries")
    kept = {path: path.read_bytes() for path in Path(folder).glob("lacking*")}
    want(run(*words, "--db", office.db), (0, shown, ""), "the tables lack nothing")
    said = "history: the tables lack 2 commands\n"
    want(run(*words, "--db", older), (0, shown, said), "the tables lack two")
    want(run(*words, "--db", older, "--file", 1), (0, f"{TODAY} public 5 file file 1 parcel 1 repair\n", said), "of one file")
    want(run(*words, "--db", older, "--verify", 1, "0" * 64)[:2], (2, ""), "with --verify")
    stranger = Office(folder, "stranger-that-lacks")
    stranger.add_party(2, "reviewer")
    want(run(*words, "--db", stranger.db), (2, "", "history: differs\n"), "another office")
    want(run(*words, "--db", Path(folder) / "none.db"), (2, "", "database: store\n"), "no office")
    want({path: path.read_bytes() for path in Path(folder).glob("lacking*")}, kept, "the files")
    served = Served(office)
    try:
        want(run(*words, "--db", office.db), (2, "", "database: store\n"), "an office that is served")
    finally:
        served.kill()
    begun = Path(folder) / "lacking-begun.history"
    begun.write_bytes(begin_line(DAY, office.db))
    want(run("history", "--history", begun, "--db", office.db), (2, "", "history: copy\n"), "a text that begins with a copy")


def answered(connection, method, path, token, body=None):
    """The status and the body of an answer."""
    connection.request(method, path, json.dumps(body) if body else None, {"Authorization": f"Bearer {token}"})
    answer = connection.getresponse()
    return answer.status, json.loads(answer.read())


def watched(folder):
    """An office that serves finds before a command that another program changed the length of its text: it refuses that and ends,
    and what the next opening makes of the text is as after any other change of it."""
    office = staffed(folder, "watched")
    parcel = {"lot": "W-1", "address": "1 Main St", "owner": 5}
    lines = [*office.lines, line(DAY, 2, "add-parcel", 2, parcel)]
    text, more, last = b"".join(lines), line(DAY, 1, "declare", None, {}, 1), len(lines[-1])
    for what, left, said in [
        ("its last line cut off", text[:-last], "history: differs\n"),
        ("all but a byte of its last line cut off", text[:1 - last], "history: differs\n"),
        ("its last byte cut off", text[:-1], "history: differs\n"),
        ("all of it cut off", b"", "history: short\n"),
        ("a line appended", text + more, redid(1)),
        ("a part of a line appended", text + more[:-1], ""),
        ("an empty line appended", text + b"\n", f"history: line {len(lines) + 1}\n"),
    ]:
        other = office.copy(folder)
        changed_while_served(other, parcel, left, what)
        opened = other.act(5, "GET", "/files")
        want((opened[0], opened[2]), (0 if said in ("", redid(1)) else 2, said), f"the next opening, {what}")
        kept = b"".join(whole_lines(left)) if opened[0] == 0 else left
        want(other.text.read_bytes(), kept, f"the text after the next opening, {what}")


def changed_while_served(office, parcel, left, what):
    """Serves the office until its text is another one, which the next command finds. Nothing is appended then."""
    served = Served(office)
    try:
        with contextlib.closing(served.connect()) as connection:
            done = answered(connection, "POST", "/parcels", token_of(2), parcel)
            want(done, (200, {"day": DAY, "done": "add-parcel", "number": 2}), f"a command before, {what}")
            with office.text.open("r+b") as file:
                file.truncate(len(os.path.commonprefix([file.read(), left])))
                file.seek(0, os.SEEK_END)
                file.write(left[file.tell():])
            want(office.text.read_bytes(), left, f"the text, {what}")
            want(answered(connection, "GET", "/parcels/2", CHIEF)[0], 200, f"a read, {what}")
            want(answered(connection, "POST", "/parcels", token_of(2), {**parcel, "lot": "W-2"}), REFUSED, f"a command, {what}")
        with contextlib.suppress(subprocess.TimeoutExpired):
            served.process.wait(timeout=60)
        want(served.process.poll(), 1, f"the office ends by itself, {what}")
        want(served.process.stderr.read(), "refused: store\n", f"what the office says, {what}")
    finally:
        served.process.kill()
        served.process.communicate()
    want(office.text.read_bytes(), left, f"the text after the command, {what}")
    want([row[1] for row in rows_of(office.db)["parcel"]], ["A-1", "W-1"], f"the parcels, {what}")
