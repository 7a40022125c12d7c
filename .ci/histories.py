"""What the check of histories stands on: an office with its history, the lines that the history is to have, made a second time,
and what the program says of both. The program is PERMIT, or the one that the gate or an earlier run left."""
import contextlib
import hashlib
import http.client
import json
import os
import shutil
import signal
import sqlite3
import subprocess
import tempfile
from pathlib import Path

TOP = Path(__file__).resolve().parent.parent
PROGRAM = os.environ.get("PERMIT", str(TOP / "crates/permit/out/permit"))
POLICY = str(TOP / "policies/standard.toml")
CHIEF, FOUNDED, TODAY = "abcdefghijklmnopqrstuvwxyz", "2023-12-09", "2024-01-01"
FOUNDING_DAY, DAY = 19700, 19723  # days since 1970-01-01
ROLES = ["public", "clerk", "reviewer", "inspector", "official"]


class Wrong(Exception):
    """The program did something else than is wanted."""


def want(got, wanted, what):
    if got != wanted:
        raise Wrong(f"{what}\n  wanted {wanted!r}\n  got    {got!r}")


def run(*words, given=b""):
    """The program's status, and what it wrote to its two streams."""
    done = subprocess.run([PROGRAM, *map(str, words)], input=given, capture_output=True, timeout=300)
    return done.returncode, done.stdout.decode(), done.stderr.decode()


def digest(token):
    return hashlib.sha256(token.encode()).hexdigest()


def token_of(party):
    return CHIEF if party == 1 else f"token{party:05}token{party:05}"


def redid(count):
    """What an opening prints on standard error that redoes so many commands."""
    return f"history: redid {count} commands\n" if count else ""


def whole_lines(text):
    """The lines of a text that have their LF."""
    return text.splitlines(keepends=True)[:text.count(b"\n")]


def line(day, caller, done, number, body, about=None):
    """The line of an entry."""
    entry = {"body": body, "caller": caller, "day": day, "done": done, "id": about, "number": number}
    return json.dumps(entry, sort_keys=True, separators=(",", ":"), ensure_ascii=False).encode() + b"\n"


def rows_of(db):
    """The rows of all tables, read from a copy of the file and its log."""
    with tempfile.TemporaryDirectory() as folder:
        for end in ("", "-wal"):
            if Path(f"{db}{end}").exists():
                shutil.copy(f"{db}{end}", folder)
        with contextlib.closing(sqlite3.connect(Path(folder) / Path(db).name)) as conn:
            want(conn.execute("PRAGMA integrity_check").fetchall(), [("ok",)], "sqlite3 on the office")
            return {table: conn.execute(f"SELECT * FROM {table} ORDER BY 1, 2").fetchall()
                    for table in ("desk", "party", "parcel", "interest", "file", "paper")}


class Office:
    """An office in a database, with its history beside it, and the lines that the history is to have."""

    # The copy of the database with which the history begins; without one it begins with the founding.
    start = None

    def __init__(self, folder, name="office"):
        self.db, self.text = Path(folder) / f"{name}.db", Path(folder) / f"{name}.history"
        words = ["init", "--db", self.db, "--name", "Chief", "--token", CHIEF, "--day", FOUNDED, "--history", self.text]
        want(run(*words), (0, "party 1\n", ""), "founding")
        self.lines = [line(FOUNDING_DAY, 0, "found", 1, {"digest": digest(CHIEF), "name": "Chief"}),
                      line(FOUNDING_DAY, 0, "upgrade", None, {})]
        self.check("founding")

    def check(self, what):
        """The text has the lines, and the tables are those of a prefix of it; the next opening says how long that is."""
        want(self.text.read_bytes(), b"".join(self.lines), f"{what}: the text")
        want(self.check_db()[::2], (0, ""), f"{what}: the comparison")
        want(Path(f"{self.text}-wal").exists(), False, f"{what}: a log beside the text")

    def history(self):
        """The words for the history."""
        return ["--history", self.text, *(["--from", self.start] if self.start else [])]

    def check_db(self, *words):
        return run("check-db", "--db", self.db, *self.history(), *words)

    def asked(self, party):
        """The words of a subcommand by a party."""
        return ["--db", self.db, "--policy", POLICY, "--token", token_of(party), "--day", TODAY, *self.history()]

    def act(self, party, method, path, body=None):
        return run("act", *self.asked(party), method, path, *([json.dumps(body)] if body is not None else []))

    def done(self, party, path, body, done, number, entry, about=None, redone=0):
        """A command that is done, its line, and how many were redone before."""
        answer = {"day": DAY, "done": done, "number": number}
        want(self.act(party, "POST", path, body), (0, json.dumps(answer, separators=(",", ":")) + "\n", redid(redone)), f"POST {path}")
        self.lines.append(line(DAY, party, done, number, entry, about))

    def add_party(self, number, role):
        """A new party by the first."""
        body = {"name": f"Party {number}", "role": role, "token": token_of(number)}
        done = "add-party" if role == "public" else "add-staff"
        entry = {"digest": digest(token_of(number)), "name": body["name"], "role": role}
        self.done(1, "/parties", body, done, number, entry)

    def add_parcel(self, number, lot, redone=0):
        """A new parcel by the second party, a clerk."""
        body = {"lot": lot, "address": "1 Main St", "owner": 5}
        self.done(2, "/parcels", body, "add-parcel", number, body, redone=redone)

    def copy(self, folder, db=None):
        """The text once more, with the database or with an older one."""
        other = object.__new__(Office)
        other.db, other.text, other.lines = Path(folder) / "copy.db", Path(folder) / "copy.history", list(self.lines)
        other.start = self.start
        copy_database(db or self.db, other.db)
        shutil.copy(self.text, other.text)
        return other


def copy_database(db, to):
    """Copies a database that nothing writes to, with its log."""
    shutil.copy(db, to)
    Path(f"{to}-wal").unlink(missing_ok=True)
    if Path(f"{db}-wal").exists():
        shutil.copy(f"{db}-wal", f"{to}-wal")
    return to


def staffed(folder, name="office"):
    """An office with a party of each role, a parcel and a file."""
    office = Office(folder, name)
    for number, role in enumerate(["clerk", "reviewer", "inspector", "public", "public"], 2):
        office.add_party(number, role)
    parcel = {"lot": "A-1", "address": "1 Main St, \"Élan\"", "owner": 5}
    office.done(2, "/parcels", parcel, "add-parcel", 1, parcel)
    filed = {"parcel": 1, "kind": "repair", "valuation": 1, "description": "Roof"}
    office.done(5, "/files", filed, "file", 1, filed)
    return office


def replay(office, text, *words):
    """What `replay` says that leaves no line out."""
    return run("replay", "--settled", "--history", text, "--db", office.db, *(["--from", office.start] if office.start else []), *words)


def want_replayed(office, folder):
    """The office has the tables that its text gives, which is replayed to a new database."""
    new = Path(folder) / "replayed.db"
    for end in ("", "-wal"):
        Path(f"{new}{end}").unlink(missing_ok=True)
    count = len(office.lines)
    want(run("replay", "--settled", "--history", office.text, "--db", new), (0, f"replayed lines {count} new {count - 2}\n", ""), "the replay")
    want(rows_of(new), rows_of(office.db), "the rows that were replayed")


class Served:
    """The office under `permit serve`, with its history."""

    def __init__(self, office):
        words = ["serve", "--db", office.db, "--policy", POLICY, "--day", TODAY, "--listen", "127.0.0.1:0", "--workers", "4", *office.history()]
        self.process = subprocess.Popen([PROGRAM, *map(str, words)], stdout=subprocess.PIPE, stderr=subprocess.PIPE, text=True)
        said = self.process.stdout.readline()
        if not said.startswith("listening 127.0.0.1:"):
            raise Wrong(f"it doesn't serve: {said!r} {self.process.stderr.read()!r}")
        self.port = int(said.strip().rpartition(":")[2])

    def connect(self):
        return http.client.HTTPConnection("127.0.0.1", self.port, timeout=20)

    def kill(self):
        """What it wrote to standard error until it was killed."""
        self.process.send_signal(signal.SIGKILL)
        return self.process.communicate()[1]


def post(connection, token, path, body):
    """What one command is answered; None where the connection ends before."""
    headers = {"Authorization": f"Bearer {token}", "Content-Type": "application/json"}
    try:
        connection.request("POST", path, json.dumps(body) if body is not None else None, headers)
        return json.loads(connection.getresponse().read())
    except (OSError, http.client.HTTPException, ValueError):
        return None


KINDS = ["construct", "enlarge", "alter", "repair", "move", "demolish", "occupancy"]
STEPS = ["footing", "slab", "frame", "lath", "final", "energy"]
STAGES = ["filed", "review", "returned", "approved", "rejected", "issued", "working", "revoked", "finaled", "certified"]
SORTS = ["permit", "returned", "resubmitted", "rejected", "asked", "granted", "refused", "notice", "stop", "lifted", "revoked", "temporary",
         "certificate"]
TRUTHS = ["false", "true"]


def columns(conn, table, order):
    """The rows of a table, each column by its name."""
    found = conn.execute(f"SELECT * FROM {table} ORDER BY {order}")
    names = [column[0] for column in found.description]
    return [dict(zip(names, row)) for row in found]


def seal(db):
    """The SHA-256 of the text of an office's tables, as docs/HISTORY.md has it."""
    lines = []

    def add(word, *cells):
        lines.append("\t".join([word, *("" if cell is None else str(cell) for cell in cells)]))

    def unless(absent, value):
        return None if value == absent else value

    with contextlib.closing(sqlite3.connect(f"file:{db}?mode=ro", uri=True)) as conn:
        (desk,), (upgrade,) = columns(conn, "desk", 1), columns(conn, "upgrade", 1)
        papers = columns(conn, "paper", "file, number")
        add("desk", desk["version"], desk["last"], desk["parties"], desk["parcels"], desk["files"])
        for row in columns(conn, "party", "id"):
            add("party", row["id"], row["name"], ROLES[row["role"]], row["digest"])
        for row in columns(conn, "parcel", "id"):
            add("parcel", row["id"], row["lot"], row["address"], row["owner"])
        for row in columns(conn, "interest", "parcel, party"):
            add("interest", row["parcel"], row["party"])
        for row in columns(conn, "file", "id"):
            people = [unless(0, row[who]) for who in ("contractor", "reviewer", "inspector")]
            add("file", row["id"], row["parcel"], row["applicant"], KINDS[row["kind"]], 1 if row["id"] <= upgrade["files"] else 2, row["filed"],
                *people, STAGES[row["stage"]], unless(-1, row["deadline"]), unless(0, row["ask"]), unless(-1, row["temporary"]), row["done"],
                None if row["request"] == -1 else STEPS[row["request"]], unless(-1, row["requested"]), TRUTHS[row["stopped"]], row["notices"],
                row["papers"], row["valuation"], row["description"])
            for paper in (paper for paper in papers if paper["file"] == row["id"]):
                add("paper", paper["file"], paper["number"], paper["day"], paper["author"], SORTS[paper["sort"]], paper["days"], paper["text"],
                    paper["terms"], TRUTHS[paper["open"]])
    return hashlib.sha256("".join(f"{text}\n" for text in lines).encode()).hexdigest()


def begin_line(day, db):
    return line(day, 0, "begin", None, {"tables": seal(db)})
