"""What the checks share that try an office on a disk that refuses: the program, an office that serves, and what a
database keeps. The program is PERMIT, or the one that the gate or an earlier run left."""
import contextlib
import hashlib
import http.client
import json
import os
import re
import shutil
import signal
import sqlite3
import subprocess
import tempfile
from pathlib import Path

TOP = Path(__file__).resolve().parent.parent
PROGRAM = os.environ.get("PERMIT", str(TOP / "crates/permit/out/permit"))
POLICY = str(TOP / "policies/standard.toml")
# An office of version 1, and how many files it has.
OLD, OLD_FILES = TOP / ".ci/version-1/forty-files.db", 40
OFFICIAL, DAY, DAY_NUMBER = "abcdefghijklmnopqrstuvwxyz", "2024-01-01", 19723
ROLE_OF_OFFICIAL = 4
# What the program says where the database or the history can't be opened, and of a command that the store refuses.
UNOPENED = (2, "", "database: store\n")
UNREAD = (2, "", "history: store\n")
REFUSED = (1, '{"refused":"store"}\n', "refused: store\n")
# What an opening says that redid what the text of a history has beyond the tables.
REDID = re.compile(r"^history: redid [1-9]\d* commands\n")
# What the test of an office says of its history: how many of the text's lines give the tables, and their SHA-256.
EVIDENCE = re.compile(r"history lines (\d+) sha256 ([0-9a-f]{64})\n")
# What an office that is served ends with once its database is shut.
SHUT = (1, "", "refused: store\n")


class Wrong(Exception):
    """The program did something else than is wanted."""


def want(got, wanted, what):
    if got != wanted:
        raise Wrong(f"{what}\n  wanted {repr(wanted)[:800]}\n  got    {repr(got)[:800]}")


# ---- the program on a database

def run(*words, environment=None):
    """The program's status, below 0 where a signal ended it, and what it wrote to its two streams."""
    done = subprocess.run([PROGRAM, *map(str, words)], capture_output=True, text=True, timeout=120, env=environment)
    return done.returncode, done.stdout, done.stderr


def run_with_history(*words, environment=None):
    """The same of an office that may have a history, but for what its opening redid."""
    status, out, err = run(*words, environment=environment)
    return status, out, REDID.sub("", err)


def init_words(db):
    return ["init", "--db", db, "--name", "Chief", "--token", OFFICIAL, "--day", DAY]


def text_of(db):
    """The file of the history of an office that keeps one."""
    return Path(f"{db}.history")


def history_of(db):
    """The words for that file, where it is there."""
    return ["--history", text_of(db)] if text_of(db).exists() else []


def asked(db):
    """The words of every subcommand that asks an office."""
    return ["--db", db, "--policy", POLICY, "--token", OFFICIAL, "--day", DAY, *history_of(db)]


def parcel(lot):
    """The body of a command that adds a parcel."""
    return {"lot": lot, "address": f"{lot} Main St " + "x" * 400, "owner": 1}


def add_words(db, lot):
    return ["act", "POST", "/parcels", json.dumps(parcel(lot)), *asked(db)]


def added(number):
    """What is printed of a parcel that was added."""
    return f'{{"day":{DAY_NUMBER},"done":"add-parcel","number":{number}}}'


def check_db(db):
    """The test of the tables, and where there is a history whether they are its own. What it says of its lines is so."""
    status, out, err = run("check-db", "--db", db, *history_of(db))
    if status != 0 or not text_of(db).exists():
        return status, out, err
    sound, _, evidence = out.partition("\n")
    found, text = EVIDENCE.fullmatch(evidence), text_of(db).read_bytes()
    want(found is not None, True, f"the evidence in {out!r}")
    lines = text.split(b"\n")[:int(found[1])]
    want(found[2], hashlib.sha256(b"".join(line + b"\n" for line in lines)).hexdigest(), "the SHA-256 of the lines that give the tables")
    want(int(found[1]) <= text.count(b"\n"), True, f"so many lines of {text.count(10)}: {found[1]}")
    return status, f"{sound}\n", err


class Office:
    """The office under `permit serve`, which takes a connection for each request."""

    def __init__(self, db, *more, environment=None):
        words = ["serve", "--db", db, "--policy", POLICY, "--listen", "127.0.0.1:0", "--day", DAY, *history_of(db), *more]
        given = {"stdout": subprocess.PIPE, "stderr": subprocess.PIPE, "text": True, "env": environment}
        self.process = subprocess.Popen([PROGRAM, *map(str, words)], **given)
        line = self.process.stdout.readline()
        self.serves = line.startswith("listening 127.0.0.1:")
        self.port = int(line.strip().rpartition(":")[2]) if self.serves else None

    def ask(self, method, path, token=OFFICIAL, body=None):
        """The status and the body of the answer to one request on a connection of its own."""
        if self.process.poll() is not None:
            raise Wrong(f"the server ended with status {self.process.returncode}")
        connection = http.client.HTTPConnection("127.0.0.1", self.port, timeout=60)
        try:
            headers = {"Authorization": f"Bearer {token}"}
            connection.request(method, path, json.dumps(body) if body else None, headers)
            answer = connection.getresponse()
            return answer.status, answer.read().decode()
        except (OSError, http.client.HTTPException) as error:
            raise Wrong(f"{method} {path} is not answered: {error!r}") from error
        finally:
            connection.close()

    def add(self, lot, token=OFFICIAL):
        """The number of the parcel that was added, or None where that was refused for the store."""
        status, answer = self.ask("POST", "/parcels", token, parcel(lot))
        if (status, answer) == (500, '{"refused":"store"}'):
            return None
        number = json.loads(answer).get("number")
        want((status, answer), (200, added(number)), f"the answer to lot {lot}")
        return number

    def ends(self, seconds=2):
        """Whether it ends by itself so soon."""
        try:
            self.process.wait(timeout=seconds)
        except subprocess.TimeoutExpired:
            return False
        return True

    def ended(self, seconds=60):
        """Its status, and what it has written beside the line with the address, once it ends by itself."""
        out, err = self.process.communicate(timeout=seconds)
        return self.process.returncode, out, err

    def end(self):
        """Ends it as an operator does."""
        if self.process.poll() is None:
            self.process.send_signal(signal.SIGTERM)
        self.ended()


# ---- what a database keeps

class Kept:
    """What a database keeps: its schema, and the rows of each table in order."""

    def __init__(self, schema, rows):
        self.schema, self.rows = schema, rows

    def __eq__(self, other):
        return (self.schema, self.rows) == (other.schema, other.rows)

    def __repr__(self):
        return repr({name: rows for name, rows in self.rows.items() if rows})

    def lots(self):
        """The lots of its parcels by their numbers."""
        return {number: lot for number, lot, _, _ in self.rows["parcel"]}

    def with_parcels(self, lots):
        """The same office with parcels more, which were added on the day."""
        (desk, version, last, parties, parcels, files), = self.rows["desk"]
        last = DAY_NUMBER if lots else last
        more = [(number, lot, parcel(lot)["address"], 1) for number, lot in sorted(lots.items())]
        rows = {"desk": [(desk, version, last, parties, parcels + len(more), files)], "parcel": self.rows["parcel"] + more}
        return Kept(self.schema, {**self.rows, **rows})

    def upgraded(self, schema, files):
        """The same office of version 1, upgraded to the schema of a founded one."""
        (desk, _, *rest), = self.rows["desk"]
        return Kept(schema, {**self.rows, "desk": [(desk, 2, *rest)], "upgrade": [(1, files)]})

    def sound(self):
        """What `check-db` says of it."""
        _, _, _, parties, parcels, files = self.rows["desk"][0]
        return 0, f"sound parties {parties} parcels {parcels} files {files}\n", ""


@contextlib.contextmanager
def copied(db):
    """A copy of the database with its log, which sqlite3 may change, in a folder of its own."""
    db = Path(db)
    with tempfile.TemporaryDirectory() as elsewhere:
        for name in (db.name, f"{db.name}-wal"):
            if (db.parent / name).exists():
                shutil.copy(db.parent / name, elsewhere)
        yield Path(elsewhere) / db.name


def kept(db):
    """What the database keeps as sqlite3 has it, which finds nothing wrong with it."""
    with copied(db) as copy, contextlib.closing(sqlite3.connect(copy)) as conn:
        found = conn.execute("PRAGMA integrity_check").fetchall() + conn.execute("PRAGMA foreign_key_check").fetchall()
        want(found, [("ok",)], f"sqlite3 on {db}")
        schema = conn.execute("SELECT type, name, tbl_name, sql FROM sqlite_schema ORDER BY rowid").fetchall()
        tables = [name for kind, name, _, _ in schema if kind == "table"]
        return Kept(schema, {name: conn.execute(f"SELECT * FROM {name} ORDER BY rowid").fetchall() for name in tables})


def want_founding(office):
    """The database keeps a founding of this version alone."""
    digest = hashlib.sha256(OFFICIAL.encode()).hexdigest()
    rows = {name: rows for name, rows in office.rows.items() if rows}
    wanted = {"desk": [(1, 2, DAY_NUMBER, 1, 0, 0)], "party": [(1, "Chief", ROLE_OF_OFFICIAL, digest)], "upgrade": [(1, 0)]}
    want(rows, wanted, "what a founding leaves")


def founded(db, history=False):
    """Founds an office, with a history or without, and gives what it keeps."""
    more = ["--history", text_of(db)] if history else []
    want(run(*init_words(db), *more), (0, "party 1\n", ""), "founding")
    office = kept(db)
    want_founding(office)
    return office


def cleared(folder):
    """Takes the database and its log out of a folder, and gives the place of the database."""
    for old in Path(folder).glob("office.db*"):
        old.unlink()
    return Path(folder) / "office.db"
