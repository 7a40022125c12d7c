"""Work on an office of which any part may be refused by its disk: what is answered is done, or is refused for the store,
and what the database keeps afterwards is judged by that."""
import json
import re
import shutil
from collections import namedtuple
from pathlib import Path

from disks import (OLD, OLD_FILES, REFUSED, SHUT, UNOPENED, UNREAD, Office, Wrong, add_words, added, asked, check_db, cleared, founded,
                   init_words, kept, parcel, run, run_with_history, want, want_founding)

FIRST = "A-0"  # the lot of the first parcel that an office has
# The frames of a log that the library copies into the file before the next command, and the bytes of the log's header and
# of a frame.
LONG, LOG_HEADER, FRAME = 1000, 32, 4120

# What was answered: what was done (of parcels by their numbers), what was refused, and of each request in turn, reads
# among them, whether it was done.
Answered = namedtuple("Answered", "done refused turns")


class Parcels:
    """Work that adds parcels, each a command of its own, to an office that has one."""

    # What one call may come to that is refused alone: in one process a sync that failed shuts the database.
    of_one = ("all done", "none done", "one refused", "refused from there on")

    def __init__(self, folder, count, history=False):
        self.lots = [f"L-{number}" for number in range(1, count + 1)]
        self.base = folder / "base.db"
        self.has_history = history
        self.name += " with a history" if history else ""
        founded(self.base, history)
        self.begin()
        self.held = kept(self.base)

    def begin(self):
        want(run(*add_words(self.base, FIRST)), (0, added(1) + "\n", ""), "the first parcel")

    def prepare(self, folder):
        """The office as it was, with its log."""
        db = cleared(folder)
        for end in ("", "-wal", ".history"):
            if Path(f"{self.base}{end}").exists():
                shutil.copy(f"{self.base}{end}", f"{db}{end}")
        return db

    def judge(self, db, answered, extra):
        """The database keeps what was there and what was answered as done, and at most so many of the refused beside. So it does
        once its history, if it has one, was redone."""
        lots = self.judged(db, answered, extra)
        if not self.has_history:
            return lots
        want(run_with_history("act", "GET", "/parcels/1", *asked(db))[::2], (0, ""), "an opening with the history")
        return self.judged(db, answered, extra)

    def judged(self, db, answered, extra):
        """The lots that the database keeps beside those that were there."""
        office = kept(db)
        lots = {number: lot for number, lot in office.lots().items() if number not in self.held.lots()}
        unanswered = {number: lot for number, lot in lots.items() if answered.done.get(number) != lot}
        if not answered.done.items() <= lots.items():
            raise Wrong(f"answered as added {answered.done}, and kept {lots}")
        if len(unanswered) > extra or not set(unanswered.values()) <= set(answered.refused):
            raise Wrong(f"kept beside what was answered as added: {unanswered}")
        want(office, self.held.with_parcels(lots), "what the database keeps")
        want(check_db(db), office.sound(), "the test of the database")
        return lots

    def again(self, db, lots):
        """With a disk that answers, what is missing is added."""
        for lot in self.lots:
            if lot not in lots.values():
                number = len(self.held.lots()) + len(lots) + 1
                want(run(*add_words(db, lot)), (0, added(number) + "\n", ""), f"lot {lot}, again")
                lots[number] = lot
        want(kept(db), self.held.with_parcels(lots), "what the database keeps in the end")


class Acts(Parcels):
    """Several runs of `act`."""

    name, of_one = "act", ("all done", "one refused")

    def play(self, db, environment=None):
        done, refused, turns = {}, [], []
        for lot in self.lots:
            got = run_with_history(*add_words(db, lot), environment=environment)
            if got in (REFUSED, UNOPENED, UNREAD):
                refused.append(lot)
            else:
                number = self.number(got)
                done[number] = lot
            turns.append(got not in (REFUSED, UNOPENED, UNREAD))
        return Answered(done, refused, turns)

    @staticmethod
    def number(got):
        found = re.search(r'"number":(\d+)}\n$', got[1])
        want(got, (0, added(found and found[1]) + "\n", ""), "the answer of act")
        return int(found[1])


class Import(Parcels):
    """An import of a list of parcels."""

    name = "import"

    def __init__(self, folder, count, history=False):
        super().__init__(folder, count, history)
        self.records = folder / "parcels.csv"
        lines = ",".join(("lot", "address", "owner")), *(",".join(map(str, parcel(lot).values())) for lot in self.lots)
        self.records.write_text("".join(f"{line}\n" for line in lines))

    def words(self, db):
        return ["import", self.records, *asked(db)]

    def play(self, db, environment=None):
        got = run(*self.words(db), environment=environment)
        if got in (UNOPENED, UNREAD):
            return Answered({}, list(self.lots), [False])
        numbers = {int(record): int(number) for record, number in re.findall(r"^(\d+) added (\d+)$", got[1], re.MULTILINE)}
        turns = [record in numbers for record in range(1, len(self.lots) + 1)]
        lines = [f"{record} added {numbers[record]}" if record in numbers else f"{record} refused: store"
                 for record in range(1, len(self.lots) + 1)]
        lines.append(f"added {turns.count(True)} kept 0 refused {turns.count(False)}")
        want(got, (int(False in turns), "".join(f"{line}\n" for line in lines), ""), "the import")
        done = {number: self.lots[record - 1] for record, number in numbers.items()}
        return Answered(done, [lot for lot, is_done in zip(self.lots, turns) if not is_done], turns)

    def again(self, db, lots):
        """With a disk that answers, the import of the same list keeps what is there and adds what is missing."""
        lines, there = [], set(lots.values())
        for record, lot in enumerate(self.lots, 1):
            if lot not in there:
                lots[len(self.held.lots()) + len(lots) + 1] = lot
            lines.append(f"{record} kept" if lot in there else f"{record} added {len(self.held.lots()) + len(lots)}")
        lines.append(f"added {len(self.lots) - len(there)} kept {len(there)} refused 0")
        want(run(*self.words(db)), (0, "".join(f"{line}\n" for line in lines), ""), "the import, again")
        want(kept(db), self.held.with_parcels(lots), "what the database keeps in the end")


class Service(Parcels):
    """An office that is served, and ends by itself once its one worker has taken the connections, or finds the database shut."""

    name = "serve"

    def play(self, db, environment=None):
        office = Office(db, "--workers", "1", "--connections", str(2 * len(self.lots)), environment=environment)
        if not office.serves:
            ended = office.ended()
            want(ended, UNREAD if ended == UNREAD else UNOPENED, "an office that is not served")
            return Answered({}, list(self.lots), [False])
        done, refused, turns = {}, [], []
        try:
            for lot in self.lots:
                number = office.add(lot)
                if number is None:
                    refused.append(lot)
                else:
                    done[number] = lot
                turns += [number is not None, self.reads(office)]
                if turns[-2:] == [False, False] and office.ends():
                    want(office.ended(), SHUT, "the end of the service over a database that is shut")
                    left = self.lots[len(done) + len(refused):]
                    return Answered(done, refused + left, turns + [False] * (2 * len(left)))
            want(office.ended(), (0, "", ""), "the end of the service")
        finally:
            office.end()
        return Answered(done, refused, turns)

    def reads(self, office):
        """Whether the parcel that was there first is read, else that is refused for the store, or the office has ended: it
        does so behind the answer to the command in which its history was shut."""
        try:
            status, answer = office.ask("GET", "/parcels/1")
        except Wrong:
            if self.has_history and office.ends():
                return False
            raise
        if status == 200:
            want(json.loads(answer).get("lot"), FIRST, "the parcel that was read")
        else:
            want((status, answer), (500, '{"refused":"store"}'), "a parcel that was read")
        return status == 200


class LongService(Service):
    """The same over a log that is copied into the file before the next command."""

    name = "serve over a long log"

    def begin(self):
        """Adds parcels until the log is long, and ends the server, which leaves the log."""
        office, number = Office(self.base), 0
        try:
            while self.frames() < LONG:
                number += 1
                want(office.add(f"A-{number - 1}"), number, "a parcel of the long log")
        finally:
            office.end()

    def frames(self):
        """How many frames the log has, which have its salts."""
        log = Path(f"{self.base}-wal").read_bytes()
        frames = range(LOG_HEADER, len(log) - FRAME + 1, FRAME)
        return sum(log[frame + 8:frame + 16] == log[16:24] for frame in frames)


class Whole:
    """A command that is done whole or not at all."""

    of_one = ("all done", "none done")

    def play(self, db, environment=None):
        got = run(*self.words(db), environment=environment)
        if got != UNOPENED:
            want(got, self.done, self.name)
        return Answered(got == self.done, [self.name] if got != self.done else [], [got == self.done])

    def judge(self, db, answered, extra):
        """What was answered as done is there; what was refused is not, or may be where so many may."""
        there = self.is_there(db)
        if answered.done and not there:
            raise Wrong(f"{self.name} was answered as done, and is not there")
        if there and not answered.done and not extra:
            raise Wrong(f"{self.name} was refused, and is there")
        return there

    def again(self, db, there):
        """With a disk that answers it is done, or was done before."""
        want(run(*self.words(db)), self.before if there else self.done, f"{self.name}, again")
        want(self.is_there(db), True, f"{self.name} is there in the end")


class Founding(Whole):
    name, done, before = "init", (0, "party 1\n", ""), (2, "", "database: exists\n")

    def words(self, db):
        return init_words(db)

    def prepare(self, folder):
        return cleared(folder)

    def is_there(self, db):
        """Whether the founding is there, else there is no office."""
        tested = check_db(db)
        if tested == UNOPENED:
            return False
        want(tested, (0, "sound parties 1 parcels 0 files 0\n", ""), "the test of what was founded")
        want_founding(kept(db))
        return True


class Upgrade(Whole):
    name, done, before = "upgrade", (0, f"upgraded files {OLD_FILES}\n", ""), (2, "", "database: version\n")

    def __init__(self, folder):
        self.schema = founded(folder / "founded.db").schema
        self.held = kept(OLD)

    def words(self, db):
        return ["upgrade", "--db", db]

    def prepare(self, folder):
        db = cleared(folder)
        shutil.copy(OLD, db)
        return db

    def is_there(self, db):
        """Whether version 2 is there whole, else version 1 is."""
        office = kept(db)
        if office == self.held:
            want(check_db(db), (2, "", "database: version\n"), "the test of version 1")
            return False
        want(office, self.held.upgraded(self.schema, OLD_FILES), "what the upgrade leaves")
        want(check_db(db), office.sound(), "the test of version 2")
        return True
