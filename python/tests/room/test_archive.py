"""Archives: what goes into the file and then out of the database, what stays, and that no number is used again."""

import gzip
import json
import pathlib
import stat
import subprocess
import sys
import threading
import time
from typing import Any

import pytest

from trials.room.cluster import Server
from wisangub.process.places import TOP
from wisangub.refusal import Refusal
from wisangub.room import fleet
from wisangub.room.store import archives, database, plans, queries, retention
from wisangub.room.store.connection import Database
from wisangub.room.store.lines import Line
from wisangub.room.store.readings import Said
from wisangub.room.store.sqlite import Sqlite
from wisangub.room.store.store import Store

from .bench import HELLO, bench
from .people import person
from .visits import NAMES, SHOWN, entered

DAY = 86_400
BLANK = "blank 1 65535 255 192.0.2.1"


def head(number: int) -> bytes:
    return f"journal 1 centre rules 1 description {'0' * 64} first {number}".encode()


class Room:
    """Three signs of which much is old: two centres before the present one, readings, commands and the audit."""

    def __init__(self, folder: pathlib.Path, where: str) -> None:
        folder.mkdir(exist_ok=True)
        self.where, self.file = where, folder / "old.gz"
        self.store = Store(database.opened(where))
        self.held = self.store.database
        rows = {sign.name: row for row, sign in self.store.signs.enter(fleet.read(entered(folder))).items()}
        self.one, self.two = (rows[name] for name in NAMES[:2])
        person(self.held, "ann")
        self.lines()
        self.readings()
        self.commands()
        self.age(500)

    def age(self, days: float) -> None:
        """All that there is was written so many days ago."""
        for table, column in (
            *(("lines", "at"), ("readings", "at"), ("readings", "heard"), ("audit", "at"), ("hearings", "heard")),
            *(("commands", "asked_at"), ("commands", "ended")),
            *(("latest_readings", "at"), ("latest_readings", "shown_at"), ("latest_readings", "heard")),
        ):
            self.held.run(f"UPDATE {table} SET {column} = {column} - ?", days * DAY)

    def lines(self) -> None:
        """Centres that begin with the lines 1, 4 and 7."""
        for number in range(1, 10):
            text = head(number) if number % 3 == 1 else b"tick"
            self.store.lines.insert([Line(self.one, number, text, None, number % 3 == 1)], "w")
        self.store.lines.insert([Line(self.two, 1, head(1), None, True)], "w")

    def readings(self) -> None:
        for number, text in ((-1, "A"), (-2, "B"), (-3, None), (-4, "C"), (-5, None)):
            shown = None if text is None else json.dumps({**SHOWN, "text": text.encode().hex()})
            self.store.readings.keep([Said(self.one, number, 65535, shown, "no reply" if text is None else None)])

    def commands(self) -> None:
        """Four of a sign that ended, one that was withdrawn, and one that waits."""
        for how in ("accepted", "accepted", "accepted", "refused 5"):
            self.ended(how)
        self.store.commands.withdraw(self.ask(), "ann")
        self.ask()

    def ask(self) -> int:
        return self.store.commands.ask(self.one, "ann", BLANK)

    def left(self) -> list[int]:
        """The numbers of the lines of the first sign."""
        return self.numbers(f"lines WHERE sign = {self.one}")

    def ended(self, how: str) -> int:
        number = self.ask()
        self.held.run("UPDATE commands SET line_number = 2 WHERE id = ?", number)
        self.store.commands.end(number, how)
        return number

    def numbers(self, table: str, column: str = "number") -> list[int]:
        rows = self.held.run(f"SELECT {column} FROM {table} ORDER BY {column}")
        return [int(row[0] or 0) for row in rows]

    def archive(self, days: float = 400) -> archives.Sum:
        """Both steps of a command."""
        retention.write(self.held, self.file, days * DAY)
        return retention.take_out(self.held, self.file, "a test")

    def kinds(self) -> dict[str, list[Any]]:
        """What the file has."""
        found: dict[str, list[Any]] = {kind: [] for kind in archives.KINDS}
        for row in archives.rows(self.file):
            found[row["kind"]].append(row)
        return found


def test_what_is_old_goes_and_what_is_needed_stays(tmp_path: pathlib.Path, where: str) -> None:
    room = Room(tmp_path / "room", where)
    before = {table: room.held.run(f"SELECT * FROM {table}") for table in ("ledger", "batches", "users")}
    audit = room.held.run("SELECT id, at, who, what FROM audit ORDER BY id")
    found = room.archive()
    assert found.counts == {"audit": len(audit), "command": 3, "reading": 3, "line": 6}
    assert room.left() == [7, 8, 9] and room.numbers(f"lines WHERE sign = {room.two}") == [1]
    assert room.numbers("readings") == [-5, -4], "what it says, and what it said last"
    assert room.numbers("commands", "id") == [4, 5, 6], "from the last one that ended on: an alarm is of it"
    kinds = room.kinds()
    assert [(row["sign"], row["number"]) for row in kinds["line"]] == [(room.one, number) for number in range(1, 7)]
    assert [row["line"] for row in kinds["line"][:2]] == [head(1).decode(), "tick"]
    assert [tuple(row.values())[1:] for row in kinds["audit"]] == audit
    assert [row["outcome"] for row in kinds["command"]] == ["accepted"] * 3
    assert {table: room.held.run(f"SELECT * FROM {table}") for table in before} == before
    (who, what), *more = room.held.run("SELECT who, what FROM audit")
    assert who == "a test" and found.digest.hexdigest() in str(what) and not more
    assert stat.S_IMODE(room.file.stat().st_mode) == 0o600 and [
        path.name for path in room.file.parent.glob("old*")
    ] == ["old.gz"]
    assert set(archives.head_of(room.file).signs.values()) == set(NAMES)
    assert room.store.lines.of(room.one).begun_at == 7 and len(room.store.lines.of(room.one).lines) == 3
    room.held.close()


def test_what_is_young_stays(tmp_path: pathlib.Path, where: str) -> None:
    room = Room(tmp_path / "room", where)
    room.held.run("UPDATE lines SET at = at + ? WHERE number = 5", 200.0 * DAY)
    assert room.archive().counts["line"] == 3, "no centre is cut through"
    assert room.left() == list(range(4, 10))
    room.file = room.file.with_name("more.gz")
    counts = room.archive(600).counts
    assert counts == {"audit": 0, "command": 0, "reading": 0, "line": 0}
    room.held.run("UPDATE lines SET at = at + ?", 3650.0 * DAY)  # the clock jumped
    room.file = room.file.with_name("later.gz")
    assert room.archive().counts["line"] == 0
    room.held.close()


def test_a_number_that_went_is_taken(tmp_path: pathlib.Path, where: str) -> None:
    room = Room(tmp_path / "room", where)
    room.archive()
    for number in (1, 3, 6):
        assert room.store.lines.insert([Line(room.one, number, b"tick")], "one that stood still") == set()
        assert not room.store.lines.replace(Line(room.one, number, head(99), None, True), "w", "another")
    both = [Line(room.one, 6, b"tick"), Line(room.two, 2, b"tick")]
    assert room.store.lines.insert(both, "w") == {room.two}, "of another sign it goes on"
    assert room.store.lines.insert([Line(room.one, 10, b"tick")], "w") == {room.one}
    assert room.left() == [7, 8, 9, 10]
    room.held.close()


def test_a_line_that_waits_for_an_archive_is_refused(tmp_path: pathlib.Path, server: Server) -> None:
    """On PostgreSQL an insert under a key that is being deleted waits; when that is done, the number is taken."""
    room = Room(tmp_path / "room", server.database())
    other, found = Store(database.opened(room.where)), []
    retention.write(room.held, room.file, 400 * DAY)
    rows = list(archives.rows(room.file, ("line",)))
    worker = threading.Thread(target=lambda: found.append(other.lines.insert([Line(room.one, 5, b"tick")], "w")))
    with room.held.transaction():
        retention.TAKERS["line"](room.held, rows)
        room.held.run("SELECT 1")
        worker.start()
        time.sleep(0.5)
        assert worker.is_alive(), "it waits"
    worker.join(20)
    assert found == [set()] and room.left() == [7, 8, 9]
    other.database.close()
    room.held.close()


def test_an_interrupted_one_is_finished(tmp_path: pathlib.Path, where: str, monkeypatch: pytest.MonkeyPatch) -> None:
    room = Room(tmp_path / "room", where)
    retention.write(room.held, room.file, 400 * DAY)

    def broken(_: Database, __: list[Any]) -> None:
        raise KeyboardInterrupt

    with monkeypatch.context() as patched:
        patched.setitem(retention.TAKERS, "reading", broken)
        with pytest.raises(KeyboardInterrupt):
            retention.take_out(room.held, room.file, "a test")
    assert room.numbers("commands", "id") == [4, 5, 6] and len(room.numbers("readings")) == 5
    for _ in range(2):
        retention.take_out(room.held, room.file, "a test")
        assert len(room.numbers("readings")) == 2 and room.left() == [7, 8, 9]
    with pytest.raises(Refusal, match="there already"):
        retention.write(room.held, room.file, 400 * DAY)
    room.held.close()


def test_only_what_the_file_has_goes(tmp_path: pathlib.Path) -> None:
    """A file of another database takes nothing; of one whose rows differ, what is the same alone."""
    room = Room(tmp_path / "room", str(tmp_path / "a"))
    other = Room(tmp_path / "other", str(tmp_path / "b"))
    retention.write(room.held, room.file, 400 * DAY)
    with pytest.raises(Refusal, match="another database"):
        retention.take_out(other.held, room.file, "a test")
    room.held.run("UPDATE lines SET line = 'tock' WHERE number = 2")
    room.held.run("UPDATE audit SET at = at + 1 WHERE id = 1")
    retention.take_out(room.held, room.file, "a test")
    assert room.left() == [2, 7, 8, 9] and 1 in room.numbers("audit", "id")
    room.held.close()
    other.held.close()


def test_a_damaged_file_is_refused_and_nothing_goes(tmp_path: pathlib.Path) -> None:
    room = Room(tmp_path / "room", str(tmp_path / "database"))
    retention.write(room.held, room.file, 400 * DAY)
    whole = room.file.read_bytes()
    lines = gzip.decompress(whole).splitlines(keepends=True)
    damaged = (
        whole[:-20],
        whole[:100] + bytes([whole[100] ^ 1]) + whole[101:],
        gzip.compress(b"".join([*lines[:3], *lines[4:]])),
        gzip.compress(b"".join(lines[:-1])),
        gzip.compress(b"".join(lines).replace(b"tick", b"tock", 1)),
        gzip.compress(b"".join(lines).replace(b'"archive":1', b'"archive":2')),
        b"no archive",
        b"",
    )
    for octets in damaged:
        room.file.write_bytes(octets)
        with pytest.raises(Refusal, match="damaged|no archive|of form 2|is no"):
            retention.take_out(room.held, room.file, "a test")
    assert room.left() == list(range(1, 10))
    room.held.close()


def test_a_disk_that_is_full_leaves_no_file(tmp_path: pathlib.Path, monkeypatch: pytest.MonkeyPatch) -> None:
    room = Room(tmp_path / "room", str(tmp_path / "database"))

    def full(_: pathlib.Path) -> None:
        raise OSError(28, "No space left on device")

    monkeypatch.setattr(archives, "_synced", full)
    with pytest.raises(Refusal, match="No space left"):
        room.archive()
    assert list(room.file.parent.glob("old*")) == [] and room.left() == list(range(1, 10))
    room.held.close()


def test_a_plan_that_is_on_ends_as_before(tmp_path: pathlib.Path, where: str) -> None:
    room = Room(tmp_path / "room", where)
    text = f"publish 3 1 {b'FOG'.hex()} {b'me'.hex()} 0 0 77 65535 77 192.0.2.1"
    plan = plans.keep(room.held, "fog", [(room.one, text), (room.two, text)], "ann")
    run = plans.begin(room.held, plan, "ann")
    (first,), (second,) = room.held.run("SELECT command FROM batch_commands WHERE batch = ?", run.batch)
    for command in (first, second):
        room.held.run("UPDATE commands SET outcome = 'accepted', ended = {clock} WHERE id = ?", command)
    room.ended("accepted")
    room.ended("refused 5")
    room.age(500)
    room.archive()
    plans.end(room.held, plan, "ann")
    asked = room.held.run("SELECT sign, line FROM commands WHERE outcome IS NULL AND line <> ?", BLANK)
    assert asked == [(room.two, "blank 1 65535 77 192.0.2.1")], "of the other sign something else was asked for since"
    room.held.close()


def called(*words: str) -> subprocess.CompletedProcess[str]:
    return subprocess.run(
        [sys.executable, "-m", "wisangub.room", "archive", *words],
        cwd=TOP / "python",
        capture_output=True,
        text=True,
        timeout=60,
    )


def test_the_command_writes_checks_reads_and_finishes_an_archive(tmp_path: pathlib.Path, where: str) -> None:
    room = Room(tmp_path / "room", where)
    room.held.close()
    done = called("write", "--database", where, "--older-than", "400d", "--to", str(room.file))
    assert done.returncode == 0 and "3 of command, 3 of reading, 6 of line" in done.stdout, done.stderr
    checked = called("check", "--from", str(room.file))
    assert checked.stdout.splitlines()[-1] == done.stdout.splitlines()[-1] and "SHA-256 " in checked.stdout
    read = called("read", "--from", str(room.file), "--sign", "one", "--kind", "command", "--find", "ACCEPT")
    rows = [json.loads(line) for line in read.stdout.splitlines()]
    assert [row["id"] for row in rows] == [1, 2, 3] and {row["sign"] for row in rows} == {"one"}
    assert called("finish", "--database", where, "--from", str(room.file)).returncode == 0
    for words in (
        ("write", "--database", where, "--to", "x"),
        ("write", "--database", where, "--older-than", "400", "--to", "x"),
        ("read", "--database", where, "--from", str(room.file)),
        ("check",),
        ("read", "--from", str(room.file), "--sign", "none"),
        ("check", "--from", str(tmp_path / "none")),
    ):
        failed = called(*words)
        assert failed.returncode == 2 and "Traceback" not in failed.stderr, words


def test_a_sign_is_driven_on_after_an_archive(tmp_path: pathlib.Path, where: str) -> None:
    """A worker that held the sign as its lines went loses, and the next one goes on with numbers above all."""
    with bench(tmp_path, where) as at:
        held = at.store.database
        assert at.ended(at.worker(), at.ask(HELLO)) == "accepted"
        stopped = at.session("one that stands still")
        at.store.signs.enter(fleet.read(at.fleet))
        number = int(held.run("SELECT max(number) FROM lines")[0][0] or 0) + 1
        first = b"journal 1 centre rules 1 description " + at.signs(at.store)[at.sign_id].digest.encode()
        centre = Line(at.sign_id, number, first + b" first 1000", None, True)
        assert at.store.lines.replace(centre, "w", "another centre")
        held.run("UPDATE lines SET at = at - ?", 500.0 * DAY)
        file = tmp_path / "old.gz"
        retention.write(held, file, 400 * DAY)
        assert retention.take_out(held, file, "a test").counts["line"] == number - 1
        line = Line(at.sign_id, stopped.number, b"tick")
        assert stopped.store.lines.insert([line], "w") == set()
        stopped.close()
        assert at.ended(at.worker(), at.ask(HELLO)) == "accepted"
        assert held.run("SELECT min(number) FROM lines") == [(number,)]
        assert int(held.run("SELECT max(number) FROM ledger")[0][0] or 0) >= 1000


@pytest.mark.parametrize(
    "wanted",
    [
        *({"who": "ann"}, {"outcome": "failed"}, {"outcome": "open"}, {"sign": 1}, {"before": 9}),
        *({"sign": 1, "who": "ann"}, {"sign": 1, "outcome": "failed"}, {"who": "ann", "outcome": "failed"}),
    ],
)
def test_the_history_is_by_an_index(tmp_path: pathlib.Path, wanted: dict[str, Any]) -> None:
    held = database.opened(str(tmp_path / "database"))
    sql, values = queries.asked_for(queries.Wanted(**wanted))
    plan = str(held.run(f"EXPLAIN QUERY PLAN {sql}", *values))
    assert "SEARCH commands" in plan or "SCAN commands USING INDEX" in plan, plan
    assert "TEMP B-TREE" not in plan, "nothing is sorted"
    held.close()


def test_commands_that_were_asked_for_together_are_soon_out(tmp_path: pathlib.Path) -> None:
    """What each was asked with is found by an index: of many, the table is not read through for each."""
    room = Room(tmp_path, str(tmp_path / "database"))
    assert isinstance(room.held, Sqlite)
    for batch in range(10):
        room.store.commands.ask_all([(room.one, BLANK)] * 200, "ann", "what", f"{batch}")
    room.held.run("UPDATE commands SET line_number = id, outcome = 'accepted' WHERE outcome IS NULL")
    room.held.run("UPDATE commands SET ended = {clock} WHERE ended IS NULL")
    room.age(500)
    done: list[int] = []
    room.held.connection.set_progress_handler(lambda: done.append(1), 1000)  # instructions of SQLite
    assert room.archive().counts[archives.COMMAND] > 2000 and len(done) < 2000, len(done)
