"""A sign's front end with a file of objects: what a manager reads, what firmware is told, and a file that changes."""

import json
import pathlib
import stat
import time

import pytest

from wisangub.snmp import wire
from wisangub.snmp.names import DMS

from .waiting import PROGRAMS, until
from .with_objects import refused, served

UPTIME, CLOCK = (1, 3, 6, 1, 2, 1, 1, 3, 0), (1, 3, 6, 1, 4, 1, 1206, 4, 2, 6, 3, 1, 0)
DESCRIPTION, BRIGHTNESS, DIAL = (1, 3, 6, 1, 2, 1, 1, 1, 0), DMS + (7, 6, 0), DMS + (7, 1, 0)
FILE = """# a sign that can be dimmed
uptime 1.3.6.1.2.1.1.3.0
clock 1.3.6.1.4.1.1206.4.2.6.3.1.0
object 1.3.6.1.2.1.1.1.0 OCTET STRING 6f6e65
object 1.3.6.1.4.1.1206.4.2.3.7.1.0 INTEGER 2 number 2 6
object 1.3.6.1.4.1.1206.4.2.3.7.6.0 INTEGER 3 number 0 9
"""
SET = "set 1.3.6.1.4.1.1206.4.2.3.7.6.0 INTEGER"


def times_of(pid: int) -> int:
    """The hundredths of a second that a process took of a processor."""
    fields = pathlib.Path(f"/proc/{pid}/stat").read_text(encoding="ascii").rpartition(") ")[2].split(" ")
    return int(fields[11]) + int(fields[12])


@pytest.fixture(name="path")
def path_of(tmp_path: pathlib.Path) -> pathlib.Path:
    path = tmp_path / "some.objects"
    path.write_text(FILE, encoding="ascii")
    return path


def test_objects_are_read_and_times_pass(path: pathlib.Path) -> None:
    with served("--objects", str(path)) as front_end:
        assert front_end.get(DESCRIPTION, DMS + (2, 4, 0)) == [(wire.OCTETS, b"one"), (wire.INTEGER, 23)]
        found = front_end.get(UPTIME, CLOCK)
        assert isinstance(found, list) and [tag for tag, _ in found] == [wire.TICKS, wire.COUNTER]

        def has_passed() -> bool:
            later = front_end.get(UPTIME, CLOCK)
            assert isinstance(later, list) and isinstance(found, list)
            return bool(later[0][1] >= found[0][1] + 100 and later[1][1] >= found[1][1] + 1)

        until(has_passed, "a second passes")


def test_firmware_is_told_what_a_manager_sets(path: pathlib.Path, tmp_path: pathlib.Path) -> None:
    log = tmp_path / "log"
    with served("--objects", str(path), "--log", str(log), "--json") as front_end:
        assert front_end.put((BRIGHTNESS, (wire.INTEGER, 7))) == (wire.NO_ERROR, 0)
        assert front_end.put((BRIGHTNESS, (wire.INTEGER, 10))) == (wire.BAD_VALUE, 1)
        assert front_end.put((DESCRIPTION, (wire.OCTETS, b"two"))) == (wire.NO_SUCH_NAME, 1)
        assert front_end.put((DMS + (4, 2, 0), (wire.INTEGER, 1))) == (wire.NO_ERROR, 0)
        assert front_end.put((BRIGHTNESS, (wire.INTEGER, 8)), (DIAL, (wire.INTEGER, 4))) == (wire.NO_ERROR, 0)
        assert front_end.end() == 0
    dial = "set 1.3.6.1.4.1.1206.4.2.3.7.1.0 INTEGER 4"
    assert front_end.printed[1:] == [f"{SET} 7", dial, f"{SET} 8"]
    events = [json.loads(line) for line in log.read_text(encoding="utf-8").splitlines()]
    told = [f"set {one['object']} {one['value']}" for one in events if one["event"] == "set"]
    assert told == front_end.printed[1:]


def test_a_file_is_read_again_at_a_sighup(path: pathlib.Path) -> None:
    with served("--objects", str(path)) as front_end:
        front_end.put((BRIGHTNESS, (wire.INTEGER, 7)), (DIAL, (wire.INTEGER, 6)))
        lines = FILE.replace("6f6e65", "74776f").replace("INTEGER 2 number", "INTEGER 3 number").splitlines()
        path.write_text("\n".join([*lines[:2], *lines[3:], "object 1.3.6.1.2.1.1.5.0 NULL"]), encoding="ascii")
        front_end.hang_up("4 objects are published, 1 are withdrawn")  # the time too
        name = (1, 3, 6, 1, 2, 1, 1, 5, 0)
        assert front_end.get(DESCRIPTION, name) == [(wire.OCTETS, b"two"), (wire.NULL, b"")]
        assert front_end.get(CLOCK) == wire.NO_SUCH_NAME
        # a line that is the same leaves what was set, and one that is another is newer
        assert front_end.get(BRIGHTNESS, DIAL) == [(wire.INTEGER, 7), (wire.INTEGER, 3)]
        assert front_end.process.poll() is None
        before = times_of(front_end.process.pid)
        time.sleep(1)
        assert times_of(front_end.process.pid) - before < 50  # it waits again


@pytest.mark.parametrize(
    "line, words",
    [
        ("object 1.3 INTEGER", "line 7: the line ends where a value of INTEGER is wanted"),
        (
            "object 1.3.6.1.4.1.1206.4.2.3.2.3.0 INTEGER 1",
            "line 7: the sign has an object of this name: 1.3.6.1.4.1.1206.4.2.3.2.3.0",
        ),
        ("fonts", "line 7: whether fonts can be read is settled at a start"),
    ],
)
def test_of_a_file_at_fault_nothing_is_taken(path: pathlib.Path, line: str, words: str) -> None:
    with served("--objects", str(path)) as front_end:
        path.write_text(f"{FILE.replace('6f6e65', '74776f')}{line}\n", encoding="ascii")
        front_end.hang_up(f"{path}: {words}: the objects stay as they were")
        assert front_end.get(DESCRIPTION) == [(wire.OCTETS, b"one")]
        path.unlink()
        front_end.hang_up(f"{path}: No such file or directory: the objects stay as they were")
        path.write_text(FILE.replace("6f6e65", "74776f"), encoding="ascii")
        front_end.hang_up("objects are published")
        assert front_end.get(DESCRIPTION) == [(wire.OCTETS, b"two")]
    if line != "fonts":
        path.write_text(f"{FILE}{line}\n", encoding="ascii")
        assert refused("--objects", str(path)) == (2, f"{path}: {words}\n")


@pytest.mark.parametrize("program", PROGRAMS)
def test_fonts_can_be_read_where_the_file_says_so(path: pathlib.Path, program: str) -> None:
    path.write_text(f"{FILE}fonts\n", encoding="ascii")
    with served("--signtool", program, "--objects", str(path)) as front_end:
        assert front_end.get(DMS + (3, 1, 0)) == [(wire.INTEGER, 2)]
        path.write_text(FILE, encoding="ascii")
        front_end.hang_up("line 7: whether fonts can be read is settled at a start: the objects stay as they were")


def test_after_a_start_the_values_that_were_set_are_there_again(path: pathlib.Path, tmp_path: pathlib.Path) -> None:
    words = ("--objects", str(path), "--journal", str(tmp_path / "journal"), "--no-ticks")
    with served(*words) as front_end:
        front_end.put((BRIGHTNESS, (wire.INTEGER, 7)))
        front_end.put((BRIGHTNESS, (wire.INTEGER, 8)), (DMS + (4, 2, 0), (wire.INTEGER, 1)))  # refused
        front_end.process.kill()
    with served(*words) as front_end:
        assert front_end.get(BRIGHTNESS, DIAL) == [(wire.INTEGER, 7), (wire.INTEGER, 2)]
        until(lambda: front_end.printed[1:] == [f"{SET} 7"], "firmware is told again")
        assert front_end.end() == 0
    assert stat.S_IMODE((tmp_path / "journal").stat().st_mode) == 0o600


def test_a_program_without_these_lines_is_refused(path: pathlib.Path, tmp_path: pathlib.Path) -> None:
    old = tmp_path / "old"
    old.write_text(
        '#!/bin/sh\nwhile read -r word rest; do case $word in end) ;; state) echo "shown -"; echo ok ;;'
        ' *) echo "bad line" ;; esac; done\n',
        encoding="ascii",
    )
    old.chmod(0o755)
    why = "the program has no line `object`, which --objects needs\n"
    assert refused("--objects", str(path), "--signtool", str(old)) == (2, why)


def test_options_that_do_not_go_together() -> None:
    assert refused("--objects", "")[0] == 2
    assert refused("--objects", "x", "--log", "x") == (2, "x cannot be the log and the file of objects\n")
    words = "y.new cannot be the log and the file beside the journal\n"
    assert refused("--objects", "x", "--journal", "y", "--log", "y.new") == (2, words)
