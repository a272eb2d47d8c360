"""Front ends of either end whose journal is shortened, over the model: states and programs that are refused, a folder
that takes no file, and options."""

import contextlib
import pathlib
from collections.abc import Iterator

import pytest

from wisangub.process.places import TOP
from wisangub.snmp import wire
from wisangub.snmp.names import DMS

from . import ends, with_centres, with_objects
from .ends import changed
from .started import Started
from .test_journal import kept
from .waiting import MODEL, until
from .with_centres import BLANK, BenchSign, Operated
from .with_objects import COUNTER, Served

Rows = list[tuple[bytes, bytes, str]]
MODE = DMS + (6, 7, 0)
ROADSIDE = ["--sign", str(TOP / "signs/roadside.sign")]


class OfSign:
    """A sign over a journal: each work is a SET."""

    end, records = ends.SIGN, 1  # the records of a work
    refusals: Rows = [
        (b"powered 1", b"powered 0", "another power than that of its messages"),
        (b"silent 0", b"silent", "silent and a number to 4294967295 wanted"),
        (b"shown-mode 10", b"shown-mode 9", "what is shown: no such mode"),
    ]
    refused = staticmethod(with_objects.refused)

    def __init__(self) -> None:
        self.done = 0

    @contextlib.contextmanager
    def begun(self, *words: str) -> Iterator[Served]:
        """A front end that is there."""
        with with_objects.served(*words, "--no-ticks") as front_end:
            yield front_end

    def work(self, front_end: Started, times: int = 1) -> None:
        """So many records that change it."""
        assert isinstance(front_end, Served)
        front_end.count(range(self.done + 1, self.done + times + 1))
        self.done += times

    def look_at_first(self, front_end: Started) -> None:
        """It is as it was made: its power came back."""
        assert isinstance(front_end, Served) and front_end.get(MODE) == [(wire.INTEGER, 10)]

    def look(self, front_end: Started) -> None:
        """All that was done is there."""
        assert isinstance(front_end, Served)
        assert front_end.get(COUNTER) == [(wire.INTEGER, self.done)]


class OfCentre:
    """A centre over a journal: each work is a command, with one request and its reply."""

    end, records = ends.CENTRE, 2
    refusals: Rows = [
        (b"last none", b"last time", "last and how a job ended wanted"),
        (b"idle", b"busy", "idle, awaits or due wanted"),
    ]
    refused = staticmethod(with_centres.refused)

    def __init__(self, sign: BenchSign) -> None:
        self.sign, self.done = sign, 0

    @contextlib.contextmanager
    def begun(self, *words: str) -> Iterator[Operated]:
        """A front end that is there."""
        with with_centres.operated(self.sign, *words) as front_end:
            front_end.begun()
            yield front_end

    def work(self, front_end: Started, times: int = 1) -> None:
        """So many commands that end accepted."""
        assert isinstance(front_end, Operated)
        for _ in range(times):
            front_end.accepted(BLANK)
        self.done += times

    def look_at_first(self, front_end: Started) -> None:
        """It is as it was made."""
        assert isinstance(front_end, Operated) and front_end.printed[:2] == ["idle", "last none"]

    def look(self, front_end: Started) -> None:
        """All that was done is there, and each number was used once."""
        assert isinstance(front_end, Operated)
        assert len(front_end.ledger()) == self.done
        assert self.sign.numbers() == [*range(1, self.done + 2)], "looking at it is a command too"


Front = OfSign | OfCentre


@pytest.fixture(name="front", params=("sign", "centre"))
def front_of(request: pytest.FixtureRequest) -> Iterator[Front]:
    if request.param == "sign":
        yield OfSign()
        return
    with BenchSign() as sign:
        yield OfCentre(sign)


@pytest.fixture(name="path")
def path_of(tmp_path: pathlib.Path) -> pathlib.Path:
    return tmp_path / "journal"


@pytest.mark.parametrize("sign", ([], ROADSIDE), ids=("bench", "roadside"))
def test_a_state_that_the_process_refuses_ends_the_front_end(front: Front, sign: list[str], path: pathlib.Path) -> None:
    with front.begun("--journal", str(path), *sign) as front_end:
        front_end.hang_up("shortened from")
        front_end.end()
    text = path.read_bytes()
    for line, other, why in front.refusals:
        path.write_bytes(changed(text, line, other))
        before = path.read_bytes()
        at = [record.rpartition(b" #")[0] for record in before.splitlines()].index(other)
        status, said = front.refused("--journal", str(path), *sign)
        refusal = f"{path}: state line {at}: no state of this {front.end} (--fresh begins anew)"
        assert (status, said.splitlines()) == (2, [f"state line {at}: {why}", refusal])
        assert path.read_bytes() == before and list(path.parent.iterdir()) == [path]
    path.write_bytes(text)
    with front.begun("--journal", str(path), *sign) as front_end:
        front.look_at_first(front_end)


def test_with_a_program_without_restore_the_journal_only_grows(
    front: Front, path: pathlib.Path, tmp_path: pathlib.Path
) -> None:
    old = tmp_path / "old"
    old.write_text(f'#!/bin/sh\ncase "$*" in *--restore*) exit 2 ;; esac\nexec {MODEL} "$@"\n', encoding="ascii")
    old.chmod(0o755)
    words = f"{path} is not shortened: {old} has no call `{front.end} --restore`: the journal only grows"
    with front.begun("--journal", str(path), "--keep", "100", "--signtool", str(old)) as front_end:
        front.work(front_end)
        until(lambda: words in front_end.said, words)
        front.work(front_end, 2)
        assert front_end.said.count(words) == 1 and not front_end.shortened()
        front_end.hang_up(words)
        assert front_end.end() == 0
    assert not front.end.opened(path).state() and len(kept(str(path), front.end.head)) == 3 * front.records
    with front.begun("--journal", str(path), "--keep", "100") as front_end:  # one that has it
        front.work(front_end)
        until(front_end.shortened, "shortened")
        assert front_end.end() == 0
    assert front.end.opened(path).state()
    status, said = front.refused("--journal", str(path), "--signtool", str(old))
    assert status == 2 and f"status 2 ({path} has a state, which needs its option --restore)" in said


def test_a_folder_that_takes_no_file_leaves_the_old_journal(
    front: Front, path: pathlib.Path, tmp_path: pathlib.Path
) -> None:
    folder = tmp_path / "kept"
    folder.mkdir()
    with front.begun("--journal", str(path), "--archive", str(folder)) as front_end:
        front.work(front_end)
        folder.rmdir()
        front_end.hang_up("is not shortened: ")
        assert "No such file or directory" in front_end.said[-1]
        front.work(front_end)
        folder.mkdir()
        front_end.hang_up("shortened from")
        front.work(front_end)
        front_end.process.kill()
    assert len(list(folder.iterdir())) == 1 and not path.with_name("journal.new").exists()
    with front.begun("--journal", str(path)) as front_end:
        front.look(front_end)
        assert front_end.end() == 0


def test_options_that_do_not_go_together(front: Front, path: pathlib.Path, tmp_path: pathlib.Path) -> None:
    journal = ("--journal", str(path))
    assert front.refused("--keep", "1M") == (2, "--keep is of a --journal FILE\n")
    assert front.refused("--archive", str(tmp_path)) == (2, "--archive is of a --journal FILE\n")
    assert front.refused(*journal, "--keep", "") == (2, "--keep has no name\n")
    words = "--keep 1x is no size: a number of octets, perhaps with k or M behind it\n"
    assert front.refused(*journal, "--keep", "1x") == (2, words)
    assert front.refused(*journal, "--archive", str(path)) == (2, f"--archive {path} is no folder\n")
    assert not path.exists()
