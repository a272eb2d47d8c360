"""Crates side by side: those with the most work first, as many at once as memory holds; a fault of one is its own."""

from __future__ import annotations

import concurrent.futures
import pathlib
import threading
from dataclasses import dataclass

import pytest
import try_edits
from try_edits import Memory, Run, Work


@dataclass(frozen=True)
class Sized:
    name: str
    work: int
    memory: int


class Noted(Run):
    """A run that notes which crates it came to, and how many at once."""

    def begin_noting(self) -> Noted:
        self.order: list[str] = []
        self.busy, self.most, self.lock = 0, 0, threading.Lock()
        self.both = threading.Barrier(2, timeout=1)
        return self

    def counted(self, work: Work, below: pathlib.Path) -> tuple[int, int, int]:
        with self.lock:
            self.order.append(work.crate.name)
            self.busy += 1
            self.most = max(self.most, self.busy)
        try:
            self.both.wait()
        except threading.BrokenBarrierError:
            pass
        with self.lock:
            self.busy -= 1
        if work.crate.name == "fails":
            raise OSError("no room")
        return len(work.left), 0, 0


def work_of(name: str, lines: int, memory: int, edits: int) -> Work:
    return Work(Sized(name, lines, memory), "", [], [None] * edits)  # type: ignore[arg-type, list-item]


@pytest.fixture
def run(monkeypatch: pytest.MonkeyPatch) -> Noted:
    monkeypatch.setattr(try_edits, "free_memory", lambda: 10.0)
    return Noted(None, None, None, False).begin_noting()  # type: ignore[arg-type]


def test_the_most_work_comes_first_and_counts_are_by_crate(run: Noted, tmp_path: pathlib.Path) -> None:
    works = [work_of("few", 10, 1, 2), work_of("many", 10, 1, 9), work_of("long", 100, 1, 3)]
    assert run.side_by_side(works, tmp_path, 1) == [(3, 0, 0), (9, 0, 0), (2, 0, 0)]
    assert run.order == ["long", "many", "few"]


@pytest.mark.parametrize(("memory", "at_once"), [(5, 2), (6, 1), (60, 1)])
def test_as_many_run_as_memory_holds(run: Noted, tmp_path: pathlib.Path, memory: int, at_once: int) -> None:
    run.side_by_side([work_of(name, 1, memory, 1) for name in "abcd"], tmp_path, 2)
    assert run.most == at_once and sorted(run.order) == [*"abcd"]


def test_what_fails_counts_all_its_edits_and_the_others_go_on(
    run: Noted, tmp_path: pathlib.Path, capsys: pytest.CaptureFixture[str]
) -> None:
    works = [work_of("fails", 9, 1, 4), work_of("goes_on", 1, 1, 2)]
    assert run.side_by_side(works, tmp_path, 2) == [(0, 4, 0), (2, 0, 0)]
    assert "fails: its edits were not tried to the end" in capsys.readouterr().out


def test_memory_is_given_back_also_where_its_user_fails() -> None:
    memory = Memory(3)
    with pytest.raises(ValueError), memory.taken(3):
        raise ValueError
    with concurrent.futures.ThreadPoolExecutor(1) as pool:

        def take() -> float:
            with memory.taken(2):
                return memory.left

        assert pool.submit(take).result(10) == 1
    assert memory.left == 3
