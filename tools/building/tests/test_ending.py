"""The end by a SIGTERM goes through what takes any other fault of `rt`."""

from __future__ import annotations

import os
import pathlib
import signal
import sys
from collections.abc import Iterator

import pytest

from building import plan as planning
from building.ending import STATUS, end_at_sigterm, raise_where_ended
from building.kit import Kit
from building.plan import Plan
from building.proofs import Proofs
from tries import libraries


@pytest.fixture
def proofs(tmp_path: pathlib.Path, monkeypatch: pytest.MonkeyPatch) -> Iterator[Proofs]:
    """Nothing is proved of one crate, and a SIGTERM is a tool's."""
    (tmp_path / "crates/low/src").mkdir(parents=True)
    (tmp_path / "crates/low/src/main.rt").write_text("x\n", encoding="utf-8")
    (tmp_path / "crates.txt").write_text("low:\n", encoding="utf-8")
    (tmp_path / "KIT-ID").write_text("a kit", encoding="utf-8")
    monkeypatch.setattr(planning, "TOP", tmp_path)
    monkeypatch.setattr(libraries, "of_build", lambda *_: 0)
    before = signal.getsignal(signal.SIGTERM)
    end_at_sigterm()
    yield Proofs(Plan(), Kit(tmp_path), tmp_path / "libraries")
    signal.signal(signal.SIGTERM, before)


def ended(*_: object) -> int:
    os.kill(os.getpid(), signal.SIGTERM)
    return 0


def of_another_kit(*_: object) -> int:
    sys.exit("this kit has other names")


def test_the_end_alone_is_raised_again() -> None:
    raise_where_ended(SystemExit("another kit"))
    raise_where_ended(ValueError(STATUS))
    with pytest.raises(SystemExit):
        raise_where_ended(SystemExit(STATUS))


def test_a_sigterm_ends_the_search_for_what_is_proved(
    proofs: Proofs, tmp_path: pathlib.Path, monkeypatch: pytest.MonkeyPatch
) -> None:
    monkeypatch.setattr(libraries, "of_gate", ended)
    with pytest.raises(SystemExit) as end:
        libraries.gathered(proofs.plan, proofs, tmp_path, {"low"})
    assert end.value.code == STATUS


def test_the_exit_of_another_kit_is_told(
    proofs: Proofs, tmp_path: pathlib.Path, monkeypatch: pytest.MonkeyPatch, capsys: pytest.CaptureFixture[str]
) -> None:
    monkeypatch.setattr(libraries, "of_gate", of_another_kit)
    libraries.gathered(proofs.plan, proofs, tmp_path, {"low"})
    assert "this kit has other names" in capsys.readouterr().err
