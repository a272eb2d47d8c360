"""What the gate runs one after the other, and what it hands on: .ci/run over programs that only say something."""

from __future__ import annotations

import pathlib
import shutil
import subprocess

import pytest

from steps.step import TOP

PROVED, REFUSED = "proofs\n70 passed, 0 failed", "9 passed, 0 failed"


def gate(top: pathlib.Path, prove: tuple[str, int], edits: tuple[str, int], after: int = 0) -> tuple[int, list[str]]:
    """The status and the lines of a gate whose programs say these words, and end so."""
    (top / ".ci").mkdir()
    (top / "tools").mkdir()
    shutil.copy(TOP / ".ci/run", top / ".ci/run")
    for name, words, status in (("prove", *prove), ("try_edits", *edits), ("after_gate", "", after)):
        said = f"cat <<'EOF'\n{words}\nEOF\n" if words else "printf '%s|' after \"$@\"\n"
        program = top / f"tools/{name}.py"
        program.write_text(f"#!/bin/sh\n{said}exit {status}\n", encoding="utf-8")
        program.chmod(0o755)
    ended = subprocess.run(["bash", ".ci/run"], cwd=top, capture_output=True, text=True, check=False)
    return ended.returncode, ended.stdout.splitlines()


def test_all_of_it_is_counted(tmp_path: pathlib.Path) -> None:
    found = gate(tmp_path, (PROVED, 0), (f"a wrong body\n{REFUSED}", 0))
    counts = "after|--gate|70 passed, 0 failed|--gate|9 passed, 0 failed|"
    assert found == (0, ["proofs", "70 passed, 0 failed", "a wrong body", REFUSED, counts])


def test_where_a_proof_fails_it_ends_there(tmp_path: pathlib.Path) -> None:
    words = "one crate\n3 passed, 1 failed"
    assert gate(tmp_path, (words, 5), (REFUSED, 0)) == (5, words.splitlines())


def test_proofs_that_do_not_come_to_an_end_are_counted(tmp_path: pathlib.Path) -> None:
    assert gate(tmp_path, ("killed", 137), (REFUSED, 0)) == (137, ["killed", "0 passed, 1 failed"])


@pytest.mark.parametrize("words", ["8 passed, 1 failed", "it stopped in the middle"])
def test_what_is_said_of_wrong_bodies_is_handed_on(tmp_path: pathlib.Path, words: str) -> None:
    status, lines = gate(tmp_path, (PROVED, 0), (words, 1), after=9)
    assert status == 9 and lines[-1] == f"after|--gate|70 passed, 0 failed|--gate|{words}|"


def test_it_names_the_commit_and_says_of_changes(tmp_path: pathlib.Path) -> None:
    def git(*words: str) -> None:
        call = ["git", "-c", "user.name=a", "-c", "user.email=a@example.org", *words]
        subprocess.run(call, cwd=tmp_path, check=True, capture_output=True)

    git("init", "-q")
    git("commit", "-q", "--allow-empty", "-m", "one")
    _, (first, *_) = gate(tmp_path, (PROVED, 0), (REFUSED, 0))
    assert first.startswith("commit ") and first.endswith(" with changes") and len(first.split()[1]) == 40
    git("add", "-A")
    git("commit", "-q", "-m", "two")
    ended = subprocess.run(["bash", ".ci/run"], cwd=tmp_path, capture_output=True, text=True, check=False)
    assert len(ended.stdout.splitlines()[0].split()) == 2
