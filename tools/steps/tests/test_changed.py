"""Which crates count as changed: committed since main, changed in place, not tracked, gone, and without git."""

import pathlib
import subprocess

import pytest

from steps.changed import base, changed, changed_python


def git(top: pathlib.Path, *words: str) -> None:
    name = ("-c", "user.name=A", "-c", "user.email=a@example.org", "-c", "commit.gpgsign=false")
    subprocess.run(["git", "-C", str(top), *name, *words], check=True, capture_output=True)


def write(top: pathlib.Path, name: str, text: str = "text\n") -> None:
    (top / name).parent.mkdir(parents=True, exist_ok=True)
    (top / name).write_text(text, encoding="utf-8")


@pytest.fixture
def top(tmp_path: pathlib.Path) -> pathlib.Path:
    """A repository whose main has three crates."""
    for name in ("low", "middle", "high"):
        write(tmp_path, f"crates/{name}/src/lib.rt")
        write(tmp_path, f"crates/{name}/must-fail/wrong.edit")
    write(tmp_path, "README.md")
    git(tmp_path, "init", "-q", "-b", "main")
    git(tmp_path, "add", "-A")
    git(tmp_path, "commit", "-qm", "First")
    return tmp_path


def test_where_nothing_changed_no_crate_is_named(top: pathlib.Path) -> None:
    assert changed(top) == []


def test_what_is_changed_in_place_added_and_not_tracked(top: pathlib.Path) -> None:
    write(top, "crates/low/src/lib.rt", "other\n")
    write(top, "crates/middle/specs/New.antt")
    write(top, "crates/high/proofs/Added.antt")
    git(top, "add", "crates/high")
    assert changed(top) == ["high", "low", "middle"]


def test_python_that_is_changed_added_and_not_tracked(top: pathlib.Path) -> None:
    assert changed_python(top) == []
    write(top, "tools/one.py")
    git(top, "add", "tools/one.py")
    write(top, "python/two.py")
    write(top, "python/two.css")
    assert changed_python(top) == ["python/two.py", "tools/one.py"]
    (top / "tools/one.py").unlink()
    assert changed_python(top) == ["python/two.py"]


def test_what_no_check_reads_does_not_count(top: pathlib.Path) -> None:
    write(top, "crates/low/must-fail/wrong.edit", "other\n")
    write(top, "crates/low/wrong-bodies/another.edit")
    write(top, "crates/low/out/src/lib.rt")
    write(top, "README.md", "other\n")
    assert changed(top) == []


def test_what_is_committed_since_main_counts(top: pathlib.Path) -> None:
    git(top, "switch", "-qc", "work")
    write(top, "crates/low/src/lib.rt", "other\n")
    git(top, "commit", "-qam", "Second")
    write(top, "crates/high/src/lib.rt", "other\n")
    assert changed(top) == ["high", "low"]
    git(top, "branch", "-f", "main")
    assert changed(top) == ["high"]


def test_what_main_got_meanwhile_does_not_count(top: pathlib.Path) -> None:
    git(top, "switch", "-qc", "work")
    write(top, "crates/low/src/lib.rt", "other\n")
    git(top, "commit", "-qam", "Ours")
    git(top, "switch", "-q", "main")
    write(top, "crates/high/src/lib.rt", "other\n")
    git(top, "commit", "-qam", "Theirs")
    git(top, "switch", "-q", "work")
    assert changed(top) == ["low"]


def test_the_remotes_main_goes_before_the_one_here(top: pathlib.Path, tmp_path_factory: pytest.TempPathFactory) -> None:
    clone = tmp_path_factory.mktemp("clone")
    git(clone, "clone", "-q", str(top), ".")
    write(clone, "crates/middle/src/lib.rt", "other\n")
    git(clone, "commit", "-qam", "On main")
    assert changed(clone) == ["middle"]


def test_a_file_that_is_gone_counts_and_a_crate_that_is_gone_does_not(top: pathlib.Path) -> None:
    write(top, "crates/low/src/more.rt")
    git(top, "add", "-A")
    git(top, "commit", "-qm", "More")
    (top / "crates/low/src/more.rt").unlink()
    (top / "crates/high/src/lib.rt").unlink()
    (top / "crates/high/src").rmdir()
    assert changed(top) == ["low"]


def test_without_a_repository_nothing_is_told(tmp_path: pathlib.Path, monkeypatch: pytest.MonkeyPatch) -> None:
    monkeypatch.setenv("GIT_CEILING_DIRECTORIES", str(tmp_path.parent))
    assert (base(tmp_path), changed(tmp_path)) == (None, None)
    monkeypatch.setenv("PATH", "/nowhere")
    assert changed(tmp_path) is None
