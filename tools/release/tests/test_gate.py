"""A release is of a commit whose gate passed: what the gate's log has to say, and what else is refused."""

import pathlib
import subprocess

import pytest

TOP = pathlib.Path(__file__).resolve().parents[3]
COMMIT = "0123456789abcdef0123456789abcdef01234567"
PASSED = f"commit {COMMIT}\n1 passed, 1 failed\nskipped: none\n20570 passed, 0 failed\n"


def said(tmp_path: pathlib.Path, log: str, commit: str = COMMIT) -> tuple[int, str, str]:
    """The status, and what is said of a log."""
    path = tmp_path / "log"
    path.write_text(log, encoding="utf-8")
    call = [str(TOP / "tools/release/gate.sh"), str(path), commit]
    ended = subprocess.run(call, capture_output=True, text=True, check=False)
    return ended.returncode, ended.stdout, ended.stderr


def release(*words: str) -> tuple[int, str]:
    """A call of tools/release.sh that is to be refused before it makes anything."""
    call = [str(TOP / "tools/release.sh"), *words, "/nowhere/at/all"]
    ended = subprocess.run(call, capture_output=True, text=True, check=False)
    assert not ended.stdout
    return ended.returncode, ended.stderr


def test_a_gate_that_passed(tmp_path: pathlib.Path) -> None:
    assert said(tmp_path, PASSED) == (0, "20570 passed, 0 failed\n", "")


@pytest.mark.parametrize(
    ("log", "why"),
    [
        (PASSED.replace("20570 passed, 0 failed", "20570 passed, 2 failed"), "did not pass"),
        (PASSED.replace("20570 passed", "0 passed"), "did not pass"),
        (PASSED + "Terminated\n", "did not pass"),
        (PASSED.replace(COMMIT, f"{COMMIT} with changes"), "is not of the commit"),
        (PASSED.replace(COMMIT, COMMIT[::-1]), "is not of the commit"),
        (PASSED.partition("\n")[2], "is not of the commit"),
        ("", "is not of the commit"),
    ],
)
def test_what_no_release_is_made_of(tmp_path: pathlib.Path, log: str, why: str) -> None:
    status, printed, refused = said(tmp_path, log)
    assert (status, printed) == (1, "") and why in refused


def test_a_log_that_is_not_there(tmp_path: pathlib.Path) -> None:
    call = [str(TOP / "tools/release/gate.sh"), str(tmp_path / "none"), COMMIT]
    assert subprocess.run(call, capture_output=True, check=False).returncode == 1


def test_no_release_without_a_gate(tmp_path: pathlib.Path) -> None:
    status, why = release()
    assert status == 2 and "--gate LOG" in why and "--without-gate" in why
    log = tmp_path / "log"
    log.write_text(PASSED, encoding="utf-8")
    status, why = release("--gate", str(log))
    assert status == 2 and "is not of the commit" in why


def test_the_gate_names_its_commit_first() -> None:
    text = (TOP / ".ci/run").read_text(encoding="utf-8")
    assert text.index('echo "commit $commit"') < text.index("tools/prove.py | tee")


def test_the_readme_of_a_release_says_which_gate() -> None:
    assert "@GATE@" in (TOP / "tools/release/README").read_text(encoding="utf-8")
