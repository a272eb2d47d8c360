"""tools/test.py over a small repository with a kit that only writes down what it is asked."""

import os
import pathlib
import re
import shutil
import signal
import subprocess
import sys
import time

import pytest

import python_tests
from steps.step import TOP, Outcome, Step, judged

NEEDED = ("tools/test.py", "tools/after_gate.py", "tools/check.py", "tools/build.py")
FOLDERS = ("tools/steps", "tools/building", "tools/tries")
RATTLE = """#!/bin/sh
echo "$1 in $(basename "$PWD")" >> "$ASKED"
[ "$(basename "$PWD")" != bad ] || { echo a goal is open; exit 1; }
while [ $# != 0 ]; do
    [ "$1" != -o ] || echo made > "$2"
    shift
done
"""


def write(path: pathlib.Path, text: str) -> None:
    path.parent.mkdir(parents=True, exist_ok=True)
    path.write_text(text, encoding="utf-8")


@pytest.fixture
def top(tmp_path: pathlib.Path) -> pathlib.Path:
    """A repository with three crates, none of which changed."""
    top = tmp_path / "top"
    for name in FOLDERS:
        shutil.copytree(TOP / name, top / name, ignore=shutil.ignore_patterns("tests", "__pycache__"))
    for name in NEEDED:
        shutil.copy(TOP / name, top / name)
    write(top / "crates.txt", "high: low\nlow:\nbad: low\n")
    for name in ("low", "bad", "high"):
        write(top / f"crates/{name}/src/{'main' if name == 'high' else 'lib'}.rt", "fn nothing() {}\n")
    write(top / ".gitignore", "out/\n__pycache__/\n")
    for words in (("init", "-q", "-b", "main"), ("add", "-A"), ("commit", "-qm", "First")):
        name_of_committer = ("-c", "user.name=A", "-c", "user.email=a@example.org", "-c", "commit.gpgsign=false")
        subprocess.run(["git", *name_of_committer, *words], cwd=top, check=True, capture_output=True)
    return top


def kit(top: pathlib.Path, text: str) -> pathlib.Path:
    """The folder of the programs of a kit, which all are this text."""
    folder = top.parent / "kit/bin"
    for name in ("rt", "rattle"):
        write(folder / name, text)
        (folder / name).chmod(0o755)
    write(folder.parent / "KIT-ID", "a kit")
    return folder


def called(top: pathlib.Path, *words: str, has_kit: bool = True) -> tuple[int, str, str, list[str]]:
    """The status, what it printed, what it said, and what the kit was asked."""
    path = f"{kit(top, RATTLE)}:{os.environ['PATH']}" if has_kit else "/usr/bin:/bin"
    environment = {**os.environ, "PATH": path, "ASKED": str(top.parent / "asked"), "PYTHONDONTWRITEBYTECODE": "1"}
    call = [sys.executable, "tools/test.py", *words]
    ended = subprocess.run(call, cwd=top, env=environment, capture_output=True, text=True, check=False)
    asked = top.parent / "asked"
    return ended.returncode, ended.stdout, ended.stderr, asked.read_text().splitlines() if asked.exists() else []


def change(top: pathlib.Path, *names: str) -> None:
    for name in names:
        write(top / f"crates/{name}/src/more.rt", "fn more() {}\n")


def test_crates_that_changed_are_checked_one_at_a_time_the_lowest_first(top: pathlib.Path) -> None:
    change(top, "high", "low")
    status, printed, said, asked = called(top, "check of high", "check of low")
    assert (status, asked) == (0, ["check in low", "build in low", "check in high"])
    assert printed.splitlines()[-2:] == ["0 skipped: none", "2 passed, 0 failed"]
    assert re.search(r"1 of 2 steps in \d+ s; some ", said) and "2 of 2 steps in " in said


def test_a_crate_that_is_not_proved_fails_and_its_output_is_shown(top: pathlib.Path) -> None:
    change(top, "bad", "high")
    status, printed, _, asked = called(top, "check of bad", "check of high")
    assert (status, asked) == (1, ["build in low", "check in bad", "check in high"])
    assert "a goal is open" in printed and printed.endswith("1 passed, 1 failed\n")


def test_without_the_kit_a_check_is_skipped_by_name(top: pathlib.Path) -> None:
    change(top, "low")
    status, printed, _, asked = called(top, "check of low", has_kit=False)
    if shutil.which("rt", path="/usr/bin:/bin"):
        pytest.skip("a kit is here in any case")
    assert (status, asked) == (0, [])
    assert printed.splitlines()[-2:] == ["1 skipped: check of low", "0 passed, 0 failed"]


def test_without_a_program_what_compares_it_is_skipped_by_name(top: pathlib.Path) -> None:
    status, printed, _, _ = called(top, "model", "vectors")
    assert (status, printed.splitlines()[-2:]) == (0, ["2 skipped: model, vectors", "0 passed, 0 failed"])
    assert "skipped model: there is no program at " in printed


def test_a_program_that_is_older_than_what_changed_is_told(top: pathlib.Path) -> None:
    change(top, "low")
    program = top.parent / "signtool"
    write(program, "#!/bin/sh\n")
    program.chmod(0o755)
    os.utime(program, (1, 1))
    _, printed, _, _ = called(top, "--program", str(program), "check of low")
    assert printed.startswith("the program is older than the crates that changed")


def test_the_list_names_steps_and_changed_crates(top: pathlib.Path) -> None:
    change(top, "low")
    status, printed, _, asked = called(top, "--list")
    assert (status, asked) == (0, []) and "model: python3 -m trials.compare_model" in printed
    assert printed.splitlines()[-1].startswith("check of low: tools/check.py low (some ")
    assert "check of" not in called(top, "--list", "--without-crates")[1]


@pytest.mark.parametrize("number, status", [(signal.SIGINT, 130), (signal.SIGTERM, 143)])
def test_an_interrupt_ends_it_at_once(top: pathlib.Path, number: int, status: int) -> None:
    change(top, "low")
    folder = kit(top, "#!/bin/sh\necho $$ > $ASKED\nexec sleep 60\n")
    environment = {**os.environ, "PATH": f"{folder}:{os.environ['PATH']}", "ASKED": f"{top.parent}/asked"}
    call = [sys.executable, "tools/test.py", "check of low"]
    with subprocess.Popen(
        call,
        cwd=top,
        env=environment,
        stdout=subprocess.PIPE,
        stderr=subprocess.PIPE,
        preexec_fn=lambda: signal.signal(signal.SIGINT, signal.SIG_DFL),  # a shell has what it puts aside ignore it
    ) as process:
        until = time.monotonic() + 30
        while not (top.parent / "asked").exists() and time.monotonic() < until:
            time.sleep(0.1)
        process.send_signal(number)
        said = process.communicate(timeout=30)[1]
    assert (process.returncode, said) == (status, b"")
    asked = (top.parent / "asked").read_text().strip()
    assert not pathlib.Path(f"/proc/{asked}").exists()


def test_a_step_that_is_not_there_is_a_fault_of_the_command_line(top: pathlib.Path) -> None:
    status, _, said, _ = called(top, "no such step")
    assert (status, said) == (2, "no step no such step: --list names all\n")


def test_that_no_crate_changed_is_said(top: pathlib.Path) -> None:
    status, printed, _, _ = called(top)
    assert "no crate changed since main\n" in printed
    assert status == 1, "the small repository has none of the tools that steps call"


@pytest.mark.parametrize("option, name", [("--quick", "pytest"), ("--types", "mypy")])
def test_where_no_python_has_pytest_or_mypy_they_are_skipped_by_name(
    option: str, name: str, monkeypatch: pytest.MonkeyPatch, capsys: pytest.CaptureFixture[str]
) -> None:
    monkeypatch.setattr(python_tests, "PYTHONS", ("/bin/false", "/no/python"))
    monkeypatch.setattr(sys, "argv", ["python_tests.py", option])
    status, printed = python_tests.main(), capsys.readouterr().out
    outcome = judged(Step("tests", "", 1), printed, status, 1.0)
    assert (outcome.passed, outcome.failed, outcome.skipped) == (0, 0, [f"tests: {name}"])


def types_told(
    python: pathlib.Path, text: str, monkeypatch: pytest.MonkeyPatch, capsys: pytest.CaptureFixture[str]
) -> tuple[Outcome, str]:
    """What comes of a look at types with a Python that is this script, and what is printed."""
    write(python, f"#!/bin/sh\n{text}\n")
    python.chmod(0o755)
    monkeypatch.setattr(python_tests, "PYTHONS", (str(python),))
    monkeypatch.setattr(sys, "argv", ["python_tests.py", "--types"])
    status, printed = python_tests.main(), capsys.readouterr().out
    return judged(Step("types", "", 1), printed, status, 1.0), printed


@pytest.mark.parametrize("module", python_tests.TYPED)
def test_where_a_package_of_the_control_room_is_missing_mypy_is_skipped_by_name(
    module: str, tmp_path: pathlib.Path, monkeypatch: pytest.MonkeyPatch, capsys: pytest.CaptureFixture[str]
) -> None:
    text = f'[ "$1" = -c ] && [ "$2" != "import {module}" ]'
    outcome, printed = types_told(tmp_path / "python", text, monkeypatch, capsys)
    assert (outcome.passed, outcome.failed, outcome.skipped) == (0, 0, ["types: mypy"])
    assert f"skipped mypy: {module} is not here\n" in printed


@pytest.mark.parametrize("status", (0, 1))
def test_where_all_of_them_are_here_types_are_looked_at(
    status: int, tmp_path: pathlib.Path, monkeypatch: pytest.MonkeyPatch, capsys: pytest.CaptureFixture[str]
) -> None:
    outcome, _ = types_told(tmp_path / "python", f'[ "$1" = -c ] || exit {status}', monkeypatch, capsys)
    assert (outcome.passed, outcome.failed, outcome.skipped) == (1 - status, status, [])


def test_what_the_control_room_imports_of_others_is_looked_for() -> None:
    found = set[str]()
    for path in (TOP / "python/wisangub/room").rglob("*.py"):
        found |= set(re.findall(r"(?m)^ *(?:import|from) (\w+)", path.read_text(encoding="utf-8")))
    others = found - set(sys.stdlib_module_names) - {"wisangub", "prometheus_client"}  # what of this is used fits any
    assert others <= set(python_tests.TYPED)


def file_of(command: str) -> pathlib.Path:
    """The file that a command runs: a tool's own, or a module's."""
    words = command.split()
    return TOP / (f"{words[2].replace('.', '/')}.py" if words[:2] == ["python3", "-m"] else words[0])


def test_what_it_names_of_other_tools_is_there() -> None:
    for name in python_tests.SLOW:
        assert (TOP / name).is_file(), name
    words = [sys.executable, "tools/test.py", "--list"]
    names = subprocess.run(words, cwd=TOP, capture_output=True, text=True, check=True)
    for line in names.stdout.splitlines():
        name, _, command = line.partition(": ")
        assert file_of(command).is_file() or name.startswith("check of "), line
    assert "vectors as made: tools/make_vectors.py --check" in names.stdout
