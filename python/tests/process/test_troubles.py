"""What nobody foresaw: a fault of the tester is no sign's that differs."""

import json
import pathlib
import re
import subprocess
import sys

import pytest

from model import text
from tests.tester.endpoints import LONG
from wisangub.process.coprocess import Died
from wisangub.process.places import environment
from wisangub.tester import __main__ as command
from wisangub.tester.several import program as several

TROUBLES: list[tuple[BaseException, str]] = [
    (KeyError("a\nb"), r"a fault of the tester, .*: KeyError 'a\\nb' \(its traceback: (.*)\)\n"),
    (ValueError("one\ntwo"), r"a fault of the tester, .*: ValueError one two \(its traceback: (.*)\)\n"),
    (RecursionError(), r"a fault of the tester, .*: RecursionError \(its traceback: (.*)\)\n"),
    (OSError(5, "why", "file"), "file: why\n"),
    (Died("the co-process ended with status 1", 1), "the co-process ended with status 1\n"),
    (MemoryError(), "out of memory\n"),
    (KeyboardInterrupt(), "interrupted\n"),
]
FAULTY = """
import sys
if "wisangub.tester" in sys.orig_argv:
    from wisangub.tester import session
    class Session(session.Session):
        def _run(self, chapters):
            raise KeyError("nobody foresaw it")
    session.Session = Session
"""


@pytest.mark.parametrize("part", ["cli", *(name.removeprefix("wisangub.tester.") for name in command.PARTS.values())])
@pytest.mark.parametrize(("fault", "words"), TROUBLES)
def test_a_trouble_is_no_difference(
    fault: BaseException,
    words: str,
    part: str,
    monkeypatch: pytest.MonkeyPatch,
    tmp_path: pathlib.Path,
    capsys: pytest.CaptureFixture[str],
) -> None:
    def failing() -> int:
        raise fault

    monkeypatch.setattr(f"wisangub.tester.{part}.main", failing)
    monkeypatch.setattr(sys, "argv", ["wisangub-conform", part.partition(".")[0]])
    monkeypatch.setattr("tempfile.tempdir", str(tmp_path))
    assert command.run() == 2
    found = re.fullmatch(words, capsys.readouterr().err)
    assert found
    for name in found.groups():
        kept = pathlib.Path(name).read_text(encoding="utf-8")
        assert kept.startswith("Traceback") and "in failing" in kept


def test_a_traceback_that_no_file_keeps_stands_before_its_line(
    monkeypatch: pytest.MonkeyPatch, tmp_path: pathlib.Path, capsys: pytest.CaptureFixture[str]
) -> None:
    def failing() -> int:
        raise KeyError("nothing")

    monkeypatch.setattr("wisangub.tester.cli.main", failing)
    monkeypatch.setattr(sys, "argv", ["wisangub-conform"])
    monkeypatch.setattr("tempfile.tempdir", str(tmp_path / "none"))
    assert command.run() == 2
    first, *_, last = capsys.readouterr().err.splitlines()
    assert first.startswith("Traceback") and last.startswith("a fault of the tester, ") and "KeyError" in last


def test_one_of_several_signs_is_not_tested_then(tmp_path: pathlib.Path) -> None:
    (tmp_path / "sitecustomize.py").write_text(FAULTY, encoding="utf-8")
    (tmp_path / "bench.sign").write_bytes(text.BENCH)
    (tmp_path / "list").write_text("west 127.0.0.1:1 bench.sign\n", encoding="utf-8")
    call = [sys.executable, "-m", "wisangub.tester", "several", "list", "--into", "reports", "--signtool", "model"]
    ran = environment()
    ran |= {"PYTHONPATH": f"{tmp_path}:{ran['PYTHONPATH']}", "TMPDIR": str(tmp_path)}
    ended = subprocess.run(call, cwd=tmp_path, env=ran, capture_output=True, text=True, timeout=LONG, check=False)
    assert ended.returncode == 2 and ended.stdout.endswith("\n1 not tested\n"), ended
    held = json.loads((tmp_path / "reports/several.json").read_text(encoding="utf-8"))
    assert held[0]["verdict"] == "not tested" and "KeyError 'nobody foresaw it'" in held[0]["words"], held
    assert "nobody foresaw it" in next(tmp_path.glob("wisangub-conform-*.txt")).read_text(encoding="utf-8")


def test_a_fault_of_one_sign_keeps_no_other_from_its_test(
    monkeypatch: pytest.MonkeyPatch, tmp_path: pathlib.Path, capsys: pytest.CaptureFixture[str]
) -> None:
    """Two signs, one after the other, of which none can be begun."""

    def failing(*_words: object, **_more: object) -> None:
        raise KeyError("nobody foresaw it")

    (tmp_path / "bench.sign").write_bytes(text.BENCH)
    (tmp_path / "list").write_text("east 127.0.0.1:1 bench.sign\nwest 127.0.0.1:1 bench.sign\n", encoding="utf-8")
    monkeypatch.setattr("subprocess.Popen", failing)
    monkeypatch.setattr("tempfile.tempdir", str(tmp_path))
    monkeypatch.setattr(
        sys, "argv", ["several", str(tmp_path / "list"), "--into", str(tmp_path / "reports"), "--jobs", "1"]
    )
    assert several.main() == 2
    assert capsys.readouterr().out.endswith("\n2 not tested\n")
