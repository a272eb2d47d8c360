"""Each command that README, docs/ and the manual pages name is read to its end: in the checkout, and from the wheel."""

import os
import pathlib
import re
import subprocess
import sys
from collections.abc import Callable

import pytest

from wisangub.process.places import TOP

from .named import PARTS, Named, named

NO_SUCH = "--no-such-option"  # without it a command would run
ENDINGS = (f"unrecognized arguments: {NO_SUCH}", "the following arguments are required: ")
WAIT = 120  # seconds for a help on a busy machine
COMMANDS = sorted({found.command for found in named()})
Called = Callable[[Named, list[str]], subprocess.CompletedProcess[str]]


@pytest.fixture(params=["checkout", "wheel"])
def called(request: pytest.FixtureRequest, tmp_path: pathlib.Path) -> Called:
    """What calls a command with some words."""
    is_checkout = request.param == "checkout"
    folder = TOP / "bin" if is_checkout else request.getfixturevalue("installed")
    before = [sys.executable] if is_checkout else []
    environment = {name: held for name, held in os.environ.items() if not name.startswith("PYTHON")}
    environment["PYTHONDONTWRITEBYTECODE"] = "1"

    def call(one: Named, words: list[str]) -> subprocess.CompletedProcess[str]:
        command = [*before, str(folder / one.command), *words]
        return subprocess.run(command, env=environment, cwd=tmp_path, capture_output=True, text=True, timeout=WAIT)

    return call


def test_each_command_and_subcommand_is_named() -> None:
    found = {(one.command, one.part) for one in named()}
    assert found == {(command, part) for command in COMMANDS for part in ("", *PARTS.get(command, ()))}
    assert len(COMMANDS) == 5


def test_help_names_each_option(called: Called) -> None:
    """The options of a page stand in the help of their command, or of a word of it that has a help of its own."""
    for command in COMMANDS:
        for part in ("", *PARTS.get(command, ())):
            some = [one for one in named() if (one.command, one.part) == (command, part)]
            ended = called(some[0], some[0].call("--help"))
            assert (ended.returncode, ended.stderr) == (0, "") and ended.stdout.startswith("usage: ")
            known = set(re.findall(r"(?<![\w-])--[a-z][a-z-]*", ended.stdout))
            for words in {one.words for one in some}:
                lacking = {word for word in words if word.startswith("--")} - known
                assert not lacking or lacking <= _of_words(called, some[0], words), (command, part, words)


def _of_words(called: Called, one: Named, words: tuple[str, ...]) -> set[str]:
    """The options in the help of the first word that is no option."""
    ended = called(one, one.call(words[0], "--help"))
    return set(re.findall(r"(?<![\w-])--[a-z][a-z-]*", ended.stdout))


def test_each_line_is_read_to_its_end(called: Called) -> None:
    """With one option more that no command has, that is all that a command finds wrong: else it lacks one."""
    for one in named():
        ended = called(one, one.call(*one.words, NO_SUCH))
        said = ended.stderr.rstrip().rsplit("error: ", 1)[-1]
        assert ended.returncode == 2 and said.startswith(ENDINGS), (one, ended.stdout, ended.stderr)
