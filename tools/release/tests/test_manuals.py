"""Each option that a command's help names stands in its manual page, and no other option does."""

import pathlib
import re
import subprocess
import sys

import pytest

TOP = pathlib.Path(__file__).resolve().parents[3]
MAN = TOP / "tools/release/man"
PROGRAM = TOP / "crates/signtool/out/signtool"
PYTHON = [sys.executable]
COMMANDS = {
    "wisangub-sign": [[*PYTHON, "bin/wisangub-sign"]],
    "wisangub-centre": [[*PYTHON, "bin/wisangub-centre"]],
    "wisangub-objects": [[*PYTHON, "bin/wisangub-objects"]],
    "wisangub-conform": [[*PYTHON, "bin/wisangub-conform"]],
    "wisangub-control": [[*PYTHON, "bin/wisangub-control"]],
}
PARTS = ["answer", "check", "pages", "code", "activation", "decode", "items", "replay", "sign", "centre"]


def options(text: str) -> set[str]:
    """The long options of a help, but for the help itself."""
    return set(re.findall(r"(?<![\w-])--([a-z][a-z-]*)", text)) - {"help"}


def said(words: list[str]) -> str:
    """What a command says for --help, on either output."""
    ended = subprocess.run([*words, "--help"], cwd=TOP, capture_output=True, text=True, timeout=60, check=False)
    return ended.stdout + ended.stderr


def in_manual(name: str) -> set[str]:
    """The long options of a manual page."""
    text = (MAN / f"{name}.1").read_text(encoding="utf-8")
    return set(re.findall(r"Fl -([a-z][a-z-]*)", text)) - {"help"}


@pytest.mark.parametrize("name", COMMANDS)
def test_a_manual_has_the_options_of_its_help(name: str) -> None:
    wanted = set().union(*(options(said(words)) for words in COMMANDS[name]))
    parts = {"port", "seconds", "characters", "by-texts", "into", "jobs"}  # those of the parts of wisangub-conform
    more = parts if name == "wisangub-conform" else set()
    assert wanted == in_manual(name) - more


@pytest.mark.skipif(not PROGRAM.exists(), reason="the program is not built")
def test_the_manual_of_the_program_has_the_options_of_its_help() -> None:
    wanted = set().union(*(options(said([str(PROGRAM), part])) for part in PARTS))
    assert wanted == in_manual("wisangub-signtool") - {"version"}  # of the program itself


@pytest.mark.skipif(not PROGRAM.exists(), reason="the program is not built")
def test_subcommands_of_the_program() -> None:
    listed = re.findall(r"(?m)^ {2}([a-z]+) ", said([str(PROGRAM)]))
    assert sorted(set(listed) - {"help"}) == sorted(PARTS)


def test_control_names_its_commands() -> None:
    text = (MAN / "wisangub-control.1").read_text(encoding="utf-8")
    for part in re.findall(r"(?m)^\.It Cm (\w+)$", text):
        assert f"usage: bin/wisangub-control {part} " in said([*PYTHON, "bin/wisangub-control", part])


def test_each_manual_page_has_a_name_and_fields() -> None:
    for page in MAN.iterdir():
        text = page.read_text(encoding="utf-8")
        assert text.startswith(".Dd @DATE@\n") and '.Os "Wisangub @VERSION@"' in text, page.name
        assert ".Sh NAME\n" in text and ".Sh SEE ALSO\n" in text, page.name
