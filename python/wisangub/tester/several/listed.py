"""The list of the signs that are tested: a line each."""

import argparse
import pathlib
import re
import shlex
from dataclasses import dataclass

from wisangub.refusal import Refusal, reason
from wisangub.tester.cli import arguments

_FORM = "NAME HOST:PORT DESCRIPTION [OPTION ..]"
_NAME = re.compile(r"[A-Za-z0-9][A-Za-z0-9._-]*")
ALL = "several"  # what the report of all signs is called, as those of a sign are by its name
REPORTS = ("html", "json", "junit")  # of each sign
_OWN = ("to", "sign", *REPORTS, "repeat", "resume", "person")  # no option of a line
FILES = ("pdf", "pcap")  # of a sign by its name where all have them, or else as its line says
_NOTHING = ["--to", "\0", "--sign", "\0"]  # the options of a test, and none that somebody can say


@dataclass(frozen=True)
class Listed:
    """A sign of the list: its name, its address, its description, and options of its test alone, with the files that
    these name."""

    name: str
    to: str
    sign: pathlib.Path
    options: tuple[str, ...] = ()
    files: tuple[pathlib.Path, ...] = ()

    def call(self, folder: pathlib.Path, options: list[str], kinds: tuple[str, ...] = REPORTS) -> list[str]:
        """The words of its test, with options that hold for all, whose reports of these kinds are in this folder."""
        reports = [word for kind in kinds for word in (f"--{kind}", str(self.report(folder, kind)))]
        return ["--to", self.to, "--sign", str(self.sign), *reports, *options, *self.options]

    def report(self, folder: pathlib.Path, kind: str) -> pathlib.Path:
        """The file of a report of this kind."""
        return folder / (f"{self.name}.junit.xml" if kind == "junit" else f"{self.name}.{kind}")


def read(path: pathlib.Path) -> list[Listed]:
    """The signs of a list; descriptions are beside it. Raises Refusal where a line is none of its form."""
    try:
        lines = path.read_text(encoding="utf-8").splitlines()
    except (OSError, UnicodeDecodeError) as fault:
        raise Refusal(f"the list cannot be read: {reason(fault) if isinstance(fault, OSError) else fault}") from None
    found: list[Listed] = []
    for number, line in enumerate(lines, 1):
        try:
            words = shlex.split(line, comments=True)
        except ValueError as fault:
            raise Refusal(f"{path}, line {number}: {fault}") from None
        if words:
            found.append(_listed(path, number, words))
            _check_alone(found[-1], found[:-1], f"{path}, line {number}")
    if not found:
        raise Refusal(f"{path} names no sign; a line of it is: {_FORM}")
    return found


def _listed(path: pathlib.Path, number: int, words: list[str]) -> Listed:
    """The sign of a line."""
    where = f"{path}, line {number}"
    if len(words) < 3 or not _NAME.fullmatch(words[0]):
        raise Refusal(f"{where}: such a line is: {_FORM}")
    if words[0] == ALL:
        raise Refusal(f"{where}: {ALL}.json is the report of all signs: none of them is called {ALL}")
    asked = checked(words[3:], where)
    files = tuple(path.resolve() for path in map(vars(asked).get, FILES) if path is not None)
    return Listed(words[0], words[1], path.parent / words[2], tuple(words[3:]), files)


def _check_alone(held: Listed, others: list[Listed], where: str) -> None:
    """Raises Refusal where the name of a sign, or a file that its test writes, is another one's."""
    for other in others:
        if held.name == other.name:
            raise Refusal(f"{where}: another sign is called {held.name}")
        for path in held.files:
            if path in other.files:
                raise Refusal(f"{where}: {path} is a file of {other.name} too")


def checked(options: list[str], where: str) -> argparse.Namespace:
    """What the options of a test of several signs say. Raises Refusal where one of them is none."""
    try:
        asked, nothing = arguments().parse_args([*_NOTHING, *options]), vars(arguments().parse_args(_NOTHING))
    except SystemExit:
        raise Refusal(f"{where}: these are no options of a test") from None
    for name in _OWN:
        if vars(asked)[name] != nothing[name]:
            raise Refusal(f"{where}: {_word(options, name)} is not for a test of several signs")
    return asked


def _word(options: list[str], name: str) -> str:
    """How an option of this name is spelled, which may be by its first letters."""
    return next(word for word in options if len(word) > 2 and f"--{name}".startswith(word.split("=")[0]))
