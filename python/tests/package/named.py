"""The commands that README, docs/ and the manual pages name, with their words."""

import re
import shlex
from collections.abc import Iterator
from typing import NamedTuple

from wisangub.process.places import TOP

PAGES = (TOP / "README.md", TOP / "CONTRIBUTING.md", TOP / "CHANGELOG.md", *sorted((TOP / "docs").glob("*.md")))
MANUALS = sorted((TOP / "tools/release/man").glob("*.[17]"))
COMMAND = re.compile(r"(?:bin/)?(wisangub-(?:sign|centre|objects|conform|control))")
PARTS = {  # the subcommands
    "wisangub-conform": ("centre", "describe", "several", "soak", "vectors"),
    "wisangub-control": ("users", "tokens", "demo", "backup", "archive", "signs", "command", "worker"),
}


class Named(NamedTuple):
    """A command, its subcommand where it has one, and the words after that."""

    command: str
    part: str
    words: tuple[str, ...]

    def call(self, *more: str) -> list[str]:
        """The words behind the command's name."""
        return [*([self.part] if self.part else []), *more]


def _shell_lines(text: str) -> Iterator[str]:
    """The code of a page of Markdown: its blocks, line by line, and its spans."""
    prose, is_fenced = [], False
    for line in text.replace("\\\n", " ").splitlines():
        if line.startswith("```"):
            is_fenced = not is_fenced
        elif is_fenced or line.startswith("    "):
            yield line
        else:
            prose.append(line)
    yield from (" ".join(span.split()) for span in re.findall(r"`([^`]+)`", "\n".join(prose)))


def _manual_lines(text: str) -> Iterator[str]:
    """The lines of a manual page that show a command."""
    for line in re.findall(r"(?m)^\.[DQ]l (.*)$", text):
        yield re.sub(r" [.,:]$", "", line.replace("\\(dq", '"').replace("\\ ", " "))


def _of_line(line: str) -> Iterator[Named]:
    """The commands of a line of a shell."""
    for simple in re.split(r"\|(?!\|)|[;&()]| #", line):
        if not COMMAND.search(simple):
            continue
        lexer = shlex.shlex(simple, posix=True, punctuation_chars="<>")
        lexer.whitespace_split, lexer.commenters = True, ""
        try:
            words = list(lexer)
        except ValueError:  # a piece of a quoted text
            continue
        at = next((at for at, word in enumerate(words) if COMMAND.fullmatch(word)), None)
        if at is None:
            continue
        found = COMMAND.fullmatch(words[at])
        assert found
        rest = words[at + 1 :]
        rest = rest[: next((at for at, word in enumerate(rest) if word[0] in "<>"), len(rest))]
        part = rest[0] if rest and rest[0] in PARTS.get(found[1], ()) else ""
        yield Named(found[1], part, tuple(rest[1:] if part else rest))


def named() -> list[Named]:
    """Each of them once."""
    lines = [line for page in PAGES for line in _shell_lines(page.read_text(encoding="utf-8"))]
    lines += [line for page in MANUALS for line in _manual_lines(page.read_text(encoding="utf-8"))]
    return sorted({found for line in lines for found in _of_line(line)})
