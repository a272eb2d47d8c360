"""The rules of docs/PROFILE.md by a key each: the chapter that tests it, heading, sentence, and whether it is (own)."""

import functools
import pathlib
import re
from dataclasses import dataclass

from wisangub.process.places import PROFILE

# chapters in the order in which they run; "before" stands for what is read of the sign before any of them
CHAPTERS = (
    "ber",
    "communities",
    "get",
    "getnext",
    "set",
    "rows",
    "durations",
    "validation",
    "activation",
    "priorities",
    "defaults",
    "silence",
    "sizes",
    "repeated",
    "random",
    "device",
)


_TABLE = pathlib.Path(__file__).with_name("rules.txt")


@dataclass(frozen=True)
class Rule:
    """A sentence of docs/PROFILE.md under its heading, or one that says what is `quoted` there, a table's row or a part
    of a sentence; `own` is a choice of the profile."""

    key: str
    chapter: str
    heading: str
    sentence: str
    own: bool = False
    quoted: str = ""


def _read(table: str) -> dict[str, Rule]:
    """The rules of a table: a line of key, chapter and heading, an asterisk before the chapter of what is (own), and
    lines of the sentence, which are indented; or lines of what is quoted, and of the sentence, each behind `=`."""
    rules: dict[str, Rule] = {}
    for head, body in re.findall(r"(?m)^([^#\s].*)\n((?:[ ].*\n)+)", table):
        key, chapter, heading = head.split(" | ")
        lines = [line.strip() for line in body.splitlines()]
        quoted, said = (
            " ".join(" ".join(line for line in lines if line.startswith("= ") is is_said).split())
            for is_said in (False, True)
        )
        sentence = said.replace("= ", "") or quoted
        rules[key] = Rule(key, chapter.removeprefix("*"), heading, sentence, chapter.startswith("*"), quoted)
    return rules


RULES = _read(_TABLE.read_text(encoding="utf-8"))


@functools.lru_cache(maxsize=1)
def _sections() -> dict[str, str]:
    """The text under each heading of docs/PROFILE.md, white space as one space."""
    found: dict[str, list[str]] = {}
    heading = ""
    for line in PROFILE.read_text(encoding="utf-8").splitlines():
        if line.startswith("#"):
            heading = line.lstrip("#").strip()
        else:
            found.setdefault(heading, []).append(line)
    return {heading: " ".join(" ".join(lines).split()) for heading, lines in found.items()}


def is_in_profile(rule: Rule) -> bool:
    """Whether the rule's sentence, or what it says in words, stands under its heading."""
    return rule.quoted in _sections().get(rule.heading, "")
