"""What a person is asked, and answers."""

import enum
import sys
from dataclasses import dataclass
from typing import Protocol, TextIO

_WORDS = {"y": "yes", "yes": "yes", "n": "no", "no": "no", "s": "skip", "skip": "skip"}


class Answer(enum.Enum):
    """What is said to a question."""

    YES = "yes"
    NO = "no"
    NONE = "not answered"


@dataclass
class Answered:
    """A question with its answer, and what was said besides."""

    name: str
    answer: Answer
    remark: str = ""


class Person(Protocol):
    """Who stands before the sign."""

    def is_it_so(self, question: str, lines: list[str]) -> tuple[Answer, str]:
        """Whether the sign shows what these lines do, and a remark."""

    def is_done(self, what: str) -> bool:
        """Whether the person did this to the sign, once it is done."""


class Reader:
    """A person at a terminal, who types `yes`, `no` with a remark, or `skip`."""

    def __init__(self, typed: TextIO | None = None, out: TextIO | None = None) -> None:
        self._typed, self._out = typed or sys.stdin, out or sys.stdout

    def is_it_so(self, question: str, lines: list[str]) -> tuple[Answer, str]:
        """Whether the sign shows what these lines do, and a remark."""
        print("\n".join(["", *lines, question]), file=self._out)
        return self._answer("[yes, no and what it shows, or skip]")

    def is_done(self, what: str) -> bool:
        """Whether the person did this to the sign, once it is done."""
        print(f"\n{what}", file=self._out)
        return self._answer("[yes when it is done, or skip]")[0] is Answer.YES

    def _answer(self, form: str) -> tuple[Answer, str]:
        """What is typed; where nobody types any more there is no answer."""
        while True:
            print(form, end=" ", file=self._out, flush=True)
            line = self._typed.readline()
            word, _, remark = line.strip().partition(" ")
            said = _WORDS.get(word.lower().rstrip(",:;"), "skip" if not line else "")
            if said:
                return {"yes": Answer.YES, "no": Answer.NO, "skip": Answer.NONE}[said], remark.strip()
