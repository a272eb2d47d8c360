"""A co-process that answers each line by lines: `signtool sign` or `signtool centre`."""

import contextlib
import os
import select
import subprocess
from typing import Iterable, Iterator, NoReturn, Sequence

from wisangub.refusal import Refusal, reason

from .description import unseen

_WAIT = 10  # milliseconds, after which answers are read though the process takes nothing
PATIENCE = 60_000  # milliseconds that a program may take to its first answer
ENDING = 10.0  # seconds that it may take to its end
_ENDS = (b"ok", b"dropped")
_BAD_LINE = [b"bad", b"line"]  # and behind it perhaps why
_ENDING_WORDS = (b"reply", b"accepted", b"send", b"refused")
_FIRST_WORDS = (b"shown", b"idle", b"busy")  # of what is asked first
_HOW = " (tools/build.py builds the program; --signtool model/signtool is the model in its place)"
REFUSED = (b"read", b"too long", b"memory")  # what stands in place of a description's answers, with `line N`


def _is_last(answer: bytes) -> bool:
    """Whether a line is the last one of an answer."""
    words = answer.split(b" ", 2)
    return answer in _ENDS or words[0] in _ENDING_WORDS or words[:2] == _BAD_LINE


class Died(Refusal):
    """The process ended."""


class CoProcess:
    """The process, and what it answered that was not read yet."""

    def __init__(self, program: str, words: Sequence[str], description: bytes | None = None) -> None:
        call = [program, *words] + (["--sign"] if description is not None else [])
        try:
            self.process = subprocess.Popen(
                call, stdin=subprocess.PIPE, stdout=subprocess.PIPE, bufsize=0, process_group=0
            )
        except OSError as fault:
            why = reason(fault) if fault.filename != program else fault.strerror
            raise Refusal(f"{program}: {why}{_HOW if isinstance(fault, FileNotFoundError) else ''}") from fault
        assert self.process.stdin is not None and self.process.stdout is not None
        self.input, self.output = self.process.stdin.fileno(), self.process.stdout.fileno()
        os.set_blocking(self.input, False)
        self.room, self.answers = select.poll(), select.poll()
        self.room.register(self.input, select.POLLOUT)
        self.answers.register(self.output, select.POLLIN)
        self.program, self.words, self.left = program, words, b""
        self.description = description or b""
        self.state, self.kept = b"", ""  # what stands behind the description with --restore, and the file that keeps it

    def go_on_from(self, state: list[bytes], kept: str) -> None:
        """The process has the option --restore, and begins in the state that a file keeps."""
        self.state, self.kept = b"".join(line + b"\n" for line in state), kept

    def write(self, octets: bytes) -> None:
        """Hands octets over whole. Where the process takes no more, it is room for more that is waited for, and its
        answers are read meanwhile, since else both pipes fill."""
        done = self.taken(octets)
        if done == len(octets):
            return
        left = memoryview(octets)[done:]
        while left:
            self.room.poll(_WAIT)
            while self.answers.poll(0):
                self.read()
            left = left[self.taken(left) :]

    def taken(self, octets: bytes | memoryview) -> int:
        """How many octets the process takes now."""
        try:
            return os.write(self.input, octets)
        except BlockingIOError:
            return 0
        except BrokenPipeError:
            self.died()

    def read(self) -> None:
        """Takes up what the process answered, and waits for it."""
        more = os.read(self.output, 1 << 17)
        if not more:
            self.died()
        self.left += more

    def died(self) -> NoReturn:
        """Says how the process ended. What it answered last, if it is no answer to a line, is why."""
        words = self.left.decode("latin-1").strip()
        try:
            status = self.process.wait(5)
        except subprocess.TimeoutExpired:
            status = None
        how = f"by signal {-status}" if status is not None and status < 0 else f"with status {status}"
        raise Died(f"the co-process ended {how}{': ' + words if words else ''}", 1)

    def lines(self, count: int) -> list[bytes]:
        """The next lines that it answers."""
        while self.left.count(b"\n") < count:
            self.read()
        *lines, self.left = self.left.split(b"\n", count)
        return lines

    def until(self, last: bytes) -> list[bytes]:
        """The next lines that it answers, at least one, without the one after them that is `last`."""
        while (end := self.left.find(b"\n" + last + b"\n")) < 0:
            more = os.read(self.output, 1 << 17)
            if not more:
                self.died()
            self.left += more
        lines, self.left = self.left[:end].split(b"\n"), self.left[end + len(last) + 2 :]
        return lines

    def hand(self, lines: list[bytes]) -> list[bytes]:
        """The answers to lines that are each answered by one line; they are handed over at once."""
        self.write(b"\n".join(lines) + b"\n")
        return self.lines(len(lines))

    def ask(self, line: bytes) -> list[bytes]:
        """The whole answer to a line."""
        self.write(line + b"\n")
        while not (self.left.endswith(b"\n") and _is_last(self.left[self.left.rfind(b"\n", 0, -1) + 1 : -1])):
            self.read()
        answer, self.left = self.left[:-1].split(b"\n"), b""
        return answer

    def send(self, line: str) -> list[str]:
        """The whole answer to a line, as text."""
        return [answer.decode("latin-1") for answer in self.ask(line.encode())]

    def begin(self, line: bytes, name: str) -> None:
        """Hands the description over, and asks for something that changes nothing: refuses what is not taken, and a
        program that is another one."""
        self.ask_first(line, name)
        self.answered_first(name)

    def ask_first(self, line: bytes, name: str) -> None:
        """The same without waiting for the answer, so that many can begin at the same time."""
        with self._refused_as(name), contextlib.suppress(Died):  # what it said before is read below
            self.write(self.description + self.state + line + b"\n")

    def answered_first(self, name: str) -> None:
        """Waits for the answer to what was asked first."""
        with self._refused_as(name):
            if not self.answers.poll(PATIENCE):
                raise Refusal("it does not answer")
            answer = self.lines(1)[0]
        if answer.startswith(b"line ") or answer in REFUSED:
            self.end()  # what it says of the line comes first
            more = unseen(self.description, answer)
            raise Refusal(f"{name}: {answer.decode()}: no description of a sign{more}")
        if self.state and answer.startswith(b"state line "):
            self.end()
            raise Refusal(f"{self.kept}: {answer.decode()}: no state of this {self.words[0]} (--fresh begins anew)")
        if answer.split(b" ")[0] not in _FIRST_WORDS:
            self.process.kill()
            raise Refusal(f"{self.program} does not answer as signtool does")
        while not _is_last(answer):
            answer = self.lines(1)[0]

    @contextlib.contextmanager
    def _refused_as(self, name: str) -> Iterator[None]:
        """Kills a process that is refused, and says whose it was."""
        try:
            yield
        except Refusal as refused:
            self.process.kill()
            needs = f" ({self.kept} has a state, which needs its option --restore)" if self.state else ""
            raise Refusal(f"{name}: {refused}{needs}") from refused

    def replay(self, chunks: Iterable[list[bytes]]) -> int:
        """Hands recorded lines over, each of which is answered by one line, and throws the answers away: how many."""
        counted = answered = 0
        for lines in chunks:
            if lines:
                counted += len(lines)
                self.write(b"\n".join(lines) + b"\n")
                answered += self.thrown_away()
        while answered < counted:
            self.read()
            answered += self.thrown_away()
        return counted

    def thrown_away(self) -> int:
        """How many answers there were."""
        count, self.left = self.left.count(b"\n"), b""
        return count

    def end(self) -> None:
        """Ends its input, and waits for its end."""
        self.leave()
        try:
            self.process.wait(ENDING)
        except subprocess.TimeoutExpired:
            self.process.kill()
            self.process.wait()

    def leave(self) -> None:
        """Ends its input, at which it ends by itself."""
        assert self.process.stdin is not None
        self.process.stdin.close()
