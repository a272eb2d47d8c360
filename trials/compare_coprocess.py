"""Random lines to `signtool sign` and `signtool centre`, and the same to the model: python3 -m trials.compare_coprocess

    python3 -m trials.compare_coprocess [--signtool PATH] [--count 4000] [--seed 1] [--sign FILE]

Two pairs of a sign and a centre are spoken to, one of each kind. What a centre sends is handed to its sign, and what a
sign replies to its centre, now and then changed in an octet; between them come ticks, power losses, commands, datagrams
of vectors/ and lines that are none. Then as many lines go to signs that have up to 1,000 objects beside their own, and
their fonts: objects are published and withdrawn, read, walked and set, by hostile requests too. Last the states that
the signs were asked for are handed to both with --restore, as they are and changed, with what was published beside them
and what managers set there, and those of the centre to the model. Each answer has to be the same. It prints what
differs, and last `N passed, N failed`.
"""

import argparse
import random
import re
import sys

from model import restored_centre, saved_centre, text
from model.state_text import Refused
from wisangub.process import description
from wisangub.process.coprocess import CoProcess
from wisangub.process.places import SIGNTOOL, TOP, program

from . import agents, states

_CHANGED = 20  # times that a state is changed
Saved = tuple[str, tuple[str, ...]]  # a state, and the lines that published what was beside the sign
_WORDS = [
    "tick",
    "ticks",
    "heard",
    "state",
    "save",
    "show",
    "status",
    "last",
    "status last",
    "restart",
    "datagram",
    "power-lost",
    "power-back",
    "publish",
    "-",
    "",
    "0",
    "4294967295",
    "4294967296",
    "zz",
    "3",
    "#",
    "end",
    "30",
]
_TEXTS = ["41", "-", "41415b6e705d42", "5b6e6c395d", "5b6e6c305d41", "5b66315d41", "30"]


def datagrams() -> list[str]:
    """Those of the vectors that have at most 1,472 octets."""
    found = set()
    for path in sorted((TOP / "vectors").glob("*.jsonl")):
        found.update(re.findall(r'"(30[0-9a-f]{2,2942})"', path.read_text(encoding="utf-8")))
    return sorted(octets for octets in found if len(octets) % 2 == 0)


class Lines:
    """Lines to one end, which depend on what the other sent last."""

    def __init__(self, chance: random.Random, octets: list[str]) -> None:
        self.chance, self.octets, self.sent = chance, octets, {"sign": "", "centre": ""}

    def datagram(self, end: str) -> str:
        octets = self.sent[end] if self.sent[end] and self.chance.random() < 0.8 else self.chance.choice(self.octets)
        if self.chance.random() < 0.15:
            place = self.chance.randrange(len(octets) // 2) * 2
            octets = octets[:place] + f"{self.chance.randrange(256):02x}" + octets[place + 2 :]
        return f"datagram {octets}"

    def command(self) -> str:
        address = ".".join(str(self.chance.choice([0, 1, 192, 255])) for _ in range(4))
        minutes, priority = self.chance.choice([0, 1, 65535]), self.chance.choice([0, 100, 255])
        if self.chance.random() < 0.7:
            memory, number = self.chance.choice([(3, 1), (3, 2), (4, 1), (4, 9), (2, 1)])
            return (
                f"publish {memory} {number} {self.chance.choice(_TEXTS)} {self.chance.choice(['-', '6d65'])} "
                f"{self.chance.choice('01')} {self.chance.choice('01')} {self.chance.choice([0, 50, 255])} "
                f"{minutes} {priority} {address}"
            )
        return f"blank {self.chance.choice([1, 255, 65535])} {minutes} {priority} {address}"

    def other(self) -> str:
        return " ".join(self.chance.choice(_WORDS) for _ in range(self.chance.choice([1, 1, 2, 3])))

    def line(self, end: str) -> str:
        kind = self.chance.random()
        if kind < 0.55:
            return self.datagram(end)
        if kind < 0.7:
            return "tick"
        if kind < 0.85:
            others = [
                "state",
                "show",
                "power-lost",
                "power-back 5",
                "power-back 4294967295",
                "heard",
                "ticks 0",
                "ticks 3",
                "ticks 0000000060",
            ]
            return self.command() if end == "centre" else self.chance.choice(others)
        if kind < 0.95:
            asked = ["status", "restart", "status last", "save"] if end == "centre" else ["state", "show", "save"]
            return self.chance.choice(asked)
        return self.other()


class AgentLines(Lines):
    """Lines to a sign that has objects beside its own, half of them about these."""

    def __init__(self, chance: random.Random, octets: list[str], firmware: agents.Firmware) -> None:
        super().__init__(chance, octets)
        self.firmware, self.requests = firmware, agents.Requests(chance.randrange(2**32), firmware)

    def line(self, end: str) -> str:
        kind = self.chance.random()
        if kind < 0.2:
            return self.firmware.line()
        return f"datagram {self.requests.datagram().hex() or '-'}" if kind < 0.6 else super().line(end)


class Pair:
    """The same end of the program and of the model."""

    def __init__(self, end: str, processes: list[CoProcess], published: agents.Published) -> None:
        self.end, self.processes, self.published = end, processes, published
        self.passed = self.failed = 0
        self.saved = list[Saved]()

    def answers_to(self, line: str) -> list[str]:
        """The program's answer to a line, which has to be the model's."""
        answers = [process.send(line) for process in self.processes]
        self.published.told(line, answers[0])
        if line == "save" and answers[0][-1] == "ok":
            self.saved.append(("".join(f"{one}\n" for one in answers[0][:-1]), tuple(self.published.lines())))
        if answers[0] == answers[1]:
            self.passed += 1
        else:
            self.failed += 1
            print(f"{self.end}: {line[:200]}: signtool {answers[0]}, the model {answers[1]}")
        return answers[0]

    def over(self) -> None:
        """No more lines come."""
        for process in self.processes:
            process.end()


def _begun(program: str, end: str, sign: str | None) -> CoProcess:
    """A co-process that took the description."""
    process = CoProcess(program, [end], description.read(sign))
    process.begin(b"state" if end == "sign" else b"status", sign or program)
    return process


def _begun_pair(program: str, end: str, sign: str | None) -> Pair:
    both = [_begun(one, end, sign) for one in (program, str(TOP / "model/signtool"))]
    return Pair(end, both, agents.Published(False))


def _to_both_ends(asked: argparse.Namespace) -> list[Pair]:
    """Lines to a sign and a centre that speak to one another."""
    ends = {end: _begun_pair(asked.signtool, end, asked.sign) for end in ("sign", "centre")}
    lines = Lines(random.Random(asked.seed), datagrams())
    for _ in range(asked.count):
        end, other = lines.chance.choice([("sign", "centre"), ("centre", "sign")])
        last = ends[end].answers_to(lines.line(end))[-1].split(" ")
        if last[0] in ("reply", "accepted", "send"):
            lines.sent[other] = last[-1]
    return list(ends.values())


def _to_agents(asked: argparse.Namespace) -> list[Pair]:
    """Lines to signs that have objects beside their own."""
    pairs = []
    for size in agents.SIZES:
        pair = _begun_pair(asked.signtool, "sign", asked.sign)
        pairs.append(pair)
        if not agents.knows(pair.processes[0], "objects"):
            print("skipped objects beside a sign's: the program has no line `object`")
            break
        has_fonts = agents.has_fonts(pair.processes[0], size)
        if has_fonts:
            pair.processes[1].send("fonts")
            pair.published.has_fonts = True
        chance = random.Random(asked.seed + size)
        firmware = agents.Firmware(chance, has_fonts)
        for line in firmware.published(size):
            pair.answers_to(line)
        lines = AgentLines(chance, datagrams(), firmware)
        for _ in range(asked.count // len(agents.SIZES)):
            pair.answers_to(lines.line("sign"))
    return pairs


def _restored(asked: argparse.Namespace, saved: list[Saved]) -> tuple[int, int]:
    """States that go on, as they are and changed: how many did as the model, and how many did not."""
    description_of, chance = description.read(asked.sign), random.Random(asked.seed)
    if saved and states.of_program(asked.signtool, description_of, f"{saved[0][0]}save\n") == ([], ""):
        print("skipped states: the program has no option --restore")
        return 0, 0
    some = chance.sample(saved, min(len(saved), asked.count // 50))
    found = [
        fault
        for text, published in some
        for fault in states.compared(chance, asked.signtool, description_of, text, _CHANGED, published)
    ]
    print("".join(f"{one}\n" for one in found), end="")
    return len(some) * (1 + _CHANGED) - len(found), len(found)


def _read_back(asked: argparse.Namespace, saved: list[str]) -> tuple[int, int]:
    """States of a centre: of how many the model has the central system, and of how many it has not."""
    description_of, failed = description.read(asked.sign), 0
    described = text.bench() if description_of is None else text.described(description_of)
    for one in saved:
        try:
            centre = restored_centre.restored(described.writer, described.swapped, one.encode())
            found = "".join(f"{line}\n" for line in saved_centre.saved(centre))
        except Refused as refused:
            found = str(refused)
        if found != one:
            failed += 1
            print(f"state {one!r}: the model {found!r}")
    return len(saved) - failed, failed


def main() -> int:
    parser = argparse.ArgumentParser(description="random lines to signtool's co-processes and to the model's")
    parser.add_argument(
        "--signtool", type=program, default=str(SIGNTOOL), help="the program signtool, as tools/build.py makes it"
    )
    parser.add_argument("--count", type=int, default=4000, help="how many lines")
    parser.add_argument("--seed", type=int, default=1, help="of all that is random: the same again gives the same")
    parser.add_argument("--sign", help="a description, as in signs/; else the bench sign")
    asked = parser.parse_args()
    pairs = [*_to_both_ends(asked), *_to_agents(asked)]
    for pair in pairs:
        pair.over()
    again = _restored(asked, sorted({one for pair in pairs for one in pair.saved if pair.end == "sign"}))
    read = _read_back(asked, sorted({one for pair in pairs for one, _ in pair.saved if pair.end == "centre"}))
    passed = sum(pair.passed for pair in pairs) + again[0] + read[0]
    failed = sum(pair.failed for pair in pairs) + again[1] + read[1]
    print(f"{passed} passed, {failed} failed")
    return 0 if failed == 0 else 1


if __name__ == "__main__":
    sys.exit(main())
