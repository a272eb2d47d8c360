#!/usr/bin/env python3
"""The longest path of each call of the library for C, over hostile inputs: its instructions, its stack, its heap.

    measures/c_limits.py [--library crates/wisangub_c/out/libwisangub_c.a] [--count 1000] [--seed 1]

Instructions are counted by callgrind (Debian's package valgrind), call by call (measures/c_limits.c), for three signs
and for the largest that a description can say. Inputs are the largest that trials/largest_inputs.py has, those of
vectors/, and --count random hostile datagrams and texts of --seed. What is told is the most of what was seen, of the
library alone, without the caller's heap where that is malloc's: it is no bound that is proved. It takes some minutes.
"""

from __future__ import annotations

import argparse
import json
import pathlib
import random
import re
import subprocess
import sys
import tempfile
from collections.abc import Iterator
from dataclasses import dataclass, field

TOP = pathlib.Path(__file__).resolve().parent.parent
sys.path[:0] = [str(TOP), str(TOP / "python")]

from model import wire  # noqa: E402
from model.objects import DMS  # noqa: E402
from model.text import BENCH  # noqa: E402
from trials import largest_inputs, memory_cases  # noqa: E402
from wisangub.snmp.wire import name_content  # noqa: E402
from wisangub.tester.requests.hostile_datagrams import Maker  # noqa: E402

COMMUNITIES = b"communities public admin"  # those of the vectors
TRIGGER = re.compile(r"^desc: Trigger: Client Request: (\w+)$", re.M)
TOTAL = re.compile(r"^(?:totals|summary): (\d+)", re.M)
COMMANDS = (
    "publish 3 1 {text} {owner} 0 0 200 65535 255 192.0.2.1",
    "publish 4 1 {text} - 0 0 200 1 255 192.0.2.1",
    "blank 1 1 255 192.0.2.1",
)
TAGS = ("[nl]", "[np]", "[fo1]", "[fo2]", "[jl3]", "[jp4]", "[fl]", "[flt1o9]", "[/fl]", "[cf1]", "[pb2]", "[pt1o1]")
LARGE = (
    "[np]".join(["[fo1][fl]" + "A[nl]" * 4 + "A"] * 6),
    "A" * 512,
    "[jl3]" * 102 + "AA",
    "i" * 84,
    "[nl]".join("ABCD"),
)


@dataclass
class Most:
    """The most of a call that was seen."""

    instructions: int = 0
    stack: int = 0
    heap: int = 0
    allocations: int = 0
    calls: int = 0


@dataclass
class Sign:
    name: str
    description: bytes
    most: dict[str, Most] = field(default_factory=dict)

    def of(self, name: str) -> Most:
        return self.most.setdefault(name, Most())


def signs() -> list[Sign]:
    found = {"bench": BENCH, "largest": largest_inputs.LARGEST_SIGN}
    found |= {name: (TOP / "signs" / f"{name}.sign").read_bytes() for name in ("roadside", "gantry")}
    order = ("bench", "roadside", "gantry", "largest")
    return [Sign(name, re.sub(rb"(?m)^communities .*$", COMMUNITIES, found[name])) for name in order]


def cases(name: str) -> list[dict[str, object]]:
    return [json.loads(line) for line in (TOP / "vectors" / f"{name}.jsonl").read_text(encoding="utf-8").splitlines()]


def text(chance: random.Random) -> bytes:
    """Tags and characters in any order."""
    made = "".join(chance.choice(TAGS) if chance.randrange(3) == 0 else chance.choice("AW i.\xff") for _ in range(120))
    return made[: chance.randrange(513)].encode("latin-1")


def texts(count: int, chance: random.Random) -> Iterator[bytes]:
    yield from (str(case["text"]).encode("latin-1") for case in cases("texts"))
    yield from (one.encode() for one in LARGE)
    yield from (text(chance) for _ in range(count))


def commands(chance: random.Random) -> Iterator[str]:
    large = [one.encode() for one in LARGE] + [text(chance) for _ in range(10)]
    for octets in large:
        for command in COMMANDS:
            yield f"command {command.format(text=octets.hex() or '-', owner='6f' * 127)}"
            yield from ("pages", "tick", "power 1", "power 100000", "pages")
            yield from ["tick"] * 61


def often(name: tuple[int, ...]) -> Iterator[bytes]:
    """Requests of a name as often as a datagram has room for it, and less often."""
    for kind, community, value in (
        (wire.GET, b"public", memory_cases.NULL),
        (wire.GET_NEXT, b"public", memory_cases.NULL),
        (wire.SET, b"admin", (wire.INTEGER, 1)),
    ):
        one = len(memory_cases.request(kind, community, (name, value)))
        each = len(memory_cases.request(kind, community, (name, value), (name, value))) - one
        for times in ((wire.MOST_DATAGRAM - one) // each, 40, 8, 2):
            yield memory_cases.request(kind, community, *[(name, value)] * times)


def many() -> Iterator[bytes]:
    """Requests of one name as often as a datagram has room for it."""
    names: list[tuple[int, ...]] = [
        DMS + (5, 8, 1, column, memory, 1) for column in range(14) for memory in (2, 3, 4, 5, 7)
    ]
    names += [DMS + (group, number, 0) for group in (1, 2, 4, 5, 6, 9) for number in range(1, 19)]
    names += [DMS + (5, 8, 1, 9, 7, 255), DMS + (5, 8, 1, 12, 7), (1, 3, 6, 1), (2, 5)]
    for name in names:
        yield from often(name)


def beside() -> Iterator[str]:
    """A thousand objects beside the sign's, and requests of one as often as a datagram has room for it."""
    names = [DMS + (7, 200, number) for number in range(1000)]
    contents = [name_content(name).hex() for name in names]
    yield from (f"publish {content}" for content in contents)
    for name in (names[0], names[500], names[999], DMS + (7, 200, 1000)):
        yield from (f"beside {octets.hex()}" for octets in often(name))
    changed = [memory_cases.request(wire.SET, b"admin", (name, (wire.INTEGER, 1))) for name in names[-20:]]
    yield from (line for octets in changed for line in (f"beside {octets.hex()}", "taken", "taken"))
    yield from (f"object {content}" for content in contents[::50])
    yield from (f"withdraw {content}" for content in contents)


def with_fonts() -> Iterator[str]:
    """The objects of the sign's fonts, and requests of one as often as a datagram has room for it."""
    yield "fonts"
    columns: list[tuple[int, ...]] = [(2, 1, column, font) for column in (1, 5, 8) for font in (1, 4)]
    columns += [(4, 1, column, font, number) for column in (1, 2, 3) for font in (1, 4) for number in (33, 255)]
    for name in ((1, 0), (2,), *columns, (5, 0)):
        yield from (f"beside {octets.hex()}" for octets in often(DMS + (3, *name)))


def lines(sign: Sign, count: int, seed: int) -> Iterator[str]:
    """All that is called, a line each."""
    chance, maker = random.Random(seed), Maker(seed)
    yield from commands(chance)
    known = [bytes.fromhex(str(case["request"])) for case in cases("requests")]
    known += [bytes.fromhex(str(case["octets"])) for case in cases("datagrams")]
    known += [octets[:1472] for _, octets in largest_inputs.datagrams()] + [*many()]
    known += [octets for talk in memory_cases.talks().values() for octets in talk]
    for number, octets in enumerate([*known, *(maker.to_sign() for _ in range(count))]):
        yield f"datagram {octets.hex()}"
        if number % 50 == 0:
            yield from ("tick", "pages")
    yield from (f"centre {maker.to_centre(1).hex()}" for _ in range(count))
    yield from (f"text {octets.hex()}" for octets in texts(count, chance))
    yield from beside()
    yield from with_fonts()
    if sign.name == "largest":
        yield from (f"describe {octets.hex()}" for _, octets, _ in largest_inputs.refused_descriptions())


def counted(sign: Sign, folder: pathlib.Path, asked: str) -> None:
    """The instructions of each call, a part of callgrind's each."""
    options = ["--tool=callgrind", f"--callgrind-out-file={folder}/out.%p", "--dump-line=no", "--combine-dumps=yes"]
    words = ["valgrind", "-q", *options, str(folder / "limits"), str(folder / f"{sign.name}.sign")]
    subprocess.run(words, input=asked.encode(), capture_output=True, check=True)
    for path in folder.glob("out.*"):
        with path.open(encoding="utf-8") as file:
            name = ""
            for line in file:
                if found := TRIGGER.match(line):
                    name = found[1]
                elif name and (total := TOTAL.match(line)):
                    sign.of(name).instructions = max(sign.of(name).instructions, int(total[1]))
                    name = ""
        path.unlink()


def measured(sign: Sign, folder: pathlib.Path, asked: str) -> None:
    """The stack and the heap of each call."""
    words = [str(folder / "limits"), str(folder / f"{sign.name}.sign")]
    said = subprocess.run(words, input=asked.encode(), capture_output=True, check=True).stdout.decode()
    for line in said.splitlines():
        name, stack, heap, allocations = line.rsplit(" ", 3)
        most = sign.of(name)
        most.stack, most.heap = max(most.stack, int(stack)), max(most.heap, int(heap))
        most.allocations, most.calls = max(most.allocations, int(allocations)), most.calls + 1


def table(found: list[Sign], what: str, names: list[str]) -> str:
    rows = [f"| {what} | " + " | ".join(sign.name for sign in found) + " |", "|---|" + "---|" * len(found)]
    for name in names:
        numbers = [getattr(sign.of(name), what) for sign in found]
        if any(numbers):
            rows.append(f"| {name} | " + " | ".join(f"{number:,}" for number in numbers) + " |")
    return "\n".join(rows)


def main() -> int:
    parser = argparse.ArgumentParser(description=__doc__, formatter_class=argparse.RawDescriptionHelpFormatter)
    parser.add_argument(
        "--library",
        type=pathlib.Path,
        default=TOP / "crates/wisangub_c/out/libwisangub_c.a",
        help="the library that tools/static_library.py makes",
    )
    parser.add_argument("--count", type=int, default=1000, help="of random datagrams to each end, and of texts")
    parser.add_argument("--seed", type=int, default=1, help="of the random calls")
    asked = parser.parse_args()
    found = signs()
    with tempfile.TemporaryDirectory(prefix="c-limits-") as name:
        folder = pathlib.Path(name)
        sources = [TOP / "measures/c_limits.c", TOP / "include/wisangub.c"]
        cc = ["cc", "-std=c11", "-O2", f"-I{TOP / 'include'}", "-Wl,-z,now", "-o", str(folder / "limits")]
        subprocess.run([*cc, *map(str, sources), str(asked.library), "-lpthread"], check=True)
        for sign in found:
            (folder / f"{sign.name}.sign").write_bytes(sign.description)
            calls = "".join(f"{line}\n" for line in lines(sign, asked.count, asked.seed))
            measured(sign, folder, calls)
            counted(sign, folder, calls)
            print(f"{sign.name}: {sum(most.calls for most in sign.most.values()):,} calls", file=sys.stderr, flush=True)
    names = sorted({name for sign in found for name in sign.most}, key=lambda name: ("centre" in name, name))
    print("\n\n".join(table(found, what, names) for what in ("instructions", "stack", "heap", "allocations")))
    return 0


if __name__ == "__main__":
    sys.exit(main())
