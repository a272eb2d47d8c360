"""Compares the program with the model of model, over random signs, texts, requests and scripts.

    python3 -m trials.compare_model [--count 300 | --seconds N] [--seed 1] [--program crates/signtool/out/signtool]

It prints each case that differs, and last `N passed, M failed`. The same seed makes the same cases; with --seconds no
case begins after so many.
"""

import argparse
import random
import subprocess
import sys
import time

from model import text, wire
from model.codes import Activation, MessageId, checksum
from model.objects import DMS
from model.sign import Sign
from model.text import World
from trials import program_model
from wisangub.process.places import SIGNTOOL, program

_NUMBERS = [0, 1, 2, 3, 4, 5, 6, 7, 8, 9, 10, 60, 255, 256, 65535, 65536, -1, 2**31 - 1, 2**32 - 1]


class Cases:
    def __init__(self, seed: int) -> None:
        self.random = random.Random(seed)
        self.one = self.random.choice

    # --- signs and texts ------------------------------------------------------------------------------------------

    def font(self, number: int) -> list[str]:
        height = self.one([1, 3, 5, 7])
        lines = [
            f"font {number} height {height} space {self.one([0, 1, 2, 3])} line {self.one([0, 1, 2, 5])} "
            f"version {self.one(['0001', 'abcd'])}"
        ]
        for character in [65, 66] + [c for c in (49, 91, 93, 300) if self.random.random() < 0.5]:
            width = self.one([1, 2, 3, 5])
            lines.append(f"glyph {character} {width} {self.random.randbytes((width * height + 7) // 8).hex()}")
        return lines

    def sign(self) -> str:
        """A description that the sign's reader takes."""
        while True:
            fonts = self.random.sample([1, 2, 3, 255], self.random.randrange(1, 5))
            lines = [
                f"size {self.one([5, 23, 40, 256])} {self.one([5, 14, 27, 64])}",
                "communities public admin",
                f"rows {self.one([0, 1, 2, 64])} {self.one([0, 1, 16])}",
                f"order {self.one(['high', 'swapped'])}",
                f"has {self.one([0, 1])} {self.one([0, 1])}",
                f"defaults {self.one([0, 3, 9])} {self.one([1, 9])} {self.one([0, 5, 255])} {self.one([0, 5])} "
                f"{self.one(fonts)} {self.one([2, 3, 4])} {self.one([2, 3, 4])} {self.one([0, 30])} "
                f"{self.one([0, 5])}",
                f"first {self.one([0, 1, 127, 2 ** 31 - 3, 2 ** 31 - 1])}",
            ]
            for _ in range(self.one([0, 0, 1, 2])):
                lines.append(f"permanent {self.text(3).hex() or '-'} - 0 0 {self.one([1, 100, 255])}")
            for number in fonts:
                lines += self.font(number)
            described = "\n".join([*lines, "end"]) + "\n"
            try:
                text.described(described.encode())
                return described
            except text.Bad:
                continue

    def item(self) -> bytes:
        draw = self.random.randrange(10)
        if draw < 5:
            return self.one([b"A", b"B", b"1", b"[[", b"]]", b"AB", b"C", b"[hc41]", b"[hc12C]"])
        if draw == 9:
            return self.one([b"[", b"]", b"[xx]", b"[fo0]", b"[nl10]", b"[hc]", b"[pt256]", b"[jl1]"])
        number = str(self.one([0, 1, 2, 3, 4, 5, 9, 30, 255])).encode()
        return self.one(
            [
                b"[nl]",
                b"[np]",
                b"[/fl]",
                b"[fl]",
                b"[cb%s]" % number,
                b"[pb]",
                b"[cf%s]" % number,
                b"[CF]",
                b"[fo%s]" % number,
                b"[fo%s,0001]" % number,
                b"[fo]",
                b"[jl%s]" % number,
                b"[jl]",
                b"[jp%s]" % number,
                b"[jp]",
                b"[nl%s]" % number,
                b"[pt%s]" % number,
                b"[pt%so%s]" % (number, number),
                b"[pto5]",
                b"[flt%so]" % number,
                b"[flo%st2]" % number,
            ]
        )

    def text(self, most: int = 12) -> bytes:
        made = b"".join(self.item() for _ in range(self.random.randrange(most + 1)))
        return made if self.random.randrange(60) else (made or b"A") * 60

    # --- requests -------------------------------------------------------------------------------------------------

    def name(self, sign: Sign) -> wire.Name:
        draw = self.random.randrange(8)
        if draw == 0:
            return self.one(
                [(1, 3), DMS, (1, 4), DMS + (5, 8, 1, 3), DMS + (6, 11, 0), DMS + (6, 3, 1), DMS + (5, 8, 1, 10, 3, 1)]
            )
        if draw < 5:
            memory = self.one([2, 3, 3, 3, 4, 5, 7])
            column, last = self.random.randrange(1, 10), len(sign.state.rows.get(memory, [])) or 255
            return DMS + (5, 8, 1, column, memory, self.one([1, 1, 2, last]))
        return DMS + self.one([key for key in sign.objects.scalars()]) + (0,)

    def value(self, name: wire.Name, sign: Sign) -> wire.Tagged:
        """A value for the object of this name, mostly of its type."""
        held = sign.objects.value(name)
        if held is None or self.random.randrange(12) == 0:
            return self.one(
                [
                    (wire.NULL, b""),
                    (wire.OCTETS, b"A"),
                    (wire.INTEGER, 1),
                    (wire.GAUGE, 5),
                    (wire.ADDRESS, bytes(4)),
                    (wire.NAME, (1, 3)),
                ]
            )
        if held[0] == wire.INTEGER:
            return wire.INTEGER, self.one([6, 7, 8] if name[-3:-2] == (9,) and self.random.randrange(5) else _NUMBERS)
        if name == DMS + (6, 3, 0):
            return wire.OCTETS, self.code(sign).octets(sign.state.swapped)
        if name[len(DMS)] == 6:
            return wire.OCTETS, self.code(sign).id.octets(sign.state.swapped)
        return wire.OCTETS, self.one([self.text(), self.random.randbytes(self.one([0, 5, 12, 127, 128]))])

    def code(self, sign: Sign) -> Activation:
        """An activation of a row that there is, mostly."""
        memory = self.one([2, 3, 3, 4, 5, 7, 7, 6])
        number = self.one([1, 1, 2, 255])
        row = sign.state.row(memory, number)
        crc = sign.state.shown.crc() if memory == 5 else row.crc() if row else 0
        crc = self.one([crc, crc, crc, crc, 0, 0x1234])
        minutes, priority = self.one([0, 1, 2, 65535]), self.one([0, 1, 100, 255, 255])
        return Activation(minutes, priority, MessageId(memory, number, crc), self.random.randbytes(4))

    def request(self, sign: Sign) -> bytes:
        kind = self.one([wire.GET, wire.GET_NEXT, wire.SET, wire.SET, wire.SET])
        names = [self.name(sign) for _ in range(self.one([0, 1, 1, 1, 2, 3, 60]))]
        bindings = [(name, self.value(name, sign) if kind == wire.SET else (wire.NULL, b"")) for name in names]
        community = self.one([sign.state.writer] * 6 + [sign.state.reader, b"other"])
        octets = wire.written(wire.Message(kind, community, self.one(_NUMBERS), 0, 0, bindings))
        return octets if len(octets) <= wire.MOST_DATAGRAM else self.request(sign)

    # --- scripts --------------------------------------------------------------------------------------------------

    def command(self, sign: Sign) -> str:
        draw = self.random.randrange(6)
        address = ".".join(str(self.random.randrange(256)) for _ in range(4))
        terms = f"{self.one([0, 1, 2, 65535])} {self.one([1, 100, 255, 255])} {address}"
        if draw < 3:
            return (
                f"publish {self.one([3, 3, 4, 2])} {self.one([1, 1, 2, 0])} {self.text(6).hex() or '-'} "
                f"{self.one(['-', '6d65'])} {self.one([0, 0, 1, 2])} {self.one([0, 0, 1])} "
                f"{self.one([1, 100, 255, 0])} {terms}"
            )
        if draw == 3:
            return f"blank {self.one([1, 2, 255, 256, 0])} {terms}"
        return f"activate {self.code(sign).octets(sign.state.swapped).hex()}"

    def place(self, sent: list[bytes]) -> int:
        """The place of a datagram, mostly of the newest one."""
        return self.one([len(sent) - 1] * 9 + [self.random.randrange(len(sent) + 1)])

    def event(self, world: World) -> str:
        """The next event, made for the world as it is: mostly the newest datagrams are delivered, some earlier ones,
        some twice."""
        draw = self.random.randrange(100)
        if draw < 30 and world.to_sign:
            return f"to-sign {self.place(world.to_sign)}"
        if draw < 60 and world.to_centre:
            return f"to-centre {self.place(world.to_centre)}"
        if draw < 70:
            return "sign-tick"
        if draw < 80:
            return "centre-tick"
        if draw < 88:
            return self.command(world.sign)
        if draw < 96:
            return f"forge-sign {self.request(world.sign).hex()}"
        return self.one(
            [
                "power-lost",
                f"power-back {self.one([0, 1, 5, 60, 70000])}",
                "power-back 1",
                "centre-restart",
                f"forge-centre {self.reply(world).hex()}",
                "sign-tick",
                "sign-tick",
            ]
        )

    def reply(self, world: World) -> bytes:
        number = self.one([world.centre.next - 1, world.centre.next, 1])
        community, status = self.one([world.sign.state.writer, b"x"]), self.one([0, 0, 5, -1])
        bindings: list[wire.Binding] = [(DMS + (6, 17, 0), (wire.INTEGER, 2))]
        bindings *= self.one([0, 1, 1, 2])
        return wire.written(wire.Message(wire.RESPONSE, community, number % 2**32, status, 0, bindings))

    def script(self) -> str:
        described = self.one(["bench\n", self.sign()])
        sign = text.bench() if described == "bench\n" else text.described(described.encode())
        world, lines = World(sign), []
        for _ in range(self.one([20, 60, 120])):
            for line in [self.event(world)] * self.one([1] * 12 + [60] * (self.random.randrange(8) == 0)):
                lines.append(line)
                world.happen(*text.event(line.encode().split(b" "), sign.swapped))
        return described + "\n".join(lines) + "\n"

    def case(self) -> tuple[list[str], str]:
        """The words of a call and its standard input."""
        draw = self.random.randrange(4)
        if draw == 0:
            return ["replay"], self.script()
        words, described = ([], "") if self.random.randrange(2) else (["--sign"], self.sign())
        sign = text.described(described.encode()) if described else text.bench()
        if draw == 1:
            digits = self.request(Sign(sign)).hex()
            between = self.one([""] * 14 + [" ", ":"])
            return ["answer", *words, "--", digits[:2] + between + digits[2:]], described
        made = self.text(20).replace(b"\0", b"").decode("latin-1")
        if draw == 2:
            return [self.one(["check", "pages"]), *words, "--", made], described
        octets = self.text(9).decode("latin-1")
        words = ["code", str(self.one([2, 3, 4])), str(self.one([1, 65535]))]
        words += [f"--priority={self.one([0, 255])}", f"--duration={self.one([0, 65535])}"]
        words += self.random.sample(["--beacon", "--pixel", "--swapped"], self.random.randrange(4))
        return [*words, "--", octets], ""


def main() -> int:
    parser = argparse.ArgumentParser(description=__doc__, formatter_class=argparse.RawDescriptionHelpFormatter)
    most = parser.add_mutually_exclusive_group()
    most.add_argument("--count", type=int, default=300, help="how many rounds")
    most.add_argument("--seconds", type=float, help="rounds for so long")
    parser.add_argument("--seed", type=int, default=1, help="of all that is random: the same again gives the same")
    parser.add_argument(
        "--program", type=program, default=str(SIGNTOOL), help="the program signtool, as tools/build.py makes it"
    )
    asked = parser.parse_args()
    cases, number, failed, begun = Cases(asked.seed), 0, 0, time.monotonic()
    while time.monotonic() < begun + asked.seconds if asked.seconds else number < asked.count:
        call, stdin = cases.case()
        wanted = program_model.answer(call, stdin.encode())
        command = [asked.program, *call]
        ended = subprocess.run(command, input=stdin.encode(), capture_output=True, timeout=60, check=False)
        found = ended.stdout.decode("latin-1"), ended.returncode
        if found != wanted:
            failed += 1
            print(f"case {number}: {call} with {stdin!r}\n  model   {wanted}\n  program {found}")
        number += 1
    print(f"{number - failed} passed, {failed} failed")
    return 1 if failed else 0


if __name__ == "__main__":
    assert checksum(b"1234567", 56, 57) == 0x906E
    sys.exit(main())
