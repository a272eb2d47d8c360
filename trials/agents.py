"""Signs with objects beside their own, to be tried: lines that publish these and give them values, and requests that
name them."""

import random
import re

from wisangub.process.coprocess import CoProcess
from wisangub.snmp import wire
from wisangub.tester.requests.hostile_datagrams import DMS, GET, GET_NEXT, SET, Maker

SIZES = (0, 1, 40, 1000)  # how many objects such a sign has
_PLACES: tuple[wire.Name, ...] = (
    *((0, 39), (1, 3, 6, 1, 2, 1, 1), DMS[:-1], DMS + (1,), DMS + (2,)),  # before the sign's
    *(DMS + (3,), DMS + (3, 2, 1, 2), DMS + (3, 4, 1, 3, 1)),  # the fonts'
    *(DMS + (4, 1), DMS + (4, 10), DMS + (5, 8, 1, 3, 3), DMS + (5, 8, 1, 10), DMS + (6, 3), DMS + (6, 11)),  # between
    *(DMS + (6, 25), DMS + (7,), DMS[:-1] + (6,), (2, 47)),  # after them
)
_NUMBERS = (0, 1, 2, 3, 4, 9, 127, 128, 255, 256, 65_535, 2**31, 2**32 - 1)
_INTEGERS = (0, 1, -1, 9, 127, 128, -128, -129, 65_535, 2**31 - 1, 2**31, -(2**31), 2**32 - 1)
_OUT_OF_RANGE = (2**32, -(2**31) - 1, 9_999_999_999, 10_000_000_000)
_SIZES = (0, 0, 1, 3, 5, 127, 128, 255, 600)  # of octets
_WRONG = (
    "object",
    "no-object",
    "no-object 3.1",
    "objects 1",
    "object 1.40 NULL",
    "object 2.4294967216 NULL",
    "set 1.3",
)
_WRITABLE = re.compile(r" (number|octets) (-?[0-9]+) (-?[0-9]+)")
_KINDS = [GET, GET, GET_NEXT, GET_NEXT, SET, SET, SET]


def knows(process: CoProcess, line: str) -> bool:
    """Whether a live sign knows a line about objects, which it is handed: `objects`, or `fonts`."""
    return not process.send(line)[0].startswith("bad line")


def has_fonts(process: CoProcess, size: int) -> bool:
    """Whether the fonts of the sign with so many objects can be read, which the process is asked for."""
    if size == 1:  # one that has none
        return False
    if knows(process, "fonts"):
        return True
    print("skipped fonts that can be read: the program has no line `fonts`")
    return False


def dotted(name: wire.Name) -> str:
    return ".".join(map(str, name))


class Published:
    """What a live sign has beside its own objects, by the lines that it answered `ok`."""

    def __init__(self, has_fonts: bool) -> None:
        self.has_fonts, self.objects = has_fonts, dict[str, str]()

    def told(self, line: str, answer: list[str]) -> None:
        """A line was answered so."""
        word, *words = line.split(" ")
        if answer != ["ok"]:
            return
        if word == "fonts":
            self.has_fonts = True
        elif word == "object":
            self.objects[words[0]] = line
        elif word == "no-object":
            del self.objects[words[0]]

    def lines(self) -> list[str]:
        """Lines that publish the same beside another sign."""
        return [*(["fonts"] if self.has_fonts else []), *self.objects.values()]


class Firmware:
    """Publishes objects whose names lie before, between and after the sign's, withdraws them, gives them values, and
    asks for what was set: the lines of that, the same for the same chance. `names` are those that it tried."""

    def __init__(self, chance: random.Random, has_fonts: bool) -> None:
        self.chance, self.names, self.has_fonts = chance, list[wire.Name](), has_fonts
        self.accesses: dict[wire.Name, tuple[str, int, int]] = {}  # what may be written there, where it was published

    def new_name(self) -> wire.Name:
        """A name near the sign's."""
        more = self.chance.choice((1, 1, 2, 3))
        return self.chance.choice(_PLACES) + tuple(self.number() for _ in range(more))

    def number(self) -> int:
        return self.chance.choice(_NUMBERS) if self.chance.random() < 0.5 else self.chance.randrange(65_536)

    def name(self) -> wire.Name:
        """A name that was tried, mostly."""
        return self.chance.choice(self.names) if self.names and self.chance.random() < 0.9 else self.new_name()

    def octets(self) -> str:
        return self.chance.randbytes(self.chance.choice(_SIZES)).hex() or "-"

    def value(self) -> str:
        """A value of any type."""
        large = self.chance.choice([one for one in _INTEGERS if one >= 0])
        return self.chance.choice(
            (
                f"INTEGER {self.chance.choice(_INTEGERS)}",
                f"OCTET STRING {self.octets()}",
                f"Opaque {self.octets()}",
                "NULL",
                f"OBJECT IDENTIFIER {dotted(self.new_name())}",
                f"IpAddress {'.'.join(str(self.chance.choice((0, 1, 192, 255))) for _ in range(4))}",
                f"{self.chance.choice(('Counter', 'Gauge', 'TimeTicks'))} {large}",
            )
        )

    def writable(self) -> str:
        """A value and an access that takes it, mostly."""
        if self.chance.random() < 0.5:
            least, number, most = sorted(self.chance.choices(_INTEGERS, k=3))
            if self.chance.random() < 0.1:
                number, most = most + 1, number
            return f"INTEGER {number} number {least} {most}"
        octets = self.octets()
        size = len(octets) // 2
        least, most = self.chance.choice(((0, 65_535), (size, size), (0, size), (size, 600), (size + 1, 65_535)))
        return f"OCTET STRING {octets} octets {least} {most}"

    def object(self, name: wire.Name) -> str:
        """A line that publishes an object, mostly as it has to be."""
        kind = self.chance.random()
        words = [self.writable(), self.value()][kind < 0.4]
        if kind > 0.98:
            words += self.chance.choice(
                (" number 0 1", " octets 0 9", " 1", " number 5", f" INTEGER {_OUT_OF_RANGE[0]}")
            )
        elif kind > 0.96:
            words = f"INTEGER {self.chance.choice(_OUT_OF_RANGE)}"
        elif kind > 0.94:
            words = self.chance.choice(("", "INTEGER", "OCTET", "OCTET STRING 0", "Integer 1", "NULL -", "Gauge -1"))
        found = _WRITABLE.search(words)
        if found:
            self.accesses[name] = found[1], int(found[2]), int(found[3])
        return f"object {dotted(name)} {words}".rstrip(" ")

    def set(self) -> str:
        """A line that gives an object a value, mostly one that it takes."""
        name = self.chance.choice([*self.accesses]) if self.accesses and self.chance.random() < 0.9 else self.name()
        kind, least, most = self.accesses.get(name, ("", 0, 0))
        value = self.value()
        if kind == "number":
            value = f"INTEGER {self.chance.choice((least, most, (least + most) // 2, least - 1, most + 1))}"
        elif kind == "octets":
            value = (
                f"OCTET STRING {self.chance.randbytes(min(most, max(least, self.chance.choice(_SIZES)))).hex() or '-'}"
            )
        more = self.chance.choice((" 1", " ", " number 0 9", "  1")) if self.chance.random() < 0.05 else ""
        return f"set {dotted(name)} {value}{more}"

    def published(self, count: int) -> list[str]:
        """Lines that publish so many objects, but for some that are refused."""
        self.names = list(dict.fromkeys(self.new_name() for _ in range(2 * count)))[:count]
        return [self.object(name) for name in self.names]

    def line(self) -> str:
        """A line about objects."""
        kind = self.chance.random()
        if kind < 0.5:
            name = self.new_name() if kind < 0.1 else self.name()
            if name not in self.names:
                self.names.append(name)
            return self.object(name)
        if kind < 0.6:
            return f"no-object {dotted(self.name())}"
        if kind < 0.75:
            return self.set()
        if kind < 0.95:
            return "objects"
        return self.chance.choice(_WRONG) if kind < 0.99 or not self.has_fonts else "fonts"


class Requests(Maker):
    """Requests that name what is published beside what the sign has, now and then hostile."""

    def __init__(self, seed: int, firmware: Firmware) -> None:
        super().__init__(seed)
        self.firmware = firmware

    def object(self) -> wire.Name:
        """A name of either, mostly of an object."""
        return self.firmware.name() if self.random.random() < 0.7 else super().object()

    def datagram(self) -> bytes:
        """A request, in order or near to it."""
        kind = self.random.random()
        if kind < 0.4:
            return self.hostile(_KINDS, self.bound())
        self.rate = 0.0
        if kind < 0.6:
            return self.message(self.one(_KINDS), self.bound())
        bindings = [self.binding() for _ in range(self.one([1, 1, 1, 2, 3, 9]))]
        community = self.one([b"admin", b"admin", b"admin", b"public"])
        return wire.written(wire.Message(SET, community, self.random.randrange(2**31), bindings=bindings))

    def binding(self) -> wire.Binding:
        """An object with a value that it may take."""
        if self.random.random() < 0.5:
            return self.firmware.name(), (wire.INTEGER, self.one(_INTEGERS))
        return self.firmware.name(), (wire.OCTETS, self.random.randbytes(self.one(_SIZES)))
