"""A sign described: what it says, what texts tell of it, and how it is put back."""

from collections.abc import Hashable
from dataclasses import dataclass, field
from typing import Callable, Sequence

from wisangub.snmp import wire
from wisangub.snmp.names import scalar
from wisangub.tester.requests.objects import Column, integer, spoken

from . import font_table, mentioned, reading, spelling, validations, widths
from .characters import PRINTABLE, PROBES, Characters
from .client import Client, Unreached
from .fillers import Fillers
from .fonts import MOST_FONTS, Found
from .heights import Heights
from .lines import LineFrame
from .spacings import Spacings
from .validations import Unlike, Validations

_DEFAULT_FONT = scalar("defaultFont")
_MOST_TRIED = 40  # versions of fonts that one text has room for
_TIMES = 3  # that the sign is put back, where requests come late


@dataclass
class Describing:
    """The description of the sign that a client speaks to. `say` is told of each step in words, `candidates` are the
    characters that each font is asked for."""

    client: Client
    say: Callable[[str], None]
    candidates: Sequence[int] = tuple(PRINTABLE)
    probes: Sequence[int] = PROBES
    is_by_table: bool = True  # whether a font table is believed
    sign: reading.Read | None = None
    texts: Validations | None = None
    fonts: list[Found] = field(default_factory=list)
    is_font_changed: bool = False
    comments: list[str] = field(default_factory=list)  # of the whole description

    def run(self) -> str:
        """The description. Raises Unreached, Stopped or Unlike; the sign is to be put back in any case."""
        client = self.client
        client.reach(scalar("vmsSignHeightPixels"))
        read = self.sign = reading.read(client)
        self.say(
            f"{read.width} by {read.height}, {read.changeable} and {read.volatile} rows, "
            f"{len(read.permanent)} permanent messages"
        )
        self.fonts = font_table.fonts(client) if self.is_by_table else []
        is_table = bool(self.fonts)
        texts = self.texts = Validations(client, validations.unused(client, read.rows))
        texts.begin()
        self._check_offsets(texts)
        has = self._has(texts)
        numbers = [font.number for font in self.fonts] if is_table else self._numbers()
        chosen = mentioned.chosen(read, numbers)
        if len(chosen) < len(numbers):
            left_out = ", ".join(str(number) for number in numbers if number not in chosen)
            self.comments.append(f"A description has {MOST_FONTS} fonts at most; the sign has these too: {left_out}.")
        if is_table:
            self.fonts = [font for font in self.fonts if font.number in chosen]
        else:
            self.fonts = [Found(number) for number in chosen]
            self._find(texts, read)
        if not read.order:
            self._learn_order(texts, read)
        self._versions(texts, read)
        how = "by the sign's font table" if is_table else "by validations"
        head = f"Made from the sign by wisangub-conform describe, its fonts {how}; {texts.count} validations."
        return spelling.spelled(read, client.communities, has, self.fonts, [head, *self.comments])

    # --- what it has -----------------------------------------------------------------------------------------

    def _check_offsets(self, texts: Validations) -> None:
        """Raises Unlike where the sign does not say of a fault what and where it is, as all that follows needs."""
        text = b"[jl2][zz]"
        verdict = texts.ask(text)
        if (verdict.error, verdict.code, verdict.at) != (validations.SYNTAX, validations.NO_TAG, 5):
            raise Unlike(
                f"of the text {text.decode()} it says dmsValidateMessageError {verdict.error}, dmsMultiSyntaxError "
                f"{verdict.code} and dmsMultiSyntaxErrorPosition {verdict.at}, where it is to be 5, 3 and 5"
            )

    def _has(self, texts: Validations) -> tuple[int, int]:
        """Whether it has beacons, and pixel service."""
        beacon = pixel = 0
        if texts.has(Column.BEACON):
            beacon = int(texts.ask(b"", beacon=1).error != validations.BEACONS)
        if texts.has(Column.PIXEL_SERVICE):
            pixel = int(texts.ask(b"", pixel=1).error != validations.PIXELS)
        return beacon, pixel

    def _learn_order(self, texts: Validations, read: reading.Read) -> None:
        """The order of a checksum's octets, of an empty text."""
        read.learn_order(b"", 0, 0, texts.ask(b"").checksum)

    # --- fonts -----------------------------------------------------------------------------------------------

    def _numbers(self) -> list[int]:
        """The fonts that the sign takes as its default."""
        assert self.sign is not None
        self.is_font_changed = True
        found = sorted({self.sign.defaults[4], *(number for number in range(1, 256) if self._takes(number))})
        self._put_font_back()
        self.say(f"fonts {', '.join(map(str, found))}, by SETs of defaultFont")
        return found

    def _takes(self, number: int) -> bool:
        status = self.client.put((_DEFAULT_FONT, integer(number)))
        if status == wire.NO_SUCH_NAME:
            raise Unreached("the writing community may not write defaultFont; --communities READER WRITER")
        return status == wire.NO_ERROR

    def _find(self, texts: Validations, read: reading.Read) -> None:
        """Characters, heights, spacings and widths."""
        asking = Characters(texts, read.width, read.height)
        candidates = tuple(dict.fromkeys([*self.candidates, *mentioned.characters(read)]))
        self.fonts = [font for font in self.fonts if asking.begin(font, candidates)]
        known = [font for font in self.fonts if font.repeated]
        self._told(texts, "the first character of each font")
        Heights(texts, read.height).find(known)
        self._told(texts, "heights and line spacings")
        for font in known:
            asking.find(font, candidates)
            asking.probe(font, self.probes, candidates)
            self._told(texts, f"font {font.number} has {len(font.characters)} characters")
        heights = {font.number: font.most_height(read.height) for font in known}

        def frame() -> LineFrame:
            return LineFrame(heights=heights, room=read.height)

        fillers = Fillers(read.width)
        spacings = Spacings(texts, read.width, frame, fillers)
        spacings.begin(known)
        done: list[Found] = []
        # one whose spacing is known first: its characters fill lines up, so that others are told
        for font in sorted(known, key=lambda font: not font.is_spaced):
            spacings.find(font)
            widths.Widths(texts, font, fillers, read.width, frame, _alike(done)).find()
            done.append(font)
            self._told(texts, f"spacing and widths of font {font.number}")

    def _versions(self, texts: Validations, read: reading.Read) -> None:
        """Whether a font's version is one of those that a permanent message names, or 0001."""
        named = mentioned.versions(read)
        left = [font for font in self.fonts if font.version is None]
        tried = [(font, version) for font in left for version in dict.fromkeys((*_of(named, font.number), 1))]
        tried = tried[:_MOST_TRIED]
        while tried:
            text, starts = b"", []
            for font, version in tried:
                starts.append(len(text))
                text += b"[fo%d,%04x]" % (font.number, version)
            verdict = texts.ask(text)
            at = len(tried) if verdict.is_fit else max(at for at, start in enumerate(starts) if start <= verdict.at)
            for font, version in tried[:at]:
                font.version = version
            tried = [held for held in tried[at + 1 :] if held[0].version is None]

    def _told(self, texts: Validations, words: str) -> None:
        self.say(f"{words}; {texts.count} validations")

    # --- the way back ----------------------------------------------------------------------------------------

    def _put_font_back(self) -> bool:
        assert self.sign is not None
        is_back = self.client.put((_DEFAULT_FONT, integer(self.sign.defaults[4]))) == wire.NO_ERROR
        self.is_font_changed = not is_back
        return is_back

    def put_back(self) -> list[str]:
        """The sign as it was; in words what is not. Raises Stopped where it does not answer."""
        for _ in range(_TIMES):
            left = self._once_back()
            way, clock = self.client.port.way, self.client.port.clock
            if not left and not way.late and not way.doubled:
                break
            clock.sleep_until(clock.now() + max(way.slowest, self.client.port.wait))  # a request may be late
            left = self._not_back()
            if not left:
                break
        if self.texts is not None and self.texts.before and not self.texts.is_verdict_back():
            self.say("the last verdict on a text reads otherwise: it was that of a fault, and no request sets it")
        return left

    def _once_back(self) -> list[str]:
        if self.is_font_changed:
            self._put_font_back()
        if self.texts is not None and self.texts.before:
            self.texts.put_back()
        return self._not_back()

    def _not_back(self) -> list[str]:
        """What does not read as before."""
        left: list[str] = []
        if self.sign is not None and _DEFAULT_FONT in self.client.written:
            font = self.sign.defaults[4]
            self.is_font_changed = self.client.numbers([_DEFAULT_FONT]).get(_DEFAULT_FONT) != font
            left += ["defaultFont"] if self.is_font_changed else []
        return left if self.texts is None else left + self.texts.not_back()

    def written(self) -> list[str]:
        """What was written to the sign, an object a line."""
        return [f"{spoken(name)}: {count} times" for name, count in self.client.written.items()]


def _of(named: Sequence[tuple[int, int]], number: int) -> list[int]:
    """The versions that are named of a font."""
    return [version for font, version in named if font == number]


def _alike(done: Sequence[Found]) -> Callable[[int], Hashable]:
    """Characters are guessed to be alike that were so in the fonts before; in the first one, those of a class."""
    told = [dict(font.widths) for font in done if len(set(font.widths.values())) > 1]

    def alike(character: int) -> Hashable:
        if not told or character not in told[0]:
            return widths.kind(character)
        return ("as", *(held.get(character) for held in told))

    return alike
