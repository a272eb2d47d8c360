"""Signs that are right in nearly all that they do are found, each by the chapter that its rule is of."""

from dataclasses import replace

from model import text
from model.codes import checksum
from wisangub.process.places import TOP
from wisangub.snmp import wire
from wisangub.snmp.names import Memory, scalar
from wisangub.tester.findings.results import Verdict
from wisangub.tester.requests.objects import Column, Name, Row, Value, column_of, integer, row_of
from wisangub.tester.session import chapters_of

from .nearly_right import Around, is_set_of, session, told, tried

SIGNS = (text.BENCH, (TOP / "signs/roadside.sign").read_bytes())


class DoesWhatIsNoMessage(Around):
    """A SET in octets that have no answer is done, where others in their place make it one."""

    def __init__(self, before: bytes, after: bytes) -> None:
        super().__init__()
        self.before, self.after = before, after

    def receive(self, octets: bytes) -> tuple[bytes | None, object]:
        message = wire.spelled(octets.replace(self.before, self.after, 1))
        if message is not None and message.kind == wire.SET and wire.spelled(octets) is None:
            self.write(message)
        return super().receive(octets)


class SeesLateThatOctetsFollow(Around):
    """A SET is done before it is seen that an octet follows it."""

    def receive(self, octets: bytes) -> tuple[bytes | None, object]:
        message = wire.spelled(octets[:-1])
        if message is not None and message.kind == wire.SET:
            self.write(message)
        return super().receive(octets)


class DoesResponses(Around):
    """A Response is done as a SET is, and has no answer."""

    def answer(self, octets: bytes, message: wire.Message) -> bytes | None:
        if message.kind == wire.RESPONSE:
            self.write(message)
        return self.right(octets)


class ReadsOtherwiseToTheReader(Around):
    """An object reads to the reader what it is not, in one kind of request: all is right as the sign begins."""

    def __init__(self, name: Name, value: Value, kind: int) -> None:
        super().__init__()
        self.name, self.value, self.kind = name, value, kind

    def answer(self, octets: bytes, message: wire.Message) -> bytes | None:
        if message.kind != self.kind or message.community != self.state.reader:
            return self.right(octets)
        return self.read(octets, lambda name, held: self.value if name == self.name else held)


class TakesWhatTheReaderWrites(Around):
    """What the reader writes of one object is refused, and taken."""

    def __init__(self, name: Name) -> None:
        super().__init__()
        self.name = name

    def answer(self, octets: bytes, message: wire.Message) -> bytes | None:
        if message.community == self.state.reader and is_set_of(message, self.name):
            self.write(message)
        return self.right(octets)


class KeepsWhatIsBesideACause(Around):
    """A SET that is refused with this status leaves what it has for one object written."""

    def __init__(self, status: int, name: Name) -> None:
        super().__init__()
        self.status, self.name = status, name

    def answer(self, octets: bytes, message: wire.Message) -> bytes | None:
        reply = self.right(octets)
        refused = wire.spelled(reply or b"")
        if message.kind == wire.SET and refused is not None and refused.status == self.status:
            self.write(replace(message, bindings=[bound for bound in message.bindings if bound[0] == self.name][:1]))
        return reply


class ReadsOtherwiseAlone(Around):
    """An object reads otherwise where no other is asked for."""

    def __init__(self, name: Name, value: Value) -> None:
        super().__init__()
        self.name, self.value = name, value

    def answer(self, octets: bytes, message: wire.Message) -> bytes | None:
        if len(message.bindings) != 1:
            return self.right(octets)
        return self.read(octets, lambda name, held: self.value if name == self.name else held)


class GoesOnOtherwise(Around):
    """A GetNext of so many names repeats the last where its column ends, or skips one behind many names."""

    def __init__(self, count: int) -> None:
        super().__init__()
        self.count = count

    def answer(self, octets: bytes, message: wire.Message) -> bytes | None:
        reply, asked = self.right(octets), message.bindings[-1][0] if message.bindings else ()
        answer = wire.spelled(reply or b"")
        if message.kind != wire.GET_NEXT or len(message.bindings) != self.count or answer is None or answer.status:
            return reply
        is_alone = self.count == 1
        name = asked if is_alone else self.sign.objects.after(answer.bindings[-1][0])
        value = None if name is None or is_alone and asked[-2:] != (7, 255) else self.sign.objects.value(name)
        if name is None or value is None:
            return reply
        return wire.written(replace(answer, bindings=[*answer.bindings[:-1], (name, value)]))


class SharesARow(Around):
    """A row in the middle is stored where the one behind it is."""

    def answer(self, octets: bytes, message: wire.Message) -> bytes | None:
        bindings = [(self._stored(name), value) for name, value in message.bindings]
        if message.kind != wire.SET or bindings == message.bindings:
            return self.right(octets)
        reply = wire.spelled(self.right(wire.written(replace(message, bindings=bindings))) or b"")
        return None if reply is None else wire.written(replace(reply, bindings=message.bindings))

    def _stored(self, name: Name) -> Name:
        return (*name[:-1], 3) if row_of(name) == (Memory.CHANGEABLE, 2) else name


class TakesOffTheEnd(Around):
    """Octets at the end of an owner or a text are taken off."""

    def __init__(self, column: Column, ends: bytes) -> None:
        super().__init__()
        self.column, self.ends = column, ends

    def answer(self, octets: bytes, message: wire.Message) -> bytes | None:
        reply = self.right(octets)
        for name, _ in message.bindings if message.kind == wire.SET else ():
            row = self.state.row(*(row_of(name) or (0, 0)))
            if row is not None and column_of(name) == self.column:
                row.owner = row.owner.rstrip(self.ends) if self.column == Column.OWNER else row.owner
                row.text = row.text.rstrip(self.ends) if self.column == Column.TEXT else row.text
        return reply


class ChecksWhenTheTextIsWritten(Around):
    """A checksum is that of the beacon and the pixel service that a row had when its text was written."""

    def __init__(self) -> None:
        super().__init__()
        self.kept: dict[tuple[int, int], tuple[int, int]] = {}

    def answer(self, octets: bytes, message: wire.Message) -> bytes | None:
        reply = self.read(octets, self._read)
        for name, _ in message.bindings if message.kind == wire.SET else ():
            place = row_of(name) or (0, 0)
            row = self.state.row(*place)
            if row is not None and column_of(name) == Column.TEXT:
                self.kept[place] = (row.beacon, row.pixel)
        return reply

    def _read(self, name: Name, held: Value) -> Value:
        place = row_of(name) or (0, 0)
        row = self.state.row(*place)
        if column_of(name) != Column.CRC or place not in self.kept or row is None or held == integer(0):
            return held
        return integer(checksum(row.text, *self.kept[place]))


class ForgetsWhoAsked(Around):
    """The address of who asked for what is shown is forgotten at the end of a validation."""

    def tick(self) -> None:
        is_validating = self.state.is_validating()
        super().tick()
        if is_validating:
            self.state.shown = replace(self.state.shown, address=bytes(4))


class DropsASize(Around):
    """Datagrams of one size are not answered, or are answered with nothing of one size."""

    def __init__(self, size: int, is_of_replies: bool = False) -> None:
        super().__init__()
        self.size, self.is_of_replies = size, is_of_replies

    def answer(self, octets: bytes, message: wire.Message) -> bytes | None:
        reply = self.right(octets)
        return None if len(reply or b"" if self.is_of_replies else octets) == self.size else reply


class RefusesInSilence(Around):
    """An activation of a type of memory that is none is refused without an answer."""

    def answer(self, octets: bytes, message: wire.Message) -> bytes | None:
        reply = self.right(octets)
        codes = [held for name, (_, held) in message.bindings if name == scalar("dmsActivateMessage")]
        is_none = any(isinstance(code, bytes) and len(code) == 12 and code[3] not in (2, 3, 4, 5, 7) for code in codes)
        return None if message.kind == wire.SET and is_none else reply


def test_right_signs_conform() -> None:
    for description in SIGNS:
        results = tried(Around(description), "ber", "communities", "get", "getnext", "set", "rows", "sizes")
        assert results.verdict() is Verdict.CONFORMS, results.unjudged()


def test_what_has_no_answer_writes_nothing() -> None:
    writer = b"\x04\x05admin"
    version = DoesWhatIsNoMessage(b"\2\1\1" + writer, b"\2\1\0" + writer)
    assert told(version, "ber") == ("ber", "responses")
    assert told(DoesWhatIsNoMessage(writer + b"\xa4", writer + b"\xa3"), "ber") == ("ber", "responses")
    assert told(SeesLateThatOctetsFollow(), "ber") == ("ber", "responses")
    assert told(DoesResponses(), "ber") == ("ber", "responses")


def test_the_reader_reads_what_the_writer_does() -> None:
    minutes, text_of_a_row = scalar("dmsMessageTimeRemaining"), Row(Memory.VOLATILE, 1).cell(Column.TEXT)
    for kind in (wire.GET, wire.GET_NEXT):
        assert told(ReadsOtherwiseToTheReader(minutes, integer(65535), kind), "communities")[0] == "communities"
        sign = ReadsOtherwiseToTheReader(text_of_a_row, (wire.OCTETS, b""), kind)
        assert told(sign, "communities")[0] == "communities"


def test_the_reader_writes_no_object() -> None:
    words = ("dmsPowerLossMessage", "defaultPageOffTime", "dmsShortPowerLossTime", "defaultFlashOn")
    names = [*map(scalar, words), Row(Memory.CHANGEABLE, 1).cell(Column.OWNER)]
    for name in names:
        assert told(TakesWhatTheReaderWrites(name), "communities") == ("communities", "reader writes"), name


def test_a_refusal_writes_nothing_of_what_is_beside_its_cause() -> None:
    row = Row(Memory.CHANGEABLE, 1)
    names = [scalar("dmsPowerLossMessage"), scalar("dmsShortPowerLossTime"), row.cell(Column.OWNER)]
    for status in (wire.NO_SUCH_NAME, wire.BAD_VALUE, wire.GENERAL):
        for name in names:
            assert told(KeepsWhatIsBesideACause(status, name), "set")[0] == "set", (status, name)


def test_an_object_reads_the_same_alone() -> None:
    for name, value in (("dmsMsgTableSource", (wire.OCTETS, bytes(5))), ("dmsFreeChangeableMemory", integer(0))):
        assert told(ReadsOtherwiseAlone(scalar(name), value), "get")[0] == "get"


def test_a_get_next_goes_on_the_same_alone_and_among_many() -> None:
    for count in (1, 31, 50):
        assert told(GoesOnOtherwise(count), "getnext") == ("getnext", "getnext"), count


def test_each_row_holds_its_own() -> None:
    assert told(SharesARow(), "rows")[0] == "rows"


def test_octets_stay_as_they_are_written() -> None:
    for column, ends in ((Column.OWNER, b" "), (Column.TEXT, b"\0"), (Column.TEXT, b"\r\n")):
        assert told(TakesOffTheEnd(column, ends), "rows") == ("rows", "set")


def test_a_checksum_is_that_of_the_fields_that_were_written_last() -> None:
    assert told(ChecksWhenTheTextIsWritten(), "rows") == ("rows", "checksum")


def test_what_is_shown_outlives_seconds_of_its_row() -> None:
    assert told(ForgetsWhoAsked(), "rows")[0] == "rows"


def test_datagrams_of_each_size_are_answered() -> None:
    for size in (128, 257, 484, 512, 548, 1024):
        assert told(DropsASize(size), "sizes") == ("sizes", "error reply"), size
        assert told(DropsASize(size, True), "sizes") == ("sizes", "error reply"), size


def test_a_set_that_never_has_its_answer_is_not_judged_where_others_like_it_have_theirs() -> None:
    for sign, wanted in ((Around(), Verdict.CONFORMS), (RefusesInSilence(), Verdict.NOT_JUDGED)):
        made = session(sign)
        made.pair.port.asked_again = 1  # on a way that loses some
        made.pair.answered.add((wire.SET, made.context.communities[1], (6, 3), wire.GENERAL))
        results = made.run(chapters_of(("repeated",), False))
        results.lossy = 100.0
        assert results.verdict() is wanted, (results.verdict(), results.unjudged())
