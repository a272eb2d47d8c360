"""What a sign does wrong where no case looks is seen on its way back to the known state."""

from dataclasses import replace

from model import text
from wisangub.snmp import wire
from wisangub.snmp.names import scalar
from wisangub.tester.findings.results import Results, Verdict
from wisangub.tester.report import files, terminal, words
from wisangub.tester.requests.objects import DEFAULTS, Name, Value, integer
from wisangub.tester.requests.steps import put
from wisangub.tester.session import chapters_of

from .nearly_right import Around, is_set_of, session, tried

ABOUT = words.About("127.0.0.1:1", "bench.sign", "model", None, 1, 0, False, "today")
PAGE_ON, CAUSE = scalar("defaultPageOnTime"), scalar("dmsActivateMsgError")
FEW = 5


class WritesWhereItReads(Around):
    """A read in which a name has a value of its own sets a time."""

    def answer(self, octets: bytes, message: wire.Message) -> bytes | None:
        if message.kind == wire.GET and any(tag != wire.NULL for _, (tag, _) in message.bindings):
            self.right(put((PAGE_ON, integer(77))).octets(1, (self.state.reader, self.state.writer)))
        return self.right(octets)


class ReadsWrongOnTheWay(Around):
    """Of the reads of which the tester looks whether the known state is reached one in some has another time."""

    def __init__(self) -> None:
        super().__init__()
        self.count = 0

    def answer(self, octets: bytes, message: wire.Message) -> bytes | None:
        if message.kind != wire.GET or message.bindings[-1:] != [(CAUSE, (wire.NULL, b""))]:
            return self.right(octets)
        self.count += 1
        return self.right(octets) if self.count % FEW else self.read(octets, self._other)

    def _other(self, name: Name, held: Value) -> Value:
        return integer(99) if name == PAGE_ON else held


class DoesNotWriteOnTheWay(Around):
    """Of the SETs that bring a time back to what it was one in two is answered, and not done."""

    def __init__(self) -> None:
        super().__init__()
        self.count = 0

    def answer(self, octets: bytes, message: wire.Message) -> bytes | None:
        if is_set_of(message, PAGE_ON) and message.bindings == [(PAGE_ON, integer(30))]:
            self.count += 1
            if self.count % 2:
                return wire.written(replace(message, kind=wire.RESPONSE))
        return self.right(octets)


def test_what_reads_change_is_found_behind_them() -> None:
    results = tried(WritesWhereItReads(), "get")
    found = results.differences()
    assert [(held.found_in, held.rule.key) for held in found] == [("get", "set")] and not results.once()
    assert found[0].mismatch.names == (PAGE_ON,) and found[0].datagrams == 2 and found[0].is_repeated


def test_what_is_wrong_on_the_way_alone_is_now_and_then() -> None:
    for sign, read in ((ReadsWrongOnTheWay(), "99"), (DoesNotWriteOnTheWay(), "")):
        results = tried(sign, "defaults", "durations")
        assert not results.differences() and results.verdict() is Verdict.DIFFERS, words.verdict(results)
        assert {name for held in results.once() for name in held.mismatch.names} == {PAGE_ON}
        said = "\n".join(terminal.ending(results, ABOUT, []))
        assert "now and then" in files.as_junit(results, ABOUT) and "now and then" in said
        assert f"defaultPageOnTime.0 read {read}" in said and "on the way to the known state" in said
        assert "reads defaultPageOnTime.0 = 30" not in said, said


class ReadsWrongAmongOthers(Around):
    """Of the reads of a time with others one in some has another value."""

    def __init__(self, value: int) -> None:
        super().__init__()
        self.value, self.count = value, 0

    def answer(self, octets: bytes, message: wire.Message) -> bytes | None:
        if message.kind != wire.GET or PAGE_ON not in [name for name, _ in message.bindings[1:]]:
            return self.right(octets)
        self.count += 1
        return self.right(octets) if self.count % FEW else self.read(octets, self._other)

    def _other(self, name: Name, held: Value) -> Value:
        return integer(self.value) if name == PAGE_ON else held


def lossy(sign: Around, *chapters: str) -> Results:
    """The test of a sign on a way that lost a datagram before."""
    made = session(sign)
    made.pair.port.passed_over = 1
    return made.run(chapters_of(chapters, False))


def test_what_is_wrong_on_the_way_is_told_where_datagrams_are_lost() -> None:
    """Where no request that may have come late can have made it so."""
    results = lossy(ReadsWrongAmongOthers(211), "getnext", "durations")
    said = "\n".join(terminal.ending(results, ABOUT, []))
    assert not results.differences() and results.verdict() is Verdict.DIFFERS, said
    assert {name for held in results.once() for name in held.mismatch.names} == {PAGE_ON}
    assert "defaultPageOnTime.0 read 211 on the way to the known state" in said and "now and then" in said, said


def test_what_a_late_request_may_have_made_is_not_told() -> None:
    made = session(sign := ReadsWrongAmongOthers(211))
    made.pair.port.passed_over = 1
    made.pair.port.written.add((PAGE_ON, integer(211)))
    results = made.run(chapters_of(("getnext", "durations"), False))
    assert sign.count > FEW and not [held for held in results.once() if "on the way" in held.note], results.once()


def test_nothing_is_wrong_on_the_way_of_a_right_sign() -> None:
    results = tried(Around(text.BENCH), "getnext", "defaults", "durations", "priorities")
    assert results.verdict() is Verdict.CONFORMS and not results.once(), results.unjudged()
    results = lossy(Around(text.BENCH), "getnext", "durations")
    assert results.verdict() is Verdict.CONFORMS and not results.once(), results.unjudged()


class ReadsWrongAtFirst(Around):
    """An object reads otherwise so many times."""

    def __init__(self, name: Name, times: int) -> None:
        super().__init__()
        self.name, self.times = name, times

    def answer(self, octets: bytes, message: wire.Message) -> bytes | None:
        if message.kind != wire.GET or self.name not in [name for name, _ in message.bindings] or not self.times:
            return self.right(octets)
        self.times -= 1
        return self.read(octets, lambda name, held: integer(19) if name == self.name else held)


def test_what_is_wrong_once_before_the_chapters_is_told_with_what_it_read() -> None:
    table = [
        ("vmsSignHeightPixels", 2, "it read 19 first, and the replies shown are those when it was read again"),
        ("dmsNumVolatileMsg", 1, "reads dmsNumVolatileMsg.0 = 19; expected: 0"),
    ]
    for word, times, told in table:
        results = tried(ReadsWrongAtFirst(scalar(word), times), "getnext")
        said = "\n".join(terminal.ending(results, ABOUT, []))
        assert results.verdict() is Verdict.DIFFERS and not results.differences(), said
        assert told in said and f"reads {word}.0 = 14" not in said, said


class HasAtTimesNoSuchName(Around):
    """An object is none of the sign's in those reads, by their numbers from 1 on."""

    def __init__(self, name: Name, reads: set[int]) -> None:
        super().__init__()
        self.name, self.reads, self.count = name, reads, 0

    def answer(self, octets: bytes, message: wire.Message) -> bytes | None:
        names = [name for name, _ in message.bindings]
        if message.kind != wire.GET or self.name not in names:
            return self.right(octets)
        self.count += 1
        if self.count not in self.reads:
            return self.right(octets)
        refusal = replace(message, kind=wire.RESPONSE, status=wire.NO_SUCH_NAME, index=1 + names.index(self.name))
        return wire.written(refusal)


def test_a_setting_that_is_at_times_not_there_is_put_back_as_it_was() -> None:
    """A read of many names that is refused is done once more for each."""
    at = DEFAULTS.index(PAGE_ON)
    for reads in ({1, 2}, {2, 3}, {2, 3, 4}, {1, 2, 4}):
        sign = HasAtTimesNoSuchName(PAGE_ON, reads)
        sign.state.defaults[at] = 77
        results = tried(sign, "getnext")
        assert sign.state.defaults[at] == 77 and results.first[PAGE_ON] == integer(77), reads
        assert results.verdict() is Verdict.DIFFERS and sign.count > max(reads), reads


def test_a_setting_that_reads_wrong_at_first_is_put_back_as_it_was() -> None:
    """It is told, and what was read again stands as the sign's own, also where that is none of both."""
    at = DEFAULTS.index(PAGE_ON)
    for times, own in ((1, 77), (1, 30)):
        sign = ReadsWrongAtFirst(PAGE_ON, times)
        sign.state.defaults[at] = own
        results = tried(sign, "getnext")
        said = "\n".join(terminal.ending(results, ABOUT, []))
        assert sign.state.defaults[at] == own and results.first[PAGE_ON] == integer(own) and results.is_set_back
        assert results.verdict() is Verdict.DIFFERS and not results.differences(), said
        assert f"it read 19 first and {own} then, and the replies shown are those when it was read again" in said, said
