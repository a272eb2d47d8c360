"""Objects beside the profile's that a sign claims: each is read, set within its range and beyond, and put back."""

import pathlib
import tempfile
from dataclasses import replace

from model import published, text, wire
from model.agent import Agent
from model.device import Access
from trials.wrong_signs import bench
from wisangub.objects.known import known
from wisangub.process.places import TOP
from wisangub.refusal import Refusal
from wisangub.tester.chapters import device
from wisangub.tester.findings.results import Results, Verdict
from wisangub.tester.report import terminal, words
from wisangub.tester.sign.claimed import ClaimedOracle
from wisangub.tester.sign.claimed_device import DeviceOracle
from wisangub.tester.sign.claims import Claims, claims_of
from wisangub.tester.sign.described import described

CLAIMS, OBJECTS = TOP / "signs/roadside.claims.toml", TOP / "signs/roadside.objects"
ABOUT = words.About("127.0.0.1:1", "bench.sign", "model", None, 1, 0, False, "today")
TIMES = {"uptime": "TimeTicks", "clock": "Counter"}  # that the front end publishes anew
SYSTEM = (1, 3, 6, 1, 2, 1, 1)


class Roadside:
    """Our sign with the objects of a file, of which times are others each second."""

    def __init__(self) -> None:
        self.agent, self.seconds = Agent(text.bench()), 0
        for line in OBJECTS.read_text(encoding="ascii").splitlines():
            word, _, rest = line.partition(" ")
            if word in TIMES:
                self.publish(f"{rest} {TIMES[word]} 0")
            elif word == "object":
                self.publish(rest)

    def publish(self, line: str) -> None:
        assert self.agent.publish(published.published(line.encode().split(b" "))) is None, line

    def receive(self, datagram: bytes) -> tuple[bytes | None, object]:
        return self.agent.receive(datagram)

    def tick(self) -> None:
        self.agent.sign.tick()
        self.seconds += 1
        self.publish(f"1.3.6.1.2.1.1.3.0 TimeTicks {100 * self.seconds}")


def tried(sign: Roadside, *only: str, claims: Claims | None = None) -> Results:
    """A test of a sign by what the sample claims."""
    claims = claims or claims_of(CLAIMS, described(text.BENCH))
    ours = DeviceOracle(ClaimedOracle(bench.ModelOracle(text.BENCH), claims), described(text.BENCH).writer)
    session = bench.session(text.BENCH, sign, ours, requests=60)
    session.context.claims, session.pair.device = claims, ours
    return bench.run(session, only)


def name_of(word: str) -> wire.Name:
    return (*known(word).numbers, 0)


def test_what_is_claimed_is_shown_and_put_back() -> None:
    sign = Roadside()
    before = {name: held.value for name, held in sign.agent.device.objects.items()}
    results = tried(sign, "getnext", "device")
    assert results.verdict() is Verdict.CONFORMS, (results.unjudged(), [held.title for held in results.differences()])
    claims = claims_of(CLAIMS, described(text.BENCH)).device
    held = {one.word: one for one in results.trace.requirements()}
    assert all(held[claim.word].count("alike") >= 1 for claim in claims) and len(claims) > 40
    assert held["sysName"].claimed_range == (0, 255) and not held["1.3.6.1.4.1.1206.4.2.3.9.8.0"].is_claimed
    after = {name: one.value for name, one in sign.agent.device.objects.items() if one.value != before[name]}
    assert set(after) <= {(*SYSTEM, 3, 0)}, after
    assert "sysName 0 to 255" in "\n".join(terminal.ending(results, ABOUT, []))


class ReadsWrongOnce(Roadside):
    """The first read of an object with others has another value, which is one that it may have."""

    def __init__(self, name: wire.Name, value: bytes) -> None:
        super().__init__()
        self.name, self.value, self.is_read = name, value, False

    def receive(self, datagram: bytes) -> tuple[bytes | None, object]:
        octets, more = super().receive(datagram)
        reply, request = (wire.spelled(one or b"") for one in (octets, datagram))
        names = (
            [] if reply is None or request is None or request.kind != wire.GET else [name for name, _ in reply.bindings]
        )
        if reply is None or self.is_read or self.name not in names[1:]:
            return octets, more
        self.is_read = True
        bindings = [(name, (held[0], self.value) if name == self.name else held) for name, held in reply.bindings]
        return wire.written(replace(reply, bindings=bindings)), more


def test_what_reads_wrong_at_first_is_put_back_as_it_was() -> None:
    name = (*SYSTEM, 5, 0)
    sign = ReadsWrongOnce(name, b"elsewhere")
    before = sign.agent.device.objects[name].value
    results = tried(sign, "device")
    assert sign.agent.device.objects[name].value == before != (wire.OCTETS, b"elsewhere"), results.unjudged()
    said = "\n".join(terminal.ending(results, ABOUT, []))
    assert "first and" in said and results.verdict() is Verdict.DIFFERS, said


def test_without_claims_of_a_device_the_chapter_is_not_asked_for() -> None:
    results = tried(Roadside(), "device", "communities", claims=Claims())
    assert [held.chapter.name for held in results.chapters] == ["communities"]


def differs(sign: Roadside) -> str:
    """The rule of the first difference of the chapter."""
    results = tried(sign, "device")
    assert results.verdict() is Verdict.DIFFERS, results.unjudged()
    return results.differences()[0].rule.key


def test_what_is_claimed_and_is_not_so_differs() -> None:
    sign = Roadside()
    sign.agent.device.withdraw(name_of("sysDescr"))
    assert differs(sign) == "device values"
    sign = Roadside()
    sign.publish("1.3.6.1.2.1.1.1.0 INTEGER 7")
    assert differs(sign) == "device values"
    sign = Roadside()
    sign.publish("1.3.6.1.4.1.1206.4.2.3.9.8.0 INTEGER 7")
    assert differs(sign) == "device values"


def test_another_range_than_is_claimed_differs() -> None:
    for word, access, key in (
        ("dmsIllumManLevel", Access(wire.INTEGER, 0, 9), "device refused"),
        ("dmsIllumManLevel", Access(wire.INTEGER, 0, 7), "device set"),
        ("dmsIllumManLevel", None, "device set"),
        ("sysName", Access(wire.OCTETS, 0, 64), "device set"),
        ("sysName", Access(wire.OCTETS, 1, 255), "device set"),
        ("sysDescr", Access(wire.OCTETS, 0, 255), "device refused"),
    ):
        sign = Roadside()
        sign.agent.device.objects[name_of(word)].access = access
        assert differs(sign) == key, word


def test_a_value_that_is_not_kept_differs() -> None:
    class Forgetful(Roadside):
        def receive(self, datagram: bytes) -> tuple[bytes | None, object]:
            answer = super().receive(datagram)
            held = self.agent.device.objects[name_of("sysName")]
            if len(held.value[1]) == 255:
                self.agent.device.objects[held.name] = replace(held, value=(wire.OCTETS, held.value[1][:254]))
            return answer

    assert differs(Forgetful()) == "device set"


def test_claims_of_a_device_at_fault_are_refused_with_their_word() -> None:
    table = (
        ("sysNothing = true", "is no object of mibs/"),
        ("moduleMake = true", "is a column, and wants a row"),
        ('"sysName.1" = true', "is no column"),
        ("sysName = [0]", "[LEAST, MOST]"),
        ("sysUpTime = [0, 9]", "[LEAST, MOST]"),
        ("sysName = [5, 4]", "[LEAST, MOST]"),
        ('"1.3.6.1.4.1.9.1.0" = true', "wants a type"),
        ('"1.3.6.1.4.1.9.1.0" = { type = "Text" }', "wants a type"),
        ('sysName = { type = "INTEGER" }', "is of the type OCTET STRING"),
        ("sysName = { range = 3 }", "no more than a type"),
        ('sysName = true\n"1.3.6.1.2.1.1.5.0" = true', "stands twice"),
    )
    with tempfile.TemporaryDirectory() as folder:
        path = pathlib.Path(folder) / "claims.toml"
        for held, said in table:
            path.write_text(f"[device]\n{held}\n", encoding="utf-8")
            try:
                claims_of(path, described(text.BENCH))
            except Refusal as refused:
                assert said in str(refused), refused
            else:
                raise AssertionError(held)
        path.write_text('[device]\n"1.3.6.1.4.1.9.1.0" = { type = "INTEGER", set = [-3, 4] }\n', encoding="utf-8")
        (claim,) = claims_of(path, described(text.BENCH)).device
    assert claim.ends == (-3, 4) and claim.is_right((wire.INTEGER, 4)) and not claim.is_right((wire.INTEGER, 5))
    assert device.CHAPTER.is_of_claims
