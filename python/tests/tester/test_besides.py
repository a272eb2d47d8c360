"""Signs with objects besides the profile's: listed, and no difference."""

import bisect
import pathlib
import subprocess
import sys
import tempfile
from typing import Any

from model import published, text, wire
from model.agent import Agent
from model.font_objects import FontObjects
from model.objects import Objects
from model.sign import Sign
from model.state import State
from trials.wrong_signs import bench
from trials.wrong_signs.load import sign_of, unload
from trials.wrong_signs.table import MUTANTS
from wisangub.process.places import TOP
from wisangub.snmp.names import DMS, scalar
from wisangub.tester.findings.compare import Kind
from wisangub.tester.findings.results import Results, Verdict
from wisangub.tester.report import terminal, words
from wisangub.tester.sign.claims import Claims
from wisangub.tester.sign.simulated import SomeSign

from .endpoints import LONG, free_port, front_end, in_real_time

ABOUT = words.About("127.0.0.1:1", "bench.sign", "model", None, 1, 0, False, "today")
DESCRIPTION = (1, 3, 6, 1, 2, 1, 1, 1, 0)
HELD: dict[wire.Name, wire.Tagged] = {
    DESCRIPTION: (wire.OCTETS, b"a sign"),
    (1, 3, 6, 1, 2, 1, 1, 3, 0): (wire.TICKS, 5),
    (*DMS, 1, 1, 0): (wire.INTEGER, 3),
    (*DMS, 4, 10, 0): (wire.INTEGER, 1),
    (*DMS, 5, 10, 0): (wire.GAUGE, 1),
    (*DMS, 7, 1, 0): (wire.INTEGER, 9),
}


class MoreObjects(Objects):
    """The profile's objects, and those besides."""

    def __init__(self, state: State) -> None:
        super().__init__(state)
        for name in HELD:
            bisect.insort(self.names, name)

    def value(self, name: wire.Name) -> wire.Tagged | None:
        return HELD.get(name) or super().value(name)


class Richer(Sign):
    """A sign with more objects than the profile's."""

    def __init__(self) -> None:
        super().__init__(text.bench())
        self.objects = MoreObjects(self.state)


class Forgetful(Richer):
    """One that leaves an object of the profile out of its order."""

    def __init__(self) -> None:
        super().__init__()
        self.objects.names.remove(scalar("defaultFlashOn"))


def found(sign: SomeSign) -> Results:
    return bench.run(
        bench.session(text.BENCH, sign, requests=200, most_differences=2), ["get", "getnext", "set", "random"]
    )


def test_objects_besides_the_profile_s_are_listed_and_no_difference() -> None:
    results = found(Richer())
    assert results.verdict() is Verdict.CONFORMS, (results.unjudged(), [held.title for held in results.differences()])
    assert len(results.besides) == len(HELD) and results.besides[0] == ".".join(map(str, DESCRIPTION))
    told = "\n".join(terminal.ending(results, ABOUT, []))
    assert "6 objects besides the profile's: 1.3.6.1.2.1.1.1.0" in told and words.verdict(results).startswith(
        "conforms"
    )


def test_getnext_is_judged_by_what_the_sign_has() -> None:
    results = found(Forgetful())
    assert results.verdict() is Verdict.DIFFERS
    assert results.differences()[0].mismatch.kind is Kind.BINDINGS, results.differences()[0].title


UPTIME = "1.3.6.1.2.1.1.3.0"
DEVICE = (  # what a sign says of itself, as a line of a file of objects has it
    "1.3.6.1.2.1.1.1.0 OCTET STRING 61207369676e",
    "1.3.6.1.2.1.1.5.0 OCTET STRING 6f6e65",
    "1.3.6.1.4.1.1206.4.2.3.1.1.0 INTEGER 4",
    "1.3.6.1.4.1.1206.4.2.3.1.3.0 INTEGER 2400",
    "1.3.6.1.4.1.1206.4.2.3.2.1.0 INTEGER 60",
    "1.3.6.1.4.1.1206.4.2.3.5.8.2.0 Opaque 0204",
    "1.3.6.1.4.1.1206.4.2.3.7.1.0 INTEGER 2 number 2 6",
    "1.3.6.1.4.1.1206.4.2.3.7.6.0 INTEGER 3 number 0 9",
    "1.3.6.1.4.1.1206.4.2.3.9.6.0 Gauge 23",
)


class OfADevice:
    """Our sign with objects of its device, one of which is another each second, and with those of its fonts."""

    def __init__(self, sign: Any = None) -> None:
        self.agent, self.seconds = Agent(text.bench()), 0
        if sign is not None:
            self.agent.sign, self.agent.of_sign = sign, [sign.objects]
        assert self.agent.show_fonts()
        self.publish(*DEVICE, f"{UPTIME} TimeTicks 0")

    def publish(self, *lines: str) -> None:
        for line in lines:
            assert self.agent.publish(published.published(line.encode().split(b" "))) is None, line

    def receive(self, datagram: bytes) -> tuple[bytes | None, object]:
        answer: tuple[bytes | None, object] = self.agent.receive(datagram)
        return answer

    def tick(self) -> None:
        self.agent.sign.tick()
        self.seconds += 1
        self.publish(f"{UPTIME} TimeTicks {100 * self.seconds}")


def test_our_sign_with_objects_of_its_device_conforms() -> None:
    sign = OfADevice()
    session = bench.session(text.BENCH, sign, requests=200)
    session.context.claims = Claims(tags=frozenset(["fl", "hc"]))
    results = bench.run(session)
    assert results.verdict() is Verdict.CONFORMS, (results.unjudged(), [held.title for held in results.differences()])
    names = [".".join(map(str, name)) for name in [*sign.agent.device.objects, *FontObjects(text.bench().face).values]]
    besides = [name.replace("dms.", "1.3.6.1.4.1.1206.4.2.3.") for name in results.besides]
    assert sorted(besides) == sorted(names) and len(names) > 40
    assert words.verdict(results).startswith("conforms")


def test_a_wrong_sign_is_found_beside_objects_of_its_device() -> None:
    (wrong,) = [held for held in MUTANTS if held.name == "the_reader_writes"]
    try:
        results = found(OfADevice(sign_of([wrong], text.BENCH)))
        assert results.verdict() is Verdict.DIFFERS and len(results.besides) > 40
    finally:
        unload([wrong])


def test_a_sign_with_a_file_of_objects_over_udp() -> None:
    with tempfile.TemporaryDirectory() as folder:
        described, objects, claims = (pathlib.Path(folder) / name for name in ("bench.sign", "objects", "claims.toml"))
        described.write_bytes(text.BENCH)
        lines = [*(f"object {line}" for line in DEVICE), f"uptime {UPTIME}", "fonts", ""]
        objects.write_text("\n".join(lines), encoding="ascii")
        claims.write_text("[tags]\nfl = false\n", encoding="ascii")
        port = free_port()
        sign = ("bin/wisangub-sign", "--signtool", str(TOP / "model/signtool"), "--objects", str(objects))
        call = [sys.executable, "-m", "wisangub.tester", "--to", f"127.0.0.1:{port}", "--sign", str(described)]
        call += ["--signtool", "model", "--claims", str(claims), "--only", "get", "--only", "getnext", "--wait", "5"]
        with in_real_time(), front_end(*sign, "--port", str(port), "--sign", str(described)):
            ended = subprocess.run(call, cwd=TOP, capture_output=True, timeout=LONG, check=False)
            said = ended.stdout.decode()
            assert ended.returncode == 0 and "objects besides the profile's: 1.3.6.1.2.1.1.1.0" in said, ended
