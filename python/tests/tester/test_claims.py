"""A sign that claims less than the profile has: what is not supported is no failure, and what is claimed is judged."""

import json
import pathlib
import tempfile
from typing import Sequence

from model import text
from trials.wrong_signs import bench
from wisangub.refusal import Refusal
from wisangub.snmp import wire
from wisangub.snmp.names import scalar
from wisangub.tester.chapters import ALL
from wisangub.tester.chapters.texts import samples
from wisangub.tester.chapters.tracing import shown_by, traced
from wisangub.tester.chapters.validation import CHAPTER
from wisangub.tester.findings.results import Results, Verdict
from wisangub.tester.report import files, page, terminal, words
from wisangub.tester.requests.objects import NULL, integer
from wisangub.tester.requests.steps import get, get_next, put
from wisangub.tester.requests.texts import tags_of
from wisangub.tester.session import Session
from wisangub.tester.sign.claimed import ClaimedOracle
from wisangub.tester.sign.claimed_device import DeviceOracle
from wisangub.tester.sign.claims import Claims, claims_of
from wisangub.tester.sign.described import described

ABOUT = words.About("127.0.0.1:1", "bench.sign", "model", None, 1, 0, False, "today")
WRITER = (b"public", b"admin")
FLASH_ON = "defaultFlashOn"
LESS = Claims(
    frozenset(("dmsTimeCommLoss", FLASH_ON, "dmsMessageBeacon", "dmsActivateErrorMsgCode")),
    {"defaultBackgroundColor": (0, 7), "dmsMessageRunTimePriority": (1, 200)},
    frozenset(("fl",)),
)


class Less:
    """A sign of the model that has no more than these claims."""

    def __init__(self, claims: Claims) -> None:
        self._oracle = ClaimedOracle(bench.ModelOracle(text.BENCH), claims)

    def receive(self, datagram: bytes) -> tuple[bytes | None, object]:
        return self._oracle.datagram(datagram), None

    def tick(self) -> None:
        self._oracle.tick()


def session(claims: Claims, of_the_sign: Claims = LESS) -> Session:
    """A test by these claims of a sign that has what others say."""
    oracle = ClaimedOracle(bench.ModelOracle(text.BENCH), claims)
    made = bench.session(text.BENCH, Less(of_the_sign), oracle, requests=120)
    made.context.claims = claims
    return made


def tried(claims: Claims, *only: str) -> Results:
    return bench.run(session(claims), only)


def test_what_is_not_supported_is_no_failure() -> None:
    results = tried(LESS)
    assert results.verdict() is Verdict.CONFORMS, (results.unjudged(), [held.title for held in results.differences()])
    told = "\n".join(terminal.ending(results, ABOUT, []))
    assert "not supported, and no failure: " in told and "claimed in part: defaultBackgroundColor 0 to 7" in told
    held = json.loads(files.as_json(results, ABOUT, []))
    by_word = {one["requirement"]: one for one in held["requirements"]}
    assert not by_word["dmsTimeCommLoss"]["claimed"] and not by_word["[fl]"]["alike"] and by_word["[fo]"]["alike"]
    assert by_word["defaultBackgroundColor"]["range"] == [0, 7] and "set" in by_word[FLASH_ON]["chapters"]
    assert len(held["cases"]) >= sum(one["cases"] for one in held["chapters"])
    assert "What the cases show" in page.as_html(results, ABOUT, [])


def test_what_is_claimed_and_missing_differs() -> None:
    wider = Claims(LESS.missing - {FLASH_ON}, LESS.ranges, LESS.tags)
    assert tried(wider, "get").verdict() is Verdict.DIFFERS
    narrower = Claims(LESS.missing, LESS.ranges | {"defaultForegroundColor": (0, 7)})
    assert tried(narrower, "set").verdict() is Verdict.DIFFERS


def test_ours_answers_no_more_than_is_claimed() -> None:
    oracle = ClaimedOracle(bench.ModelOracle(text.BENCH), LESS)

    def status(octets: bytes) -> tuple[int, int]:
        reply = wire.read(oracle.datagram(octets) or b"")
        return reply.status, reply.index

    on, off, back = scalar(FLASH_ON), scalar("defaultFlashOff"), scalar("defaultBackgroundColor")
    assert status(get(off, on).octets(1, WRITER)) == (wire.NO_SUCH_NAME, 2)
    assert status(put((off, integer(7)), (on, integer(7))).octets(2, WRITER)) == (wire.NO_SUCH_NAME, 2)
    assert status(put((off, integer(999)), (on, integer(7))).octets(3, WRITER)) == (wire.BAD_VALUE, 1)
    assert status(put((back, integer(8))).octets(4, WRITER)) == (wire.BAD_VALUE, 1)
    assert status(put((back, integer(7))).octets(5, WRITER)) == (wire.NO_ERROR, 0)
    assert status(put((back, integer(8)), is_writer=False).octets(6, WRITER)) == (wire.NO_SUCH_NAME, 1)
    before_on = scalar("defaultForegroundColor")
    reply = wire.read(oracle.datagram(get_next(before_on, before_on).octets(7, WRITER)) or b"")
    assert [name for name, _ in reply.bindings] == [off, off] and reply.bindings[0][1] != NULL
    last = scalar("dmsMultiSyntaxErrorPosition")
    assert status(get_next(off, last).octets(8, WRITER)) == (wire.NO_SUCH_NAME, 2)


class Recording(bench.ModelOracle):
    """Keeps what else it is asked than datagrams."""

    def __init__(self) -> None:
        self.asked: list[str] = []
        super().__init__(text.BENCH)
        self.asked.clear()

    def restart(self) -> None:
        self.asked.append("restart")
        super().restart()

    def tick(self) -> None:
        self.asked.append("tick")

    def power(self, seconds: int) -> None:
        self.asked.append(f"power {seconds}")

    def end(self) -> None:
        self.asked.append("end")


def test_what_is_no_datagram_is_handed_on() -> None:
    behind = Recording()
    for oracle in (ClaimedOracle(behind, LESS), DeviceOracle(behind, WRITER[1])):
        oracle.restart()
        oracle.tick()
        oracle.power(7)
        oracle.end()
        assert behind.asked == ["restart", "tick", "power 7", "end"]
        behind.asked.clear()


def test_cases_say_what_they_show() -> None:
    context = session(LESS, LESS).context
    shown = {block.name: shown_by(block) for chapter in ALL for block in chapter.blocks(context)}
    assert shown["the default font"] == {"defaultFont"} and "dmsMessageStatus" in shown["how many rows there are"]
    assert tags_of(b"[fo2]A[[nl]][/fl][NL3][zz]") == {"fo", "fl", "nl"}


def test_a_text_with_a_tag_that_the_sign_does_not_take_is_left_out_by_itself() -> None:
    context, every = session(Claims()).context, session(Claims()).context
    for tag in ("fl", "np"):
        context.claims = Claims(tags=frozenset((tag,)))
        sent = [part.text for sample in samples(context) for part in sample.parts or (sample,)]
        assert sorted(sent) == sorted(part.text for one in samples(every) for part in one.parts or (one,))
        judged = {
            text
            for block in CHAPTER.blocks(context)
            if block.texts and traced(CHAPTER.name, block, context.claims)[1] is not None
            for text in block.texts
        }
        assert judged == {text for text in sent if tag not in tags_of(text)}


def refusals(table: Sequence[tuple[str, str]]) -> None:
    with tempfile.TemporaryDirectory() as folder:
        path = pathlib.Path(folder) / "claims.toml"
        for held, said in table:
            path.write_text(held, encoding="utf-8")
            try:
                claims_of(path, described(text.BENCH))
            except Refusal as refused:
                assert said in str(refused), refused
            else:
                raise AssertionError(held)


def test_claims_at_fault_are_refused_with_their_word() -> None:
    refusals(
        [
            ("[objects]\ndmsNothing = false\n", "dmsNothing is none of "),
            ("[objects]\ndmsMessageCRC = false\n", "nothing can be tested"),
            ("[objects]\ndefaultFont = 3\n", "true or false"),
            ("[ranges]\ndefaultBackgroundColor = [0, 10]\n", "from 0 to 9 at most"),
            ("[ranges]\ndefaultFlashOn = [0]\n", "[LEAST, MOST]"),
            ("[ranges]\ndefaultPageOnTime = [0, 1]\n", "is 30 in the description"),
            ("[tags]\nzz = false\n", "zz is none of cb, "),
            ("[fonts]\n", "not fonts"),
            ("nothing", "claims.toml: "),
        ]
    )
    with tempfile.TemporaryDirectory() as folder:
        path = pathlib.Path(folder) / "claims.toml"
        path.write_text("[objects]\ndefaultFont = false\n[ranges]\n[tags]\nhc = false\nfo = true\n", encoding="utf-8")
        held = claims_of(path, described(text.BENCH))
    assert held.missing == {"defaultFont"} and held.tags == {"hc"}
