"""The parts by themselves: rules, comparison, ticks, steps."""

import ast
import random
import re

from model import text
from trials.wrong_signs import bench
from trials.wrong_signs.load import edited
from trials.wrong_signs.table import MUTANTS
from wisangub.process.places import TOP
from wisangub.snmp import wire
from wisangub.snmp.mib import FILE
from wisangub.snmp.names import scalar
from wisangub.tester.chapters import ALL, ASKED
from wisangub.tester.context import Context
from wisangub.tester.findings.classify import rule_of
from wisangub.tester.findings.compare import Kind, fields, mismatch
from wisangub.tester.findings.rules import CHAPTERS, RULES, is_in_profile
from wisangub.tester.requests.objects import RANGES, integer
from wisangub.tester.requests.steps import Wait, datagrams, get, put
from wisangub.tester.runs.repeat import steps_of
from wisangub.tester.sign.clock import SimulatedClock
from wisangub.tester.sign.described import described
from wisangub.tester.sign.ticks import Ticks

from .short import MODULES

_LONGEST = 80  # datagrams of a case: on a way that loses one in five, longer ones are begun again too often
HEIGHT = scalar("vmsSignHeightPixels")


def response(number: int = 7, status: int = 0, index: int = 0, value: int = 14, community: bytes = b"public") -> bytes:
    return wire.written(wire.Message(wire.RESPONSE, community, number, status, index, [(HEIGHT, integer(value))]))


def imports(source: str) -> set[str]:
    """The packages that a module imports."""
    nodes = list(ast.walk(ast.parse(source)))
    names = [alias.name for node in nodes if isinstance(node, ast.Import) for alias in node.names]
    names += [node.module or "" for node in nodes if isinstance(node, ast.ImportFrom) and not node.level]
    return {name.split(".")[0] for name in names}


def test_the_tester_imports_no_model() -> None:
    modules = list((TOP / "python/wisangub/tester").rglob("*.py"))
    assert len(modules) > 50
    for module in modules:
        assert not imports(module.read_text(encoding="utf-8")) & {"model", "trials", "tools"}, module


def test_every_rule_stands_in_the_profile() -> None:
    assert not [rule.key for rule in RULES.values() if not is_in_profile(rule)]
    sentences = {rule.key: rule.sentence for rule in RULES.values()}  # no row of a table, and no part of one
    assert not [key for key, said in sentences.items() if "|" in said or "](" in said or said[-1:] != "."]
    assert not [key for key, said in sentences.items() if said.split()[0].isalpha() and said.split()[0].islower()]
    assert {rule.chapter for rule in RULES.values()} <= {"before", *CHAPTERS}
    assert [chapter.name for chapter in ALL] == list(CHAPTERS) == list(ASKED)


def test_numbers_that_are_set_are_those_of_the_mib() -> None:
    blocks = [block.partition("ACCESS  ") for block in FILE.read_text(encoding="utf-8").split("\n\n")]
    syntaxes = [syntax for syntax, _, rest in blocks if "SYNTAX  INTEGER" in syntax and rest.startswith("read-write")]
    found = {syntax.split()[0]: [int(number) for number in re.findall(r"\d+", syntax)] for syntax in syntaxes}
    others = {"defaultFont", "dmsMessageStatus"}  # of fonts that the sign has, and what a row is asked
    assert {word: (numbers[0], numbers[-1]) for word, numbers in found.items() if word not in others} == RANGES


def test_replies_differ_by_kind() -> None:
    same = response()
    longer = same[:1] + b"\x81" + same[1:]
    table = [
        (same, same, None),
        (same, None, Kind.NO_ANSWER),
        (None, same, Kind.ANSWER),
        (same, b"\x30", Kind.UNREADABLE),
        (same, longer, Kind.SPELLING),
        (same, response(8), Kind.HEAD),
        (same, response(community=b"admin"), Kind.HEAD),
        (same, response(status=2, index=1), Kind.STATUS),
        (same, response(value=15), Kind.VALUE),
    ]
    for ours, theirs, kind in table:
        found = mismatch(ours, theirs)
        assert (found.kind if found else None) is kind, (ours, theirs)
    assert mismatch(same, response(value=15), frozenset([HEIGHT])) is None


def test_fields_are_words() -> None:
    assert fields(response(status=2, index=1)) == [
        "Response of public, request-id 7, noSuchName, index 1",
        "vmsSignHeightPixels.0 = 14",
    ]
    assert fields(None) == ["no answer"]
    assert fields(b"\x30") == ["no message: Truncated at octet 1"]


def test_ticks_are_counted_from_what_was_seen() -> None:
    clock = SimulatedClock()
    ticks = Ticks(clock)
    clock.sleep_until(10.3)
    ticks.learn(10.298, 10.302)
    assert ticks.take_passed() == 1
    clock.sleep_until(13.29)
    ticks.keep_clear()
    assert clock.now() > 13.3 and ticks.take_passed() == 3
    ticks.wait(2)
    assert 15.3 < clock.now() < 15.4 and ticks.take_passed() == 2


def test_a_period_is_learnt_no_nearer_than_it_was_seen() -> None:
    clock = SimulatedClock()
    ticks = Ticks(clock)
    ticks.learn(0.0, 0.004)
    for number in range(1, 101):
        clock.sleep_until(number * 1.001 + 0.01)
        ticks.take_passed()
    ticks.learn(100.1, 100.104)
    assert abs(ticks.period - 1.001) < 0.0001


def test_sequences_are_read_back() -> None:
    communities = (b"public", b"admin")
    asks = [get(HEIGHT), put((scalar("defaultPageOnTime"), integer(3)))]
    spelled = [ask.octets(70000 + at, communities) for at, ask in enumerate(asks)]
    steps = steps_of(",".join([spelled[0].hex(), "tick", spelled[1].hex(), "3000"]), communities)
    assert isinstance(steps[1], Wait) and steps[0].octets(70000, communities) == spelled[0]  # type: ignore[union-attr]
    octets = [step.octets(70001, communities) for step in steps[2:] if not isinstance(step, Wait)]
    assert octets == [spelled[1], b"\x30\0"]


def test_chapters_are_made_for_any_sign() -> None:
    bare = (
        b"size 1 1\ncommunities a b\nrows 0 0\norder swapped\nhas 0 0\ndefaults 0 0 0 0 9 2 2 0 0\nfirst 1\n"
        b"font 9 height 1 space 0 line 0 version 0000\nend\n"
    )
    sign = described(bare)
    context = Context(sign, (sign.reader, sign.writer), bench.ModelJudge(bare), requests=100, is_slow=True)
    for chapter in ALL:
        for block in chapter.blocks(context):
            assert all(step.rule == "" or step.rule in RULES for step in block.steps), block.name
            assert block.rule == "" or block.rule in RULES, block.name
    assert bench.run(bench.session(bare, requests=100, is_slow=True)).is_clean()


def test_no_case_is_too_long_for_a_way_that_loses_some() -> None:
    sign = described(text.BENCH)
    context = Context(sign, (sign.reader, sign.writer), bench.ModelJudge(text.BENCH))
    blocks = [block for chapter in ALL if not chapter.is_of_claims for block in chapter.blocks(context)]
    assert len(blocks) > 1000 and not [block.name for block in blocks if datagrams(block.steps) > _LONGEST]


def test_the_short_form_has_all_tests() -> None:
    files = (TOP / "python/tests/tester").glob("test_*.py")
    assert {f"tests.tester.{path.stem}" for path in files} == set(MODULES)


def test_each_mutant_is_one_edit_of_a_rule() -> None:
    assert len(MUTANTS) >= 80 and len({mutant.name for mutant in MUTANTS}) == len(MUTANTS)
    for mutant in MUTANTS:
        assert mutant.rule in RULES and edited(mutant)


def test_random_requests_are_the_same_for_a_seed() -> None:
    sign = described(text.BENCH)
    context = Context(sign, (sign.reader, sign.writer), bench.ModelJudge(text.BENCH), seed=5, requests=60)
    chapter = ALL[-1]
    for number in (1, 2):
        octets = [
            [step.octets(70000, context.communities) for step in block.steps if not isinstance(step, Wait)]
            for block in chapter.blocks(context)
        ]
        random.random()
        if number == 1:
            first = octets
    assert octets == first


def test_a_reply_with_other_names_is_named_by_its_request() -> None:
    asked = get(HEIGHT).octets(7, (b"public", b"admin"))
    other = wire.written(wire.Message(wire.RESPONSE, b"admin", 7, 0, 0, [(scalar("vmsSignWidthPixels"), integer(9))]))
    same = wire.written(wire.Message(wire.RESPONSE, b"admin", 7, 0, 0, [(HEIGHT, integer(9))]))
    differs = mismatch(same, other)
    assert differs is not None and differs.kind is Kind.BINDINGS
    assert rule_of(asked, same, other, differs).key == "get"
