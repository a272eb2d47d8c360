"""Which texts a test sends: at the edges of tags and of the matrix, so many of so many, and in other chapters' rows."""

import pathlib
import sys
from collections import Counter

from model import text
from trials.wrong_signs import bench
from trials.wrong_signs.__main__ import BENCH, description_for
from trials.wrong_signs.load import Mutant, package_of, sign_of, unload
from trials.wrong_signs.table import FURTHER, MUTANTS
from wisangub.process.places import TOP
from wisangub.tester.chapters import ALL
from wisangub.tester.chapters.carrying import CHAPTERS, carried
from wisangub.tester.chapters.measured_texts import centred, exact, widths
from wisangub.tester.chapters.staying_texts import staying
from wisangub.tester.chapters.tag_texts import ends
from wisangub.tester.chapters.texts import known, more, samples
from wisangub.tester.chapters.tracing import texts_of
from wisangub.tester.context import Context
from wisangub.tester.report import words
from wisangub.tester.sign.described import described

SIGNS = [text.BENCH, *[(TOP / pathlib.Path("signs") / f"{name}.sign").read_bytes() for name in ("roadside", "gantry")]]


def context_of(description: bytes, texts: int | None = None) -> Context:
    sign = described(description)
    return Context(sign, (sign.reader, sign.writer), bench.ModelJudge(description), requests=0, texts=texts)


def test_parts_are_as_wide_as_the_matrix_and_one_column_wider() -> None:
    for description in SIGNS:
        context = context_of(description)
        held, width = widths(context), context.described.face.width
        for total, is_good in ((width, True), (width + 1, False)):
            found = held.text(total)
            assert found is not None and (context.fault(found) is None) is is_good, (width, found)
        faults = Counter(context.fault(sample.text) is not None for sample in exact(context))
        assert faults[True] >= 3 and faults[False] >= 3


def test_centred_parts_touch_where_the_free_columns_are_odd() -> None:
    for description in SIGNS:
        context = context_of(description)
        faults = [context.fault(sample.text) for sample in centred(context)]
        assert len(faults) >= 8 and faults.count(None) >= 4 and all(fault is None or fault[0] == 5 for fault in faults)


def test_each_tag_s_ends_are_there_by_themselves() -> None:
    found = {sample.text[sample.text.index(b"[") :]: sample for sample in ends(context_of(SIGNS[1]))}
    one = context_of(SIGNS[1]).character()
    for good in (b"[cb0]", b"[pb9]", b"[flo99]", b"[pt255]", b"[pto0]", b"[jl2]", b"[nl9]", b"[jp4]"):
        assert good + one in found and found[good + one].is_first, good
    for bad in (b"[cb10]", b"[flt100]", b"[jl1]", b"[jp5]", b"[nl10]", b"[pt256]", b"[fo0]", b"[fo256]", b"[hc10000]"):
        assert bad in found and found[bad].is_first, bad


def test_what_stays_is_judged_otherwise_where_it_is_lost() -> None:
    for description in SIGNS:
        found = [sample.text for sample in staying(context_of(description))]
        for begins in (b"[fo2][np]", b"[fo2][nl0]", b"[fo2][jl4]", b"[jl4][np]", b"[jl4][nl0]", b"[jp4][np]"):
            assert any(held.startswith(begins) for held in found), begins


def test_a_run_says_how_many_texts_of_how_many_it_sent() -> None:
    session = bench.session(text.BENCH, requests=0)
    session.context.texts = 12
    results = bench.run(session, ["validation"])
    assert len(results.texts) == 12 and results.texts_known == len(known(session.context)) > 200
    told = words.not_tested(session.context, results, ALL)
    assert f"{results.texts_known - 12} of {results.texts_known} texts: --texts all sends them" in told
    every = context_of(text.BENCH, texts=10**6)
    assert [sample.text for sample in samples(every)] == [sample.text for sample in known(every)] and not more(every)


def test_other_chapters_carry_texts_in_the_rows_that_they_validate() -> None:
    context = context_of(SIGNS[1])
    left = [part.text for sample in more(context) for part in sample.parts]
    assert left and all(len(sample.text) <= 200 and context.fault(sample.text) is None for sample in more(context))
    sent: list[bytes] = []
    supply = iter(more(context))
    for chapter in ALL:
        plain = list(chapter.blocks(context)) if chapter.name in CHAPTERS else []
        for block, before in zip(carried(context, plain, supply), plain):
            assert block.name == before.name and len(block.steps) == len(before.steps)
            if block.texts:
                assert block.plain == before and len(block.parts) == len(block.texts)
                assert texts_of(block) != texts_of(before) or not texts_of(before)
                sent += block.texts
    assert set(sent) == set(left)


def test_texts_with_a_fault_stand_behind_others_that_fit() -> None:
    for description in SIGNS:
        context = context_of(description)
        sent = samples(context)
        parts = [part for sample in sent for part in sample.parts or (sample,)]
        assert len({part.text for part in parts}) == len(parts) > 250, len(parts)
        faulty = [part for part in parts if context.fault(part.text) is not None]
        behind = [sample for sample in sent if sample.parts and context.fault(sample.text) is not None]
        assert len(sent) < len(faulty) + 12 and len(behind) > 30, (len(sent), len(faulty), len(behind))
        for sample in behind:
            (code, at), last = context.fault(sample.text) or (0, 0), sample.parts[0]
            assert sample.text.endswith(last.text) and not any(context.fault(held.text) for held in sample.parts[1:])
            assert context.fault(last.text) == (code, at - len(sample.text) + len(last.text))


def test_where_a_carried_text_differs_the_case_is_judged_without_it() -> None:
    name = "a_new_line_begins_with_the_default_font"
    wrong = sign_of([mutant for mutant in MUTANTS if mutant.name == name], text.BENCH)
    session = bench.session(text.BENCH, wrong, requests=0)
    session.context.texts = 0
    results = bench.run(session, ["rows"])
    assert session.is_text_wrong and {held.rule.chapter for held in results.differences()} == {"validation"}
    assert not results.unjudged() and results.chapters[0].blocks == results.chapters[0].wanted


def test_there_are_six_wrong_signs_of_each_group() -> None:
    groups = Counter(mutant.group for mutant in MUTANTS if mutant.group)
    assert len(groups) == 8 and set(groups.values()) == {6}
    further = Counter(mutant.group for mutant in FURTHER)
    assert len(further) == 8 and min(further.values()) >= 20 and sum(further.values()) == len(FURTHER) == 320
    assert len({mutant.name for mutant in [*MUTANTS, *FURTHER]}) == len(MUTANTS) + len(FURTHER)


def test_further_wrong_signs_that_lay_texts_out_are_told_by_the_texts_that_are_sent() -> None:
    """By the texts alone, of two sizes: `python3 -m trials.wrong_signs --further` has the whole test find them all.
    Those that forget what a default was set to are told under other defaults."""
    sent: dict[bytes, tuple[Context, dict[bytes, tuple[int, int] | None]]] = {}
    laying = [held for held in FURTHER if held.file == "layout.py" and held.size in (b"23 14", b"23 30")]
    for mutant in [held for held in laying if not held.name.endswith("_of_the_description")]:
        description = description_for(mutant, BENCH)
        if description not in sent:
            context = context_of(description)
            sent[description] = context, {sample.text: context.fault(sample.text) for sample in samples(context)}
        context, faults = sent[description]
        sign_of([mutant], description)
        layout, read = (sys.modules[f"{package_of([mutant])}.{name}"] for name in ("layout", "text"))
        face = read.described(description).face
        unload([mutant])
        told = (layout.laid_out(face, context.defaults, text)[1] != fault for text, fault in faults.items())
        assert any(told), mutant.name


def test_an_end_for_which_there_is_no_room_is_told_by_its_fault() -> None:
    old = "        number = decimal(rest, 0, 9) if rest else None\n"
    new = old.replace("0, 9", '0, 8 if kind == "nl" else 9')
    wrong = Mutant("new_lines_up_to_8", "markup code", "multi.py", old, new)
    session = bench.session(text.BENCH, sign_of([wrong], text.BENCH), requests=0, most_differences=1)
    found = bench.run(session, ["validation"]).differences()
    unload([wrong])
    assert [held.rule.key for held in found] == ["markup code"]
