"""What a check says of an edit, as tools/try_edits.py hears it."""

import pathlib

import pytest

from tries.groups import groups
from tries.said import Said, heard
from upkeep.edits import edits_of

CRATE, FUNCTION = "dms_face", "dms_face::checking::check_with"
RENAMED = (
    "./proofs/checking/check_with/Answers.antt:16:1: error: `then-gt` is no name that rattle asks for in `Answers`"
)
REFUSED = (
    "./proofs/checking/check_with/Answers.antt:9:5: error: `returns`: computed as far as they go, the two types differ"
)
OPEN = (
    f"fn {FUNCTION}: no proof: expected answers in ./proofs/checking/check_with/Answers.antt; "
    "`search` did not prove `then-ge`"
)
OF_A_NEIGHBOUR = (
    "fn dms_face::checking::check: no proof: expected answers in ./Answers.antt; `search` did not prove `returns`"
)
PROVED = f"fn {FUNCTION}: no holes"
LAST = "holes=0"


def said(*lines: str, status: int = 1) -> Said:
    return heard(CRATE, status, "\n".join([*lines, LAST]))


def test_an_open_goal_refuses_an_edit() -> None:
    assert said(OPEN, OF_A_NEIGHBOUR).goals_of({FUNCTION}) == ["check_with: then-ge"]
    assert said(REFUSED, f"fn {FUNCTION}: not proved; it stands on `Answers.returns`").goals_of({FUNCTION})
    assert not said(OPEN).is_odd


def test_a_goal_of_a_neighbour_says_nothing() -> None:
    assert said(PROVED, OF_A_NEIGHBOUR).goals_of({FUNCTION}) == []


def test_a_goal_beside_a_proof_file_that_does_not_read_says_nothing() -> None:
    assert said(RENAMED, OPEN).goals_of({FUNCTION}) == []
    assert said(RENAMED, OPEN).is_odd


def test_a_goal_at_which_a_limit_was_met_says_nothing() -> None:
    line = (
        REFUSED.partition("`returns`")[0]
        + "`returns`: antt ran out of the steps that the check of one declaration may take"
    )
    assert said(line, f"fn {FUNCTION}: not proved").goals_of({FUNCTION}) == []


def test_a_goal_of_a_closure_is_that_of_its_function() -> None:
    closure = "fn dms_face::checking::fn::check_with::some: no proof: expected answers in ./A.antt"
    closure += "; `search` did not prove `call`"
    assert said(closure).goals_of({FUNCTION}) == ["check_with: call"]


@pytest.mark.parametrize(
    "line, status",
    [
        (PROVED, -9),
        (PROVED, 2),
        (PROVED, 3),
        (f"fn {FUNCTION}: could not tell: antt ran out of memory", 1),
        ("note: antt ran out of memory", 1),
        ("antt: outgrew the memory limit (1 GB)", 1),
    ],
)
def test_a_check_that_was_ended_or_met_a_limit_tells_nothing(line: str, status: int) -> None:
    found = said(line, OPEN, status=status)
    assert found.unknown and found.is_odd


@pytest.mark.parametrize(
    "line",
    [
        "src/checking.rt:4:1: error[mismatched-types]: expected `u8`",
        "src/checking.rt:4:1: error: `ensures-1`: `≡` is not in scope",
        "./specs/Fit.antt:4:1: error: expected the end of the line",
    ],
)
def test_a_text_that_does_not_read_is_told(line: str) -> None:
    assert said(line, OPEN).bad == line


def test_a_lemma_is_no_goal_of_a_function() -> None:
    found = said("./proofs/Remainders.antt:17:12: error: as printed, the two types differ", PROVED)
    assert found.lemmas == ["Remainders: as printed, the two types differ"] and not found.is_odd
    assert found.goals_of({FUNCTION}) == []


def test_a_check_that_does_not_come_to_its_end_is_told() -> None:
    assert heard(CRATE, 1, OPEN).bad == "the check did not come to its end"


def test_edits_go_together_where_none_makes_a_text_twice(tmp_path: pathlib.Path) -> None:
    crate = tmp_path / "dms_one"
    (crate / "src").mkdir(parents=True)
    code = 'fn one() {\n    first();\n}\n\npub extern "C" fn two() {\n    second();\n}\n'
    (crate / "src/lib.rt").write_text(code, encoding="utf-8")
    (crate / "must-fail").mkdir()
    for name, old, new in (("a", "first", "second"), ("b", "second", "third"), ("c", "second", "first")):
        edit = f"file: src/lib.rt\nold: {old}();\nnew: {new}();\n"
        (crate / f"must-fail/{name}.edit").write_text(edit, encoding="utf-8")
    edits = edits_of(crate)
    assert [edit.functions for edit in edits] == [{"dms_one::one"}, {"dms_one::two"}, {"dms_one::two"}]
    assert [[edit.name for edit in group] for group in groups(edits)] == [
        ["must-fail/a"],
        ["must-fail/b"],
        ["must-fail/c"],
    ]
