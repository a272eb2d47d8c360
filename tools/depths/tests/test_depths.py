"""What calls itself, as instructions, libraries and proofs show it."""

from __future__ import annotations

import json
import pathlib
from typing import Any

from depths import machine, sources
from depths.bounds import Bound
from depths.graphs import cycles

CODE = """
0000000000001000 <low::down>:
    1000:	push   %rbx
    1001:	je     1010 <low::down+0x10>
    1006:	call   1000 <low::down>
    1010:	ret

0000000000001020 <low::loop>:
    1020:	jmp    1020 <low::loop>

0000000000001030 <low::there>:
    1030:	call   1050 <low::back>
    1035:	jmp    1000 <low::down>

0000000000001050 <low::back>:
    1050:	jmp    1034 <low::there+0x4>

0000000000001060 <low::handed>:
    1060:	lea    0x10(%rip),%rax        # 1060 <low::handed>
    1067:	call   *%rax

0000000000001070 <low::kept>:
    1070:	call   *0x8(%rip)        # 2bf0 <malloc@GLIBC_2.2.5>
    1077:	call   *0x10(%rbx)
"""


def function(*named: Any) -> dict[str, Any]:
    return {"body": ["Seq", {"Call": list(named)}], "generics": {"impls": []}}


def test_a_cycle_is_found_whole_and_once() -> None:
    assert cycles({"a": {"b"}, "b": {"c"}, "c": {"b", "d"}, "d": {"d"}, "e": {"a"}}) == [("b", "c"), ("d",)]
    deep = {str(number): {str(number + 1)} for number in range(20_000)} | {"20000": {"0"}}
    assert len(cycles(deep)[0]) == 20_001


def test_a_call_in_a_cycle_takes_stack_and_a_jump_to_the_own_start_none() -> None:
    assert machine.read(CODE, "").deepening() == [
        (machine.ANY, "low::handed"),
        ("low::back", "low::there"),
        ("low::down",),
    ]


def test_a_function_whose_address_is_kept_may_be_called_by_any_call_by_address() -> None:
    kept = "0000000000002a28 R_X86_64_RELATIVE  *ABS*+0x0000000000001070\n"
    assert (machine.ANY, "low::handed", "low::kept") in machine.read(CODE, kept).deepening()


def test_the_kinds_of_a_generic_function_have_one_name() -> None:
    kinds = CODE.replace("low::back", "low::there::<#f262a4084ccbf4f6>")
    assert ("low::there",) in machine.read(kinds, "").deepening()


def test_libraries_have_calls_through_impls(tmp_path: pathlib.Path) -> None:
    made = tmp_path / "crates/low/out/rlib/low.rlib/toolchain/mir.json"
    made.parent.mkdir(parents=True)
    named = function({"Fn": ["low::walk", {}]}, {"Impl": ["low::ItemWalk", [], []]})
    named["generics"]["impls"] = [{"name": "low::ItemWalk", "methods": ["low::ItemWalk::step"]}]
    functions = [["low::walk", function()], ["low::ItemWalk::step", named], ["low::other", function()]]
    made.write_text(json.dumps(functions), encoding="utf-8")
    assert sources.in_libraries(tmp_path, ["low", "high"], tmp_path) == ([("low::ItemWalk::step",)], 1)


def test_a_method_that_is_the_trait_s_own_does_not_call_itself(tmp_path: pathlib.Path) -> None:
    made = tmp_path / "crates/low/out/rlib/low.rlib/toolchain/mir.json"
    made.parent.mkdir(parents=True)
    handed = function({"Fn": ["std::Walk::hint", {}]}, {"Impl": ["low::ItemWalk", [], []]})
    handed["generics"]["impls"] = [{"name": "low::ItemWalk", "methods": ["low::ItemWalk::hint"]}]
    made.write_text(json.dumps([["low::ItemWalk::hint", handed]]), encoding="utf-8")
    assert sources.in_libraries(tmp_path, ["low"], tmp_path) == ([], 1)


def test_measures_name_functions(tmp_path: pathlib.Path) -> None:
    (tmp_path / "crates/low/proofs/form/+fault_from").mkdir(parents=True)
    (tmp_path / "crates/low/proofs/+down").mkdir()
    assert sources.measured(tmp_path) == [("low::down",), ("low::form::fault_from",)]


def test_a_bound_is_looked_up(tmp_path: pathlib.Path) -> None:
    (tmp_path / "low.rt").write_text("const MOST: usize = 4;\nif n <= MOST\n    && down(n)\n", encoding="utf-8")
    guards = (("low.rt", "n <= MOST && down(n)"),)
    row = Bound(("low::down",), 5, "", "*.rt", r"MOST: usize = (\d+)", guards=guards)
    assert row.fault(tmp_path) == ""
    (tmp_path / "low.rt").write_text("const MOST: usize = 5;\nn <= MOST && down(n)", encoding="utf-8")
    assert "its depth is 6" in row.fault(tmp_path)
    (tmp_path / "low.rt").write_text("const MOST: usize = 4;\ndown(n)", encoding="utf-8")
    assert "has not once the text" in row.fault(tmp_path)
    assert "nothing like" in Bound(("low::down",), 5, "", "*.rt", r"LEAST: usize = (\d+)").fault(tmp_path)
    assert "no small number" in Bound(("low::down",), 33, "").fault(tmp_path)
