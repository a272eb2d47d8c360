"""A load waits where its octets are those of several stores just before it, or of a store in part."""

import pathlib
import shutil
import subprocess
from collections import Counter

import pytest
import stalls
from stalls import Functions, Traced

needs_compiler = pytest.mark.skipif(shutil.which("cc") is None, reason="a C compiler is not here")


@pytest.fixture(scope="module")
def program(tmp_path_factory: pytest.TempPathFactory) -> pathlib.Path:
    return stalls.compiled(str(tmp_path_factory.mktemp("stalls")))


def waits(program: pathlib.Path, *accesses: str, between: int = 0) -> list[tuple[int, int]]:
    """The loads that wait, and for which store: each access is of an instruction of its own, from 1."""
    lines = [f"I  {at:x},4\n {access}" for at, access in enumerate(accesses, 1)]
    lines[1:1] = ["I  fff,4"] * between
    ran = subprocess.run([program, "64"], input="\n".join(lines) + "\n", capture_output=True, text=True, check=True)
    return sorted(stalls.read(ran.stdout).waits)


@needs_compiler
def test_a_load_of_two_stores_waits_for_the_last(program: pathlib.Path) -> None:
    assert waits(program, "S 1000,8", "S 1008,8", "L 1000,16") == [(3, 2)]


@needs_compiler
def test_a_load_of_a_store_and_of_what_was_there_waits(program: pathlib.Path) -> None:
    assert waits(program, "S 1000,1", "L 1000,8") == [(2, 1)]


@needs_compiler
@pytest.mark.parametrize("load", ["L 1000,8", "L 1004,4", "L 1003,1", "L 1010,8"])
def test_a_load_inside_one_store_or_of_none_does_not_wait(program: pathlib.Path, load: str) -> None:
    assert not waits(program, "S 1000,8", load)


@needs_compiler
def test_a_load_waits_for_no_store_that_is_long_ago(program: pathlib.Path) -> None:
    assert waits(program, "S 1000,1", "L 1000,8", between=60) == [(2, 1)]
    assert not waits(program, "S 1000,1", "L 1000,8", between=70)


@needs_compiler
def test_what_loads_and_stores_does_both(program: pathlib.Path) -> None:
    assert waits(program, "S 1000,1", "M 1000,4", "L 1000,8") == [(2, 1), (3, 2)]


def test_a_call_has_what_twice_as_many_have_more() -> None:
    once = Traced(1000, Counter({(1, 2): 10, (3, 4): 5}))
    twice = Traced(1600, Counter({(1, 2): 20, (3, 4): 5, (5, 6): 30}))
    assert stalls.a_call(10, once, twice) == (60, [(3, (5, 6)), (1, (1, 2))])


def test_an_instruction_stands_in_the_function_before_it() -> None:
    functions = Functions("0000000000001000 T first\n0000000000001100 t second\n0000000000002000 D data\n")
    assert functions.place(0x10912F) == "second+2f"
    assert functions.place(0x109004) == "first+4"
    assert functions.place(0x4A00000).startswith("a library's")


def test_the_table_begins_with_the_sum() -> None:
    functions = Functions("0000000000001000 T first\n")
    assert stalls.table(60, [(3, (0x109001, 0x109000)), (0.5, (0x109003, 0x109002))], functions) == [
        "3.50 waits in 60 instructions",
        "3.00  first+1 waits for first+0",
        "0.50  first+3 waits for first+2",
    ]
