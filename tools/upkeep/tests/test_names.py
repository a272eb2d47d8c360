"""Names that a wrong body has and its file does not, planted in a small tree."""

import pathlib

import pytest

from upkeep import wrong
from upkeep.crates import used
from upkeep.tree import Tree

LOW = "pub enum Order { High, Low }\n\npub fn lowest() -> Order {\n    Order::Low\n}\n"
CODE = """//! A crate, which names `Hidden` and Unsaid here alone.
use low::{lowest, Order};
use low::Twice as Once;

const MOST: u8 = 3; // as Told says
const WORDS: &str = "Spoken";

pub enum Kind<'a> {
    One(&'a u8),
    Two,
}

impl Kind<'_> {
    pub fn number<A: Alloc>(self, alloc: A, of: fn(u8) -> u8) -> u8 {
        match self {
            Kind::One(n) => of(*n),
            Kind::Two => high::Beside::MOST,
        }
    }
}

pub fn first(n: u8) -> u8 {
    if n > MOST { 0 } else { 1 }
}
"""
PLACE = "if n > MOST { 0 } else { 1 }"


@pytest.fixture(name="top")
def top_of(tmp_path: pathlib.Path) -> pathlib.Path:
    put(tmp_path, "crates.txt", "# low: words\nlow:\nhigh: low hex # of the kit\n")
    put(tmp_path, "crates/low/src/lib.rt", LOW)
    put(tmp_path, "crates/high/src/lib.rt", CODE)
    return tmp_path


def put(top: pathlib.Path, name: str, text: str) -> None:
    (top / name).parent.mkdir(parents=True, exist_ok=True)
    (top / name).write_text(text, encoding="utf-8")


def named(top: pathlib.Path, *pairs: tuple[str, str]) -> list[str]:
    """What is said of an edit."""
    lines = "".join(f"file: src/lib.rt\nold: {old}\nnew: {new}\n" for old, new in pairs)
    put(top, "crates/high/must-fail/planted.edit", lines)
    begin, end = "high/must-fail/planted: names ", ", which its file does not"
    found = wrong.read(Tree(top))
    assert all(line.startswith(begin) and line.endswith(end) for line in found), found
    return [line[len(begin) : -len(end)] for line in found]


def test_what_a_crate_stands_on_is_of_its_line() -> None:
    assert used("# a: b\n\none:\ntwo staticlib: one hex # clap\n") == {"one": [], "two": ["one", "hex"]}


@pytest.mark.parametrize(
    "new",
    [
        "if n > MOST { 0 } else { n }",
        "match lowest() { Order::High => 1, Order::Low => 0 }",
        "if Kind::Two.number(n, first) > 0 { 1 } else { 0 }",
        "low::Order::Never as u8",  # whether that crate has it is not looked at
        "hex::decode(n).unwrap_or(Vec::new(n)).len() as u8",
        "Some(n).map_or(0, |m| u8::MAX - m)",
        "Once::new(n).Field.called(Self::MOST, crate::first(n))",
        "{ const LEAST: u8 = 1; let found = |m: u8| m; fn more<T>(x: T) -> T { x } found(more(LEAST)) }",
        "{ use low::Other; Other::new(n) }",
        "n // Strange::Name of(this)",
        "if b'N' == n && \"Name of(n)\".len() > 1 { 1 } else { 0 }",
        "if (n > 1) { return (0) } else { 1 }",
    ],
)
def test_what_a_file_has_is_not_named(top: pathlib.Path, new: str) -> None:
    assert named(top, (PLACE, new)) == []


@pytest.mark.parametrize(
    "new, names",
    [
        ("Vector::new(n)", ["Vector"]),
        ("LEAST + n", ["LEAST"]),
        ("if n > LEAST { LEAST } else { Least::of(n) }", ["LEAST", "Least"]),
        ("One(n).number()", ["One"]),  # behind its enum's name alone
        ("Beside::MOST", ["Beside"]),  # behind another crate's
        ("middle::lowest()", ["middle"]),
        ("low::lowest(Never)", ["Never"]),
        ("decode(n)", ["decode"]),
        ("Hidden::new(n) + Unsaid + Told + Spoken", ["Hidden", "Unsaid", "Told", "Spoken"]),  # in words alone
    ],
)
def test_what_a_file_does_not_have_is_named(top: pathlib.Path, new: str, names: list[str]) -> None:
    assert named(top, (PLACE, new)) == names


def test_a_part_of_a_name_is_what_it_makes(top: pathlib.Path) -> None:
    assert named(top, ("Kind::Two => high", "Kind::Three => high")) == []  # a check tells whether there is one
    assert named(top, ("Two => high", "Three => high")) == []
    assert named(top, ("MOST {", "LEAST {")) == ["LEAST"]
    assert named(top, ("OST { 0", "UCH { 0")) == ["MUCH"]
    assert named(top, ("high::Beside", "low")) == []
    assert named(top, ("high::Beside", "lower")) == ["lower"]


def test_cases_of_an_enum_are_its_own(top: pathlib.Path) -> None:
    assert named(top, ("    Two,", "    Two, Three(u8),")) == []
    assert named(top, ("    One(&'a u8),", "    Three,")) == []


def test_what_another_pair_brings_is_there(top: pathlib.Path) -> None:
    assert named(top, (PLACE, "Other::new(n) + second(n)")) == ["Other", "second"]
    more = ("use low::{lowest, Order};", "use low::{lowest, Order, Other};")
    function = ("pub fn first", "fn second(n: u8) -> u8 { n } pub fn first")
    assert named(top, (PLACE, "Other::new(n) + second(n)"), more, function) == []
    assert named(top, (PLACE, "Other::new(n)"), ("MOST: u8 = 3;", "MOST: u8 = Other::MOST;")) == ["Other"]


def test_what_cannot_be_applied_is_no_matter_of_names(top: pathlib.Path) -> None:
    put(top, "crates/high/must-fail/planted.edit", "file: src/lib.rt\nold: Gone\nnew: Strange\n")
    assert wrong.read(Tree(top)) == ["crates/high/must-fail/planted.edit: `Gone` stands 0 times in lib.rt"]
