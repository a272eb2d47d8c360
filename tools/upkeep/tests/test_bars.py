"""Each bar on a small tree: what it finds, and what it lets be."""

import pathlib
import re
from collections.abc import Callable

import pytest

from upkeep import code, crates, documents, drawing, rows, shipped, tools, words
from upkeep.bars import BARS, NOT_YET, Bar
from upkeep.tree import Tree

MakesTree = Callable[..., Tree]  # files by their names


@pytest.fixture
def made(tmp_path: pathlib.Path) -> MakesTree:
    """A tree of these files."""

    def tree(**texts: str) -> Tree:
        for name, text in texts.items():
            path = tmp_path / re.sub(r"_(md|py|txt|svg|rt)$", r".\1", name.replace("__", "/"))
            path.parent.mkdir(parents=True, exist_ok=True)
            path.write_text(text, encoding="utf-8")
        return Tree(tmp_path)

    return tree


def test_a_wide_line_of_prose_is_found(made: MakesTree) -> None:
    wide = "a " * 61
    tree = made(README_md=f"{wide}\n```\n{wide}\n```\n", other_md=f"```\n{wide}\n```\n{'b' * 130}\n{'c ' * 60}\n")
    assert documents.wide_lines(tree) == [f"README.md:{line}: 122 columns, 120 at most" for line in (1, 3)]


def test_a_row_of_a_table_may_be_wider(made: MakesTree) -> None:
    tree = made(page_md=f"| {'a' * 194} |\n| {'a' * 197} |\n```\n| {'a' * 300} |\n```\n")
    assert documents.wide_rows(tree) == ["page.md:2: a row of 201 columns, 200 at most"]
    assert documents.wide_lines(tree) == []


def test_a_page_that_is_too_long_is_found(made: MakesTree) -> None:
    tree = made(README_md="a\n" * 201, docs__MAP_md="a\n" * 200)
    assert documents.long_pages(tree) == ["README.md: 201 lines, 200 at most"]


def test_pages_have_2200_lines_together(made: MakesTree) -> None:
    tree = made(one_md="a\n" * 1_100, two_md="a\n" * 1_100)
    assert documents.long_pages(tree) == []
    more = made(docs__CAVEATS_md="a\n" * 41)
    assert documents.long_pages(more) == [
        "docs/CAVEATS.md: 41 lines, 40 at most",
        "all pages: 2241 lines, 2200 at most",
    ]


def test_a_link_that_leads_nowhere_is_found(made: MakesTree) -> None:
    tree = made(
        docs__one_md="# First part, `x`\n[a](two.md) [b](three.md) [c](#first-part-x) [d](#second) <x>\n",
        docs__two_md="[e](one.md#first-part-x) [f](one.md#no) ![g](picture.png) [h](https://nobody)\n",
    )
    assert documents.links(tree) == [
        "docs/one.md:2: no three.md",
        "docs/one.md:2: no heading #second in one.md",
        "docs/two.md:1: no heading #no in one.md",
        "docs/two.md:1: no picture.png",
    ]


def test_a_crate_that_a_page_does_not_name_is_found(made: MakesTree) -> None:
    pages = {"docs__ARCHITECTURE_md": "one two", "docs__MAP_md": "two", "docs__PROVED_md": "one_more two"}
    tree = made(crates_txt="# a comment\none: two\ntwo staticlib:\n", **pages)
    assert crates.names(tree) == ["one", "two"]
    assert crates.named(tree) == ["docs/MAP.md: one is not named", "docs/PROVED.md: one is not named"]


def test_pages_have_the_groups_of_the_list_in_its_order(made: MakesTree) -> None:
    listed = "# NAME: a sentence.\n\n## octets: one\n\n# words\none: two\n\n## both ends: two\n\ntwo:\n"
    table = "| **Octets**: one | |\n| **Both ends**: none | |\n"
    other = "## Both ends\none two\n## Octets\ntwo\n"
    heads = "# Page\n## Octets\none\n## Both ends\ntwo\n"
    tree = made(crates_txt=listed, docs__ARCHITECTURE_md=heads, docs__MAP_md=table, docs__PROVED_md=other)
    assert crates.groups(tree) == {"octets": ["one"], "both ends": ["two"]}
    assert crates.ordered(tree) == [
        "docs/MAP.md: two does not stand under both ends",
        "docs/PROVED.md: the groups are both ends, octets; in crates.txt they are octets, both ends",
        "docs/PROVED.md: one does not stand under octets",
    ]


def test_a_crate_owes_a_reason_to_be_small_an_example_and_words_of_its_calls(made: MakesTree) -> None:
    pages = {
        "crates__one__src__lib_rt": "//! A crate.\n//!\n//! ```\n//! call();\n//! ```\n",
        "docs__DECISIONS_md": "one is small",
    }
    code = "//! Another.\n\n/// Said.\npub fn said() {}\n\n    #[inline]\n    pub fn unsaid() {}\n\npub fn used() {}\n"
    tree = made(
        crates_txt="one: two\ntwo:\ntwo_tests: two\n",
        crates__two_tests__src__lib_rt="used();\n",
        crates__two__src__lib_rt=code,
        **pages,
    )
    assert crates.few(tree) == ["two: 3 functions, and docs/DECISIONS.md has no reason for it"]
    assert crates.examples(tree) == ["crates/two/src/lib.rt: no example on the crate's first page"]
    assert crates.unsaid(tree) == ["crates/two/src/lib.rt: nothing uses, names or documents unsaid"]


def test_a_second_path_to_a_name_is_found(made: MakesTree) -> None:
    modules = "pub mod meant;\npub mod kept;\npub mod open;\nmod shut;\n"
    page = f"{modules}\npub use kept::A;\npub use open::{{B, C}};\npub use shut::D;\n"
    tree = made(
        crates_txt="one:\n", crates__one__src__lib_rt=page, tools__upkeep__older_paths_txt="# Kept.\none::kept\n"
    )
    assert crates.paths(tree) == [
        "crates/one/src/lib.rt: two paths lead to the names of open, "
        "and tools/upkeep/older_paths.txt does not have this one"
    ]


def test_a_crate_that_is_too_large_is_found(made: MakesTree) -> None:
    texts = {
        "crates__one__src__lib_rt": "fn called() {}\n" * 130 + "// a line\n" * 1000,
        "crates__one__src__more_rt": "// a line\n" * 870,
        "crates__two__src__lib_rt": "fn called() {}\n" * 60,
        "crates__two__src__more_rt": "fn called() {}\n" * 71 + "// a line\n" * 1400,
    }
    tree = made(crates_txt="one:\ntwo:\n", crates__one__specs__Lib_rt="a\n" * 2000, **texts)
    assert crates.large(tree) == ["two: 131 functions, 130 at most"]
    longer = made(**{**texts, "crates__one__src__more_rt": "// a line\n" * 871})
    assert crates.large(longer) == ["one: 2,001 lines of code, 2,000 at most", "two: 131 functions, 130 at most"]


LISTED = "## low: first\nfirst:\nsecond: first\n## high: third\nthird: first second other\nthird_tests: third\n"


def test_a_crate_that_others_bring_is_not_drawn_below(made: MakesTree) -> None:
    tree = made(crates_txt=LISTED)
    assert drawing.nearest(tree)["third"] == {"second"}
    assert "third -> second;" in drawing.as_dot(tree)
    assert "third_tests" not in drawing.as_dot(tree)


def test_a_drawing_of_other_crates_is_found(made: MakesTree) -> None:
    titles = (
        "<title>first</title><title>second</title><title>second&#45;&gt;first</title><title>third-&gt;first</title>"
    )
    tree = made(crates_txt=LISTED, docs__pictures__houses_svg=titles)
    assert [line.split(" (")[0].removeprefix("docs/pictures/houses.svg: ") for line in drawing.drawn(tree)] == [
        "no crate third",
        "no line third to second",
        "a line third to first",
    ]


def test_a_file_that_octets_pass_no_more_is_found(made: MakesTree) -> None:
    passed = "- room/send.py -> first way.rt and\n  far/end.rt -> second gone.rt\n"
    page = f"### File by file\n\n{passed}\n## More\n\nother.rt\n"
    texts = {"crates__first__src__way_rt": "", "crates__first__src__far__end_rt": "", "crates__second__src__lib_rt": ""}
    tree = made(**texts, crates_txt=LISTED, docs__ARCHITECTURE_md=f"# Crates\n\n{page}")
    assert drawing.passed(tree) == [
        "docs/ARCHITECTURE.md: there is no python/wisangub/room/send.py",
        "docs/ARCHITECTURE.md: there is no crates/second/src/gone.rt",
    ]
    assert drawing.passed(made(docs__ARCHITECTURE_md="# Crates\n")) == [
        "docs/ARCHITECTURE.md: no section `### File by file`"
    ]


def test_an_option_without_help_is_found(made: MakesTree) -> None:
    lines = ('parser.add_argument("--told", help="what it does")', 'parser.add_argument(\n    "--port", type=int)')
    tree = made(tools__one_py="\n".join(lines) + "\n", tools__other_py="pass\n")
    assert tools.has_words(tree) == ["tools/one.py:2: --port has no help"]


def test_a_tool_is_listed_can_be_called_and_has_a_help(made: MakesTree, tmp_path: pathlib.Path) -> None:
    script = "#!/usr/bin/env python3\n"
    texts = {"tools__first_py": f"{script}argparse.ArgumentParser()\n", "tools__second_py": script}
    tree = made(
        **texts,
        tools__part_py="x = 1\n",
        tools__folder__third_py=script,
        CONTRIBUTING_md="`tools/first.py` and other_tools/second.py",
    )
    (tmp_path / "tools/first.py").chmod(0o755)
    assert tools.scripts(tree) == ["tools/first.py", "tools/second.py"]
    assert tools.in_list(tree) == ["CONTRIBUTING.md: tools/second.py is not in the list of tools"]
    assert tools.has_help(tree) == ["tools/second.py: --help is not read"]
    assert tools.executable(tree) == ["tools/second.py: not executable"]


def test_what_is_put_off_or_gone_is_found(made: MakesTree) -> None:
    later = "TO" "DO"
    tree = made(
        tools__a_py=f"# {later}: more\n# {later}S is another word\n",
        page_md="`tools/a.py`, tools/b.py, `crates/x/out/y`, tools/*.sh, a/tools/c.py, docs/NNN.md, tools/.\n",
    )
    assert words.put_off(tree) == [f"tools/a.py:1: {later}"]
    assert words.gone(tree) == ["page.md:1: there is no tools/b.py"]


def test_what_is_left_for_later_is_found_with_all(made: MakesTree) -> None:
    bar = Bar("two", lambda tree: ["docs/MAP.md: one", "README.md: two"], ("docs/MAP.md",))
    assert bar.findings(made()) == ["README.md: two"]
    assert bar.findings(made(), is_all=True) == ["docs/MAP.md: one", "README.md: two"]


def test_nothing_that_holds_is_left_for_later() -> None:
    tree = Tree(pathlib.Path(__file__).resolve().parents[3])
    for bar in BARS:
        found = bar.look(tree)
        for page in bar.later:
            assert any(line.startswith(page) for line in found), f"{bar.name}: {page} holds, and can be looked at"


ROWS = r"""/// A table.
pub static TABLE: [(&str, u8); 5] = [
    // one
    (
        "HEX",
        "HEX",
    ),
    (
        "HEX",
        1,
    ),
    ("30", 2),
    ("HEX", 3),
    // five
    ("HEX", 4),
];

/// A list.
pub static LIST: [&[u8]; 2] = [
    // one
    b"ESCAPES",
    b"ESCAPES",
];

/// A row.
pub const ROW: &str =
    "HEX";

pub const OTHER: &str = "HEX";

/// A script.
pub const SCRIPT: &str = "\
# what is asked, in two lines
# of words: what is answered
> HEX
< HEX
tick 1
> HEX
< HEX";
""".replace(
    "HEX", "302e02010004067075626c6963"
).replace(
    "ESCAPES", r"\x30" * 8
)


def test_rows_of_hexadecimal(made: MakesTree) -> None:
    tree = made()
    tree.names = [name := "crates/some_tests/src/some/cases.rt", other := "crates/some/src/some/cases.rt"]
    tree.read = {name: ROWS, other: ROWS}
    wanted = [f"{name}:{line}: a row without words before it" for line in (9, 13, 22, 29, 38, 39)]
    assert rows.without_words(tree) == wanted


CODE = """\
//! LONG
pub static ROWS: [(&str, u8); 2] = [
    // a row of data: LONG"
    ("short", 1),
    (
        "decode LONG",
        r#"{"a":"b"} LONG
LONG
# LONG
"#,
        *b"\\x30\\" LONG",
        0, // LONG
    ),
    ("LONG", 1),
];
pub const TEXT: &str = "\\
LONG
> LONG";
""".replace(
    "LONG", "long " * 30
)


def test_lines_of_code(made: MakesTree) -> None:
    tree = made()
    names = ["crates/some_tests/src/some/cases.rt", "crates/some/src/cases.rt", "crates/some/specs/Some.antt"]
    tree.names = [*names, "crates/some/proofs/Some.antt"]
    tree.read = {name: CODE for name in tree.names}
    everywhere = (1, 3, 6, 7, 8, 9, 11, 12, 14, 17, 18)
    wanted = [(names[0], (1, 3, 9, 12, 14)), (names[1], everywhere), (names[2], everywhere)]
    found = [line.split(" columns")[0].rsplit(": ", 1)[0] for line in code.wide(tree)]
    assert found == [f"{name}:{number}" for name, numbers in wanted for number in numbers]


def test_bars_that_do_not_hold_yet() -> None:
    assert {bar.name for bar in NOT_YET}.isdisjoint(bar.name for bar in BARS)


def test_what_is_shipped(made: MakesTree) -> None:
    good = "import os\nimport aiohttp\nfrom . import model\nfrom wisangub.snmp import wire\n"
    tree = made(
        python__wisangub__one_py=good + "def late() -> None:\n    from model.sign import Sign\n",
        python__wisangub__room__two_py="import trials.room\nimport requests, tools\n",
        python__tests__three_py="import model\n",
    )
    assert shipped.alone(tree) == [
        f"python/wisangub/{place}: imports {word}, which is not shipped"
        for place, word in (("one.py:6", "model"), ("room/two.py:1", "trials"), ("room/two.py:2", "requests"))
    ] + ["python/wisangub/room/two.py:2: imports tools, which is not shipped"]
