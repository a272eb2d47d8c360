"""What may call itself, with the number that bounds how deep, and where that number stands."""

from __future__ import annotations

import pathlib
import re
from dataclasses import dataclass

Cycle = tuple[str, ...]
_MOST = 32  # a depth that is no small number is made a loop


@dataclass(frozen=True)
class Bound:
    """A cycle that may stay, or a part of it, where a compiler put one function into another. `depth` calls are open at
    most: `more` than `times` the number that `number` finds in `files`, or than the items of the longest list that it
    finds there. What is in `guards` stands once in its file."""

    cycle: Cycle
    depth: int
    why: str
    files: str = ""
    number: str = ""
    times: float = 1
    more: int = 1
    guards: tuple[tuple[str, str], ...] = ()

    def fault(self, top: pathlib.Path) -> str:
        """What is wrong with the row, by the sources; empty where nothing is."""
        if self.depth > _MOST:
            return f"a depth of {self.depth} is no small number: a loop is wanted"
        for file, text in self.guards:
            if plain((top / file).read_text(encoding="utf-8")).count(text) != 1:
                return f"{file} has not once the text `{text}`, by which its depth is bounded"
        if not self.files:
            return ""
        texts = [plain(path.read_text(encoding="utf-8")) for path in sorted(top.glob(self.files))]
        found = [one for text in texts for one in re.findall(self.number, text)]
        if not found:
            return f"{self.files} has nothing like {self.number}, from which its depth comes"
        greatest = max(int(one) if one.isdigit() else one.count("Wanted::") for one in found)
        depth = int(greatest * self.times) + self.more
        return f"its depth is {depth} by {self.files}, and the table says {self.depth}" if depth > self.depth else ""


def plain(text: str) -> str:
    """A text in which space of any kind is one space."""
    return " ".join(text.split())


FONTS = "crates/dms_face/src/face.rt", r"pub const MAX_FONTS: usize = (\d+);"
PAGES = "crates/dms_face/src/totals.rt", r"pub const MAX_PAGES: usize = (\d+);"
PAGES_HELD = "crates/dms_face_times/src/changing.rt", "let turn = turn_at(pages.as_slice(), tenth);"
_WHOLE = "crates/dms_sign_text_causes/src/whole.rt"
INTEGER = "crates/dms_wire_ber/src/integer.rt"

BOUNDS = (
    Bound(
        ("dms_face::face::have_own_numbers",),
        5,
        "a call for each font, once these are known to be at most four",
        *FONTS,
        guards=((FONTS[0], "fonts.len() <= MAX_FONTS && have_own_numbers(fonts)"),),
    ),
    Bound(
        ("dms_face_times::turns::round",),
        7,
        "a call for each page of a text, which has at most six, and one after the last",
        *PAGES,
        guards=(PAGES_HELD,),
    ),
    Bound(
        ("dms_face_times::turns::turn_from",),
        7,
        "a call for each page of a text, which has at most six, and one after the last",
        *PAGES,
        guards=(PAGES_HELD,),
    ),
    Bound(
        ("dms_sign_text_causes::whole::number_twice",),
        5,
        "a call for each font, once these are known to be at most four",
        *FONTS,
        guards=((_WHOLE, "if fonts.len() > MAX_FONTS { return Some(SignCause::FifthFont); } number_twice(fonts)"),),
    ),
    Bound(
        ("dms_sign_text_causes::whole::rows_cause",),
        17,
        "a call for each permanent row, once these are known to be at most sixteen",
        "crates/dms_codes/src/limits.rt",
        r"pub const MAX_PERMANENT: usize = (\d+);",
        guards=(
            (_WHOLE, "if permanent > MAX_PERMANENT { Some(SignCause::PermanentRows)"),
            (
                "crates/dms_sign_text/src/sign_reasons.rt",
                "counts_cause(permanent.len(), counts.changeable, counts.volatile) { return Some(cause); } rows_cause(",
            ),
        ),
    ),
    Bound(
        ("dms_device_fonts::next::first_row",),
        5,
        "a call for each font of a face, which has at most four, and one after the last",
        *FONTS,
        guards=(("crates/dms_device_fonts/src/fonts.rt", "let fonts = face.fonts();"),),
    ),
    Bound(
        ("dms_device_fonts::next::first_cell",),
        9,
        "a call for each column of a table, and one after the last",
        "crates/dms_device_fonts/src/reading.rt",
        r"FontTable::\w+ => (\d+),",
    ),
    Bound(
        ("dms_device_fonts::next::first_place",),
        6,
        "a call for each object of fonts, and one after the last",
        "crates/dms_device_fonts/src/next.rt",
        r"if number > (\d+) {",
    ),
    Bound(
        ("dms_device_fonts::steps::place_under",),
        12,
        "a call for each number of the fonts' node, and one after the last",
        "crates/dms_device_fonts/src/steps.rt",
        r"const NODE: \[u32; (\d+)\]",
    ),
    Bound(
        ("dms_text_forms::form::fault_from",),
        12,
        "a call for each word that the form of a line has; publish, of the events of a script, has most",
        "crates/*/src/*.rt",
        r"&\[( ?Wanted::[^\]]*)\]",
    ),
    Bound(
        ("dms_wire_ber::integer::put_number",),
        9,
        "a call for each octet of a number of 64 bits, and one where the highest is 128 or more",
        INTEGER,
        r"fn put_number\(out: &mut Out, number: u(\d+)\)",
        times=1 / 8,
    ),
    Bound(
        ("dms_wire_ber::integer::put_inverted",),
        9,
        "a call for each octet of a number of 64 bits, and one where the highest is 128 or more",
        INTEGER,
        r"fn put_inverted\(out: &mut Out, number: u(\d+)\)",
        times=1 / 8,
    ),
    Bound(
        ("dms_wire_ber::length::count_digits",),
        8,
        "a call for each octet of a number of 64 bits",
        guards=(("crates/dms_wire_ber/src/length.rt", "fn count_digits(number: usize) -> usize"),),
    ),
    *(
        Bound(
            cycle,
            3,
            "a call for each level of subcommands: the program has one, and its help beside them",
            guards=(("crates/signtool_cli/src/subcommands.rt", ".subcommand("),),
        )
        for cycle in (
            ("clap::builder::command::Command::depth",),
            ("clap::builder::command::building::build_levels",),
            ("clap::builder::command::building::name_each", "clap::builder::command::building::name_levels"),
            ("clap::clap++builder++command++Command+Destruct::drop",),
            ("clap::parser::globals::fill_in_global_values",),
            ("clap::parser::parse::Parser::get_matches_with",),
            ("clap::parser::parse::help_of",),
            ("signtool_cli::clap++builder++command++Command+Destruct::drop",),
            (
                "signtool_cli::clap++parser++matches++ArgMatches+Destruct::drop",
                "signtool_cli::clap++parser++matches++SubCommand+Destruct::drop",
            ),
        )
    ),
    Bound(
        ("std_collections::btree::node::Node::destroy",),
        20,
        "a call for each level of a tree that has five keys or more in each node but its first: "
        "2^44 keys have 20 levels",
    ),
)
