"""The Rattle that is made of the table of objects, for tools/objects.py: types, rows, and the matches of numbers."""

from __future__ import annotations

import re
import textwrap
from collections.abc import Callable, Iterable

from mib_table.table import Object

OBJECTS, SCALAR, COLUMN = (f"crates/dms_mib/src/{name}.rt" for name in ("objects", "scalar", "column"))
OCTETS = "crates/dms_mib_instances/src/octets.rt"
_LIMITS = {"longest_text": "MAX_TEXT as u16", "longest_owner": "MAX_OWNER as u16"}
_BETWEEN_WORDS = re.compile(r"(?<=[a-z])(?=[A-Z])")


def commented(said: str, indent: int) -> str:
    """A comment of documentation, before what it is about."""
    begin = " " * indent + "/// "
    return textwrap.fill(said, 120, initial_indent=begin, subsequent_indent=begin, break_on_hyphens=False)


def first_sentence(said: str) -> str:
    return re.split(r"(?<=\.) ", said.replace(" (own)", ""))[0].rstrip(".")


def _syntax(row: Object) -> str:
    """A row's syntax as the code writes it."""
    values = ", ".join(_LIMITS.get(word, word) for word in row.syntax.words)
    return f"Syntax::{row.syntax.kind}({values})" if values else f"Syntax::{row.syntax.kind}"


def enum(name: str, said: str, rows: Iterable[Object]) -> str:
    """A type whose values are these objects."""
    variants = "\n".join(
        f"{commented(f'{row.name}: {first_sentence(row.said)}', 4)}\n    {row.variant}," for row in rows
    )
    return f"""\
{commented(said, 0)}
#[derive(Clone, Copy, Debug, PartialEq, Eq)]
pub enum {name} {{
{variants}
}}"""


def _method(name: str, said: str, result: str, clause: str, inline: bool, arms: Iterable[str]) -> str:
    lines = "\n".join(f"            {arm}," for arm in arms)
    return f"""\
{commented(said, 4)}
{"    #[inline]" + chr(10) if inline else ""}\
    pub fn {name}(self) -> {result}
        ensures {{ result ≡ {clause} }}
    {{
        match self {{
{lines}
        }}
    }}"""


def _arms(of: str, rows: Iterable[Object], value: Callable[[Object], str]) -> list[str]:
    return [f"{of}::{row.variant} => {value(row)}" for row in rows]


def _table(rows: list[Object]) -> str:
    """OBJECTS, with each row."""

    def entry(row: Object) -> str:
        which = f"EachRow(Column::{row.variant})" if row.is_column else f"One(Scalar::{row.variant})"
        return f"""\
    (
        "{row.name}",
        Object {{
            group: Group::{row.node},
            number: {row.number},
            access: Access::{row.access},
            syntax: {_syntax(row)},
            instances: Instances::{which},
        }},
    ),"""

    entries = "\n".join(map(entry, rows))
    return f"""\
/// Each object with the name that the MIB has, in the order of names.
pub const OBJECTS: [(&str, Object); {len(rows)}] = [
{entries}
];"""


def impl(name: str, methods: Iterable[str]) -> str:
    return f"impl {name} {{\n" + "\n\n".join(methods) + "\n}"


def _scalar(rows: list[Object]) -> str:
    """The type of objects that have one instance, and what their rows say."""
    of = [row for row in rows if not row.is_column]
    numbers = _method(
        "number",
        "The object's number below dms: its group, and its number there.",
        "(u8, u8)",
        "scalar_number self",
        False,
        _arms("Scalar", of, lambda row: f"({row.place}, {row.number})"),
    )
    access = _method(
        "max_access",
        "What a manager may do with the object.",
        "Access",
        "(scalar_row self).access",
        True,
        _arms("Scalar", of, lambda row: f"Access::{row.access}"),
    )
    syntax = _method(
        "value_syntax",
        "The type of the object's values, and their range.",
        "Syntax",
        "(scalar_row self).syntax",
        True,
        _arms("Scalar", of, _syntax),
    )
    said = "An object that has one instance, in the order of names."
    return enum("Scalar", said, of) + "\n\n" + impl("Scalar", [numbers, access, syntax])


def _column(rows: list[Object]) -> str:
    """The type of columns, and what their rows say."""
    of = [row for row in rows if row.is_column]
    numbers = _method(
        "number",
        f"The column's number in dmsMessageEntry, {of[0].number} to {of[-1].number}.",
        "u8",
        "column_number self",
        False,
        _arms("Column", of, lambda row: str(row.number)),
    )
    access = _method(
        "max_access",
        "What a manager may do with the column's cells, in the rows that can be written.",
        "Access",
        "(column_row self).access",
        True,
        _arms("Column", of, lambda row: f"Access::{row.access}"),
    )
    return enum("Column", "A column of dmsMessageTable.", of) + "\n\n" + impl("Column", [numbers, access])


# ---- the matches of numbers


def _function(head: str, said: str, clauses: Iterable[str], matched: str, arms: Iterable[str]) -> str:
    ensures = "\n".join(f"    ensures {clause}" for clause in clauses)
    lines = "\n".join(f"        {arm}," for arm in arms)
    return f"""\
{commented(said, 0)}
#[inline]
{head}
{ensures}
{{
    match {matched} {{
{lines}
    }}
}}"""


def _of_group(node: str) -> str:
    """The function that finds the objects of a group, "vms_object" of VmsCfg."""
    words = [word.lower() for word in _BETWEEN_WORDS.split(node)]
    return "_".join([*(word for word in words if word not in ("dms", "cfg", "sign")), "object"])


def _group(node: str, rows: list[Object]) -> str:
    return _function(
        f"fn {_of_group(node)}(number: u8) -> Option<Scalar>",
        f"The object of this number in {node[0].lower()}{node[1:]}, group {rows[0].place}.",
        [
            f"named {{ IfSome result (λ s. scalar_number s ≡ ({rows[0].place}, number)) }}",
            f"found {{ result ≡ scalar_at {rows[0].place} number }}",
        ],
        "number",
        [*(f"{row.number} => Some(Scalar::{row.variant})" for row in rows), "_ => None"],
    )


def _matches(rows: list[Object]) -> str:
    """Which column and which object has a number, and the last number of a group."""
    columns = [row for row in rows if row.is_column]
    groups: dict[str, list[Object]] = {}
    for row in rows:
        if not row.is_column:
            groups.setdefault(row.node, []).append(row)
    column_of = _function(
        "pub(crate) fn column_of(number: u8) -> Option<Column>",
        "The column of this number.",
        ["named { IfSome result (λ c. column_number c ≡ number) }", "found { result ≡ column_at number }"],
        "number",
        [*(f"{row.number} => Some(Column::{row.variant})" for row in columns), "_ => None"],
    )
    scalar_of = _function(
        "pub(crate) fn scalar_of(group: u8, number: u8) -> Option<Scalar>",
        "The object of this number in this group.",
        [
            "named { IfSome result (λ s. scalar_number s ≡ (group, number)) }",
            "found { result ≡ scalar_at group number }",
        ],
        "group",
        [*(f"{of[0].place} => {_of_group(node)}(number)" for node, of in groups.items()), "_ => None"],
    )
    last = _function(
        "pub(crate) fn last_object(group: u8) -> u8",
        "The last number of an object in a group.",
        ["{ (object : Scalar) → (scalar_number object).0 ≡ group → (scalar_number object).1 ≤ result }"],
        "group",
        [*(f"{of[0].place} => {of[-1].number}" for of in groups.values()), "_ => 0"],
    )
    return "\n\n".join([column_of, scalar_of, *(_group(node, of) for node, of in groups.items()), last])


CODE: tuple[tuple[str, Callable[[list[Object]], str]], ...] = (
    (OBJECTS, _table),
    (SCALAR, _scalar),
    (COLUMN, _column),
    (OCTETS, _matches),
)
