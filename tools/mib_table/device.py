"""The objects beside a sign's as two MIB modules have them, for tools/objects.py."""

from __future__ import annotations

import pathlib
import sys
import textwrap

TOP = pathlib.Path(__file__).resolve().parents[2]
sys.path.append(str(TOP / "python"))  # where the package is


from wisangub.objects.known import KNOWN, By, Known  # noqa: E402
from wisangub.snmp import wire  # noqa: E402
from wisangub.snmp.names import TYPES  # noqa: E402

_WIDTH = 120
_TABLES = {
    "moduleTableEntry": ("globalModuleTable", "globalConfiguration", 3, "ModuleTableEntry", ("moduleNumber",)),
    "fontEntry": ("fontTable", "fontDefinition", 2, "FontEntry", ("fontIndex",)),
    "characterEntry": ("characterTable", "fontDefinition", 4, "CharacterEntry", ("fontIndex", "characterNumber")),
}
_SAID = {
    "globalModuleTable": "What the machine is made of.",
    "fontTable": "The fonts of the sign, in the order of its description.",
    "characterTable": "The characters of each font.",
}
_PLAIN = {wire.COUNTER: "Counter", wire.TICKS: "TimeTicks", wire.NAME: "OBJECT IDENTIFIER"}


def _wrapped(text: str, begin: str, spaces: int = 8) -> str:
    return textwrap.fill(text, _WIDTH, initial_indent=begin, subsequent_indent=" " * spaces, break_on_hyphens=False)


def _syntax(one: Known) -> str:
    """A type of the MIB, with its words or its bounds."""
    if one.tag in _PLAIN:
        return _PLAIN[one.tag]
    if one.tag == wire.OCTETS:
        kind = "DisplayString" if one.node in ("system", "moduleTableEntry") else "OCTET STRING"
        size = f"{one.least}" if one.least == one.most else f"{one.least}..{one.most}"
        return f"{kind} (SIZE ({size}))"
    if one.words and not one.is_bits:
        words = ", ".join(f"{word}({number})" for number, word in one.words.items())
        return f"INTEGER {{ {words} }}"
    return f"INTEGER ({one.least}..{one.most})"


def _description(one: Known) -> str:
    """What it says, with the words of its bits."""
    if not one.is_bits:
        return one.said
    return f"{one.said} Bits: {', '.join(f'{word} {bit}' for bit, word in one.words.items())}."


def _block(one: Known) -> str:
    access = "read-write" if one.by in (By.MANAGER, By.ACTING) else "read-only"
    return f"""\
{one.name} OBJECT-TYPE
{_wrapped(_syntax(one), "    SYNTAX  ")}
    ACCESS  {access}
    STATUS  mandatory
    DESCRIPTION
{_wrapped(f'"{_description(one)}"', "        ")}
    ::= {{ {one.node} {one.number} }}"""


def _table(entry: str) -> str:
    """A table and its rows, before its columns."""
    table, node, number, kind, index = _TABLES[entry]
    columns = [one for one in KNOWN if one.node == entry]
    members = ",\n".join(f"    {one.name}  {_PLAIN.get(one.tag, TYPES[one.tag])}" for one in columns)
    return f"""\
{table} OBJECT-TYPE
    SYNTAX  SEQUENCE OF {kind}
    ACCESS  not-accessible
    STATUS  mandatory
    DESCRIPTION
        "{_SAID[table]}"
    ::= {{ {node} {number} }}

{entry} OBJECT-TYPE
    SYNTAX  {kind}
    ACCESS  not-accessible
    STATUS  mandatory
    DESCRIPTION
        "A row of it."
    INDEX   {{ {", ".join(index)} }}
    ::= {{ {table} 1 }}

{kind} ::= SEQUENCE {{
{members}
}}"""


def _blocks(objects: list[Known]) -> str:
    blocks: list[str] = []
    for at, one in enumerate(objects):
        if one.is_column and (at == 0 or objects[at - 1].node != one.node):
            blocks.append(_table(one.node))
        blocks.append(_block(one))
    return "\n\n".join(blocks)


def system_objects() -> str:
    """The system group."""
    return _blocks([one for one in KNOWN if one.node == "system"])


def device_objects() -> str:
    """All others."""
    return _blocks([one for one in KNOWN if one.node != "system"])
