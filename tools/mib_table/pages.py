"""The objects as the MIB module has them."""

from __future__ import annotations

import textwrap

from mib_table.table import BadTable, Object, Syntax

_WIDTH = 120
_ACCESS = {"Read": "read-only", "Write": "read-write", "Command": "read-write"}
_HEAD = """\
dmsMessageTable OBJECT-TYPE
    SYNTAX  SEQUENCE OF DmsMessageEntry
    ACCESS  not-accessible
    STATUS  mandatory
    DESCRIPTION
        "The messages: permanent, changeable and volatile rows, the one that is shown, and 255 blank ones."
    ::= { dmsMessage 8 }

dmsMessageEntry OBJECT-TYPE
    SYNTAX  DmsMessageEntry
    ACCESS  not-accessible
    STATUS  mandatory
    DESCRIPTION
        "A message, by its kind of memory and its number."
    INDEX   { dmsMessageMemoryType, dmsMessageNumber }
    ::= { dmsMessageTable 1 }

DmsMessageEntry ::= SEQUENCE {
%s
}"""


def _in_mib(syntax: Syntax) -> tuple[str, str]:
    """A type of the MIB, and its bounds."""
    match syntax.kind, syntax.numbers:
        case "Whole", ():
            return "INTEGER", ""
        case "Address", ():
            return "IpAddress", ""
        case ("Range" | "Asks"), (low, *_, high):
            return "INTEGER", f"({low}..{high})"
        case "Octets", (low, high):
            return "OCTET STRING", f"(SIZE ({low}))" if low == high else f"(SIZE ({low}..{high}))"
    raise BadTable(f"no syntax {syntax}")


def _wrapped(text: str, begin: str, spaces: int = 8) -> str:
    """A text whose first line begins with this, and its further ones with so many spaces."""
    return textwrap.fill(text, _WIDTH, initial_indent=begin, subsequent_indent=" " * spaces, break_on_hyphens=False)


def _object_in_mib(entry: Object) -> str:
    choices = ", ".join(f"{word}({number})" for word, number in entry.words)
    kind, bounds = _in_mib(entry.syntax)
    values = f"{{ {choices} }}" if choices else bounds
    return f"""\
{entry.name} OBJECT-TYPE
{_wrapped(f"{kind} {values}", "    SYNTAX  ")}
    ACCESS  {_ACCESS[entry.access]}
    STATUS  mandatory
    DESCRIPTION
{_wrapped(f'"{entry.said}"', "        ")}
    ::= {{ {entry.node[0].lower()}{entry.node[1:]} {entry.number} }}"""


def mib_objects(objects: list[Object]) -> str:
    """Each object, and the message table before its columns."""
    columns = [entry for entry in objects if entry.is_column]
    sequence = ",\n".join(f"    {column.name}  {_in_mib(column.syntax)[0]}" for column in columns)
    blocks = [_object_in_mib(entry) for entry in objects]
    blocks.insert(objects.index(columns[0]), _HEAD % sequence)
    return "\n\n".join(blocks)
