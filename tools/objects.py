#!/usr/bin/env python3
"""Writes what is made of the tables of objects: of that of the sign's the objects of mibs/DMS-PROFILE-MIB, and of
python/wisangub/objects/known.py, those beside a sign's, the objects of mibs/DMS-DEVICE-MIB and mibs/RFC1213-MIB.

With --code it writes what the crates have of the first too: the types of objects and of columns, the rows, the matches
of their numbers, and the settings that are numbers. That table is crates/dms_mib/specs/Objects.antt, whose limits have
their numbers in crates/dms_codes/specs/Limits.antt. What is made stands between two marks; all else in a file is kept.
With --check nothing is written, and the status is 1 where one of these files is not up to date, or where two names that
can be set share a slot of those in which a SET marks names."""

import argparse
import pathlib
import sys
import textwrap
from collections.abc import Callable

from mib_table import device
from mib_table.code import CODE
from mib_table.pages import mib_objects
from mib_table.settings import SETTINGS
from mib_table.slots import shared
from mib_table.table import TABLE, BadTable, Object, read

TOP = pathlib.Path(__file__).resolve().parent.parent
_MIB, _DEVICE, _SYSTEM = "mibs/DMS-PROFILE-MIB", "mibs/DMS-DEVICE-MIB", "mibs/RFC1213-MIB"
_BEGIN, _END = "-- the objects, made by tools/objects.py:", "-- the end of what is made"
_PAGES: tuple[tuple[str, str, str, Callable[[list[Object]], str]], ...] = (
    (_MIB, _BEGIN, _END, mib_objects),
    (_DEVICE, _BEGIN, _END, lambda _: device.device_objects()),
    (_SYSTEM, _BEGIN, _END, lambda _: device.system_objects()),
)
_CODE = tuple(
    (name, f"{mark} made by tools/objects.py --code", f"{mark} the end of what is made", make)
    for name, mark, make in (*((name, "//", make) for name, make in CODE), *SETTINGS)
)


def _filled(text: str, begin: str, end: str, made: str, name: str) -> str:
    """A file's text with what is made between these marks."""
    if text.count(begin) != 1 or text.count(end) != 1:
        raise BadTable(f"{name}: wants the marks `{begin}` and `{end}` once")
    before, _, rest = text.partition(begin)
    after = rest.partition(end)[2]
    if rest.startswith("\n\n"):
        return f"{before}{begin}\n\n{made}\n\n{end}{after}"
    indent = before[before.rfind("\n") + 1 :]  # among other lines
    return f"{before}{begin}\n{textwrap.indent(made, indent)}\n{indent}{end}{after}"


def main() -> int:
    parser = argparse.ArgumentParser(description=__doc__, formatter_class=argparse.RawDescriptionHelpFormatter)
    which = parser.add_mutually_exclusive_group()
    which.add_argument("--code", action="store_true", help="writes the code of the crates too")
    which.add_argument("--check", action="store_true", help="writes nothing, and says what is not up to date")
    asked = parser.parse_args()
    objects = read(TOP)
    parts = (*_PAGES, *(_CODE if asked.code or asked.check else ()))
    texts = {name: (TOP / name).read_text(encoding="utf-8") for name, *_ in parts}
    new = dict(texts)
    for name, begin, end, make in parts:
        new[name] = _filled(new[name], begin, end, make(objects), name)
    old = [name for name in texts if texts[name] != new[name]]
    found = shared(TOP, objects)
    print("".join(f"{line}\n" for line in found), end="")
    for name in old:
        if asked.check:
            print(f"{name} is not what tools/objects.py makes of {TABLE}; run it (--code for crates)")
        else:
            (TOP / name).write_text(new[name], encoding="utf-8")
    return 1 if asked.check and (old or found) else 0


if __name__ == "__main__":
    try:
        sys.exit(main())
    except BadTable as fault:
        sys.exit(str(fault))
