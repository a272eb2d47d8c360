#!/usr/bin/env python3
"""Copies the examples over the library for C that are no tests, with a Makefile of their own: `examples.py FROM INTO`.

FROM is examples/ of the repository. Its Makefile says what the programs are made of, and the Makefile in INTO has the
installed library of pkg-config in place of one that is built.
"""

import pathlib
import re
import shutil
import sys

_PROGRAMS = ("signd", "panel", "blink", "dimming")
_BESIDE = ("heap.c", "arena.c", "from_python.py", "from_rust.rs", "panel.service")
_HEAD = """# The examples over the installed library, into the folder OUT: make -C {folder} OUT=$PWD
OUT = .
CFLAGS = -std=c11 -Wall -Wextra -Wconversion -Werror -pedantic -O2 $(shell pkg-config --cflags wisangub)
LIBS = $(shell pkg-config --libs wisangub)
"""
_RULE = """
$(PROGRAMS:%=$(OUT)/%): $(wildcard *.h)
\t$(CC) $(CFLAGS) -o $@ $(filter %.c,$^) $(LIBS)

.PHONY: all
"""
_FOLDER = "/usr/share/doc/libwisangub-dev/examples"


def makefile(text: str) -> str:
    """The Makefile of the programs, from the whole one."""
    lists = re.findall(r"(?m)^(?:SIGND|OBJECTS|RECORDS|STATES|JOURNAL|PANEL) =.*$", text)
    rules = [re.findall(rf"(?m)^\$\(OUT\)/{name}:.*$", text)[0] for name in _PROGRAMS]
    programs = f"PROGRAMS = {' '.join(_PROGRAMS)}"
    parts = [_HEAD.format(folder=_FOLDER) + programs, *lists, "\nall: $(PROGRAMS:%=$(OUT)/%)", *rules]
    return "\n".join(parts) + "\n" + _RULE


def sources(folder: pathlib.Path, made: str) -> list[str]:
    """The files that the Makefile names, what stands beside them, and their headers."""
    left, found = {*re.findall(r"\w+\.c\b", made), *_BESIDE}, set[str]()
    while left:
        name = left.pop()
        found.add(name)
        headers = re.findall(r'(?m)^#include "(\w+\.h)"', (folder / name).read_text(encoding="utf-8"))
        left |= {header for header in headers if (folder / header).exists()} - found
    return sorted(found)


def main() -> int:
    if len(sys.argv) != 3 or sys.argv[1].startswith("-"):
        print(__doc__, end="", file=sys.stdout if "--help" in sys.argv else sys.stderr)
        return 0 if "--help" in sys.argv else 2
    folder, into = pathlib.Path(sys.argv[1]), pathlib.Path(sys.argv[2])
    made = makefile((folder / "Makefile").read_text(encoding="utf-8"))
    (into / "Makefile").write_text(made, encoding="utf-8")
    for name in sources(folder, made):
        shutil.copyfile(folder / name, into / name)
    return 0


if __name__ == "__main__":
    sys.exit(main())
