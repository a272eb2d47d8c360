#!/usr/bin/env python3
"""The worked examples that proofs compute, and the names that docs/MAP.md cites.

`worked_rows.py` lists the worked examples, the equations of proofs that the checker computes. `worked_rows.py --check`
says which names of the table of docs/MAP.md do not stand where its rows say, and ends with 1 where there are such."""

import argparse
import pathlib
import re
import sys

from upkeep import map_page
from upkeep.tree import Tree

TOP = pathlib.Path(__file__).resolve().parent.parent
_ROWS = re.compile(r"^(?:pub )?([a-z][a-z0-9_]*) :", re.M)
_COMPUTED = re.compile(r"Worked|Silence|Altered|TableRows|ObjectRows|ScriptText|BenchText|Bench\b")


def rows(path: pathlib.Path) -> list[str]:
    """The names that a file of proofs defines."""
    return _ROWS.findall(path.read_text(encoding="utf-8"))


def main() -> int:
    parser = argparse.ArgumentParser(description=__doc__, formatter_class=argparse.RawDescriptionHelpFormatter)
    parser.add_argument("--check", action="store_true", help="fails where a name of docs/MAP.md does not stand")
    if parser.parse_args().check:
        found = map_page.missing(Tree(TOP))
        print("\n".join(found), end="\n" if found else "")
        return 1 if found else 0
    for path in sorted(TOP.glob("crates/*/proofs/*.antt")):
        if _COMPUTED.search(path.stem):
            print(path.relative_to(TOP / "crates"), " ".join(rows(path)))
    return 0


if __name__ == "__main__":
    sys.exit(main())
