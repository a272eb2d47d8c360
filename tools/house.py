#!/usr/bin/env python3
"""Looks whether the repository keeps its own bars: `tools/house.py --check` prints `N passed, N failed`.

    tools/house.py [--check | --all] [--top FOLDER] [BAR ..]
    tools/house.py --draw                                       draws docs/pictures/houses.svg by crates.txt
    tools/house.py --links                                      has docs/MAP.md link to the lines of its names

A bar is a name of tools/upkeep/bars.py, such as "links"; without names all of BARS are looked at. What is below a bar
is printed with its file and line. With --all what is left for later is printed too, and fails. That no measure takes
more instructions than before is looked at by `measures/measured.py --compare`, in some minutes.
"""

import argparse
import pathlib
import sys

from upkeep import drawing, map_page
from upkeep.bars import BARS, NOT_YET
from upkeep.tree import Tree

TOP = pathlib.Path(__file__).resolve().parent.parent


def main() -> int:
    known = (*BARS, *NOT_YET)
    end = f"Looked at by name and with --all alone: {', '.join(bar.name for bar in NOT_YET) or 'none'}."
    parser = argparse.ArgumentParser(
        description=__doc__, epilog=end, formatter_class=argparse.RawDescriptionHelpFormatter
    )
    which = parser.add_mutually_exclusive_group()
    which.add_argument("--check", action="store_true", help="what has to hold now; so without an option too")
    which.add_argument("--all", action="store_true", help="what is left for later too")
    which.add_argument(
        "--draw", action="store_true", help="draws the groups of crates, which wants Graphviz, and looks at nothing"
    )
    which.add_argument("--links", action="store_true", help="writes the links of docs/MAP.md, and looks at nothing")
    parser.add_argument("--top", type=pathlib.Path, default=TOP, metavar="FOLDER", help="another repository")
    parser.add_argument("bars", nargs="*", metavar="BAR", help=f"one of: {', '.join(bar.name for bar in known)}")
    asked = parser.parse_args()
    unknown = set(asked.bars) - {bar.name for bar in known}
    if unknown:
        parser.error(f"no bar {', '.join(sorted(unknown))}")
    tree = Tree(asked.top)
    if asked.draw:
        drawing.draw(tree)
    if asked.links:
        map_page.write(tree)
    if asked.draw or asked.links:
        return 0
    failed = 0
    bars = [bar for bar in known if bar.name in asked.bars] or (known if asked.all else BARS)
    for bar in bars:
        found = bar.findings(tree, asked.all)
        failed += bool(found)
        for line in found:
            print(f"{bar.name}: {line}")
    print(f"{len(bars) - failed} passed, {failed} failed")
    return 1 if failed else 0


if __name__ == "__main__":
    sys.exit(main())
