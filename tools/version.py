#!/usr/bin/env python3
"""Prints the version: `tools/version.py`. It is said in one place, the line `const VERSION` of the program's code.

`signtool --version` prints that line. Packages, manual pages and the newest heading of CHANGELOG.md have to agree with
it; tools/release.sh reads it from here, and tools/house.py looks at the heading.
"""

import argparse
import pathlib
import re
import sys

TOP = pathlib.Path(__file__).resolve().parent.parent
LINE = re.compile(
    r'^\s*(?:pub(?:\(crate\))? )?const VERSION: (?:&str = "|&\[u8\] = b")signtool (\d+\.\d+\.\d+)(?:\\n)?";',
    re.MULTILINE,
)


def versions(top: pathlib.Path) -> list[str]:
    """What the crates say, each in its own place."""
    texts = (path.read_text("utf-8") for path in sorted(top.glob("crates/**/src/**/*.rt")))
    return [found for text in texts for found in LINE.findall(text)]


def version(top: pathlib.Path = TOP) -> str:
    """The one version that is said."""
    found = versions(top)
    if len(found) != 1:
        raise ValueError(f"the version is said in {len(found)} places of crates/ and not in one")
    return found[0]


def main() -> int:
    argparse.ArgumentParser(description=__doc__, formatter_class=argparse.RawDescriptionHelpFormatter).parse_args()
    try:
        print(version())
    except ValueError as fault:
        print(fault, file=sys.stderr)
        return 1
    return 0


if __name__ == "__main__":
    sys.exit(main())
