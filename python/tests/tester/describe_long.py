"""The long form: env -C python python3 -m tests.tester.describe_long

Describes the signs of signs/ and three of other makes, by texts alone and with all that `describe` asks for, each under
a clock of its own. Then the tester is run on each with the description that was found. A line a sign: the validations,
the sign's seconds, what is not as the sign was made with, and the tester's verdict; last `N passed, N failed`.
"""

import argparse
import re
import sys

from model import text
from model.sign import Sign
from trials.wrong_signs import bench
from wisangub.process.places import TOP
from wisangub.tester.describe.characters import PRINTABLE, PROBES
from wisangub.tester.report import words

from .described_signs import OTHERS, differing, made

_MOST = {"roadside.sign": 300, "gantry.sign": 600}  # seconds of the sign
_ELSE = 600


def verdict(found: str, spelled: bytes) -> str:
    """What the tester says of a sign by the description that was made from it."""
    session = bench.session(found.encode(), Sign(text.described(spelled)), requests=100)
    return words.verdict(bench.run(session, ["get", "validation", "activation", "random"]))


def main() -> int:
    parser = argparse.ArgumentParser(
        prog="env -C python python3 -m tests.tester.describe_long", description="signs described by texts alone"
    )
    parser.add_argument("names", nargs="*", help="of signs; else all")
    asked = parser.parse_args()
    signs = {path.name: path.read_bytes() for path in sorted((TOP / "signs").glob("*.sign"))} | OTHERS
    failed = 0
    chosen = {name: spelled for name, spelled in signs.items() if not asked.names or name in asked.names}
    for name, spelled in chosen.items():
        held = made(spelled, candidates=tuple(PRINTABLE), probes=PROBES)
        found = held.describing.run()
        odd = differing(found, spelled)
        seconds = held.clock.now()
        odd += [] if seconds < _MOST.get(name, _ELSE) else ["it took too long"]
        odd += held.describing.put_back()
        said = verdict(found, spelled)
        is_told = not re.search("version: texts do not tell it", found)  # else texts that name a version differ
        odd += [said] if is_told and not said.startswith("conforms") else []
        failed += bool(odd)
        texts = held.describing.texts
        assert texts is not None
        told = "; ".join(odd) or f"as it was made; {said}"
        print(f"{name}: {texts.count} validations, {seconds:.0f} s, {told}", flush=True)
    print(f"{len(chosen) - failed} passed, {failed} failed")
    return 1 if failed else 0


if __name__ == "__main__":
    sys.exit(main())
