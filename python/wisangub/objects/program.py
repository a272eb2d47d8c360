"""Makes a file of objects beside a sign's, for wisangub-sign: who the sign is, its size, its brightness.

    wisangub-objects DESCRIPTION --make WORDS --model WORDS --version WORDS [--name WORDS] [--contact WORDS]
        [--location WORDS] [--object-id NAME] [--pitch MM] [--border MM] [--levels N]
        [--access front|rear|walk-in|other] [--acts NAME]... [--no-fonts] [--into FILE]

It has the system group of RFC 1213, global objects of NTCIP 1201, and of NTCIP 1203 v03 what a manager asks a sign for
beside its messages. What firmware measures stands there as it is at first. A manager may write the illumination, and
sysContact, sysName and sysLocation; globalDaylightSaving, dmsControlMode, dmsSWReset, dmsResetMessage and dmsMemoryMgmt
where --acts says that firmware acts on them. Names and numbers are from memory of the public MIBs.
"""

import argparse
import os
import pathlib
import sys

from wisangub import __version__
from wisangub.output import LOG
from wisangub.process import description
from wisangub.refusal import Refusal, reason, status_of

from .known import known
from .lines import Bad, name_of
from .listed import of_text
from .made import Machine, Sign, checked, file_of

_COMMAND = "wisangub-objects"


def _options() -> argparse.ArgumentParser:
    parser = argparse.ArgumentParser(
        prog=_COMMAND, description=__doc__, formatter_class=argparse.RawDescriptionHelpFormatter
    )
    parser.add_argument("sign", metavar="DESCRIPTION", nargs="?", help="the description of the sign, as in signs/")
    parser.add_argument("--make", metavar="WORDS", help="who made the sign")
    parser.add_argument("--model", metavar="WORDS", help="which model it is")
    parser.add_argument(
        "--version", metavar="WORDS", nargs="?", const="", help="its version; alone, the command's name and version"
    )
    for option, said in (("name", "sysName"), ("contact", "sysContact"), ("location", "sysLocation")):
        parser.add_argument(f"--{option}", metavar="WORDS", default="", help=f"what {said} reads at first")
    parser.add_argument("--object-id", metavar="NAME", default="0.0", help="what sysObjectID reads, as 1.3.6.1.4.1.9")
    parser.add_argument("--pitch", type=int, default=20, metavar="MM", help="millimetres from one lamp to the next")
    parser.add_argument("--border", type=int, default=0, metavar="MM", help="millimetres around all lamps")
    parser.add_argument("--levels", type=int, default=8, metavar="N", help="levels of brightness")
    entries = list(known("dmsSignAccess").words.values())
    parser.add_argument("--access", choices=entries, default="front", help="how a person gets into it")
    parser.add_argument("--acts", metavar="NAME", action="append", default=[], help="firmware acts where it is written")
    parser.add_argument("--no-fonts", action="store_true", help="fonts cannot be read")
    parser.add_argument("--into", metavar="FILE", help="where it is written; else standard output")
    return parser


def _machine(asked: argparse.Namespace) -> Machine:
    """What the options say of the machine."""
    try:
        object_id = name_of(asked.object_id)
    except Bad as bad:
        raise Refusal(f"--object-id {bad}") from bad
    return checked(
        Machine(
            make=asked.make,
            model=asked.model,
            version=asked.version,
            name=asked.name,
            contact=asked.contact,
            location=asked.location,
            object_id=object_id,
            pitch=asked.pitch,
            border=asked.border,
            levels=asked.levels,
            entry=asked.access,
            has_fonts=not asked.no_fonts,
            acts=frozenset(asked.acts),
        )
    )


def _write(path: str, text: str) -> None:
    """Writes the file, which then has all of it or is as it was."""
    new = f"{path}.new"
    try:
        pathlib.Path(new).write_text(text, encoding="ascii", newline="\n")
        os.replace(new, path)
    except OSError as fault:
        raise Refusal(reason(fault), 1) from fault


def main() -> int:
    parser = _options()
    asked = parser.parse_args()
    if asked.version == "" and asked.sign is None:
        print(f"{_COMMAND} {__version__}")
        return 0
    wanted = ["sign", "make", "model", "version"]
    lacking = [f"--{name}" if name != "sign" else "DESCRIPTION" for name in wanted if not getattr(asked, name)]
    if lacking:
        parser.error(f"the following arguments are required: {', '.join(lacking)}")
    text = description.read(asked.sign)
    assert text is not None
    made = file_of(Sign.of(text), _machine(asked), pathlib.Path(asked.sign).name)
    of_text(asked.into or _COMMAND, made.encode())
    if asked.into is None:
        sys.stdout.write(made)
    else:
        _write(asked.into, made)
        LOG.info(f"{asked.into}: {made.count(chr(10) + 'object ')} objects")
    return 0


def run() -> int:
    return status_of(main)


if __name__ == "__main__":
    sys.exit(run())
