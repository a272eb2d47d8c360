"""A report as JUnit has it: a suite of test cases, each passed, or failed with words."""

import pathlib
import re
import xml.etree.ElementTree as ET
from collections.abc import Sequence
from typing import NamedTuple

_NOT_IN_XML = re.compile("[^\t\n\r\x20-\ud7ff\ue000-\ufffd\U00010000-\U0010ffff]")


class Case(NamedTuple):
    """A test case of a group, which failed where it has a fault."""

    group: str
    name: str
    fault: str = ""


def _printable(words: str) -> str:
    """These words with each character that no XML has written as in Python."""
    return _NOT_IN_XML.sub(lambda found: found[0].encode("unicode_escape").decode("ascii"), words)


def text(suite: str, cases: Sequence[Case]) -> str:
    """The report of a suite."""
    failed = sum(bool(case.fault) for case in cases)
    top = ET.Element("testsuite", name=suite, tests=str(len(cases)), failures=str(failed), errors="0", skipped="0")
    for case in cases:
        made = ET.SubElement(top, "testcase", classname=f"{suite}.{case.group}", name=_printable(case.name))
        if case.fault:
            ET.SubElement(made, "failure", message=_printable(case.fault.splitlines()[0])).text = _printable(case.fault)
    return ET.tostring(top, encoding="unicode", xml_declaration=True) + "\n"


def write(path: pathlib.Path, suite: str, cases: Sequence[Case]) -> None:
    """Writes the report of a suite; raises OSError where the file cannot be written."""
    path.write_text(text(suite, cases), encoding="utf-8")
