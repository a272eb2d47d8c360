"""The cases of vectors/ are as its schema says, and the report of a run over them is one that JUnit's readers take."""

import copy
import json
import pathlib
import xml.etree.ElementTree as ET
from typing import Any

import pytest

from wisangub import junit
from wisangub.process.places import TOP

FOLDER = TOP / "vectors"
NAMES = ("agents", "codes", "datagrams", "requests", "scripts", "texts")


def cases(name: str) -> list[dict[str, Any]]:
    return [json.loads(line) for line in (FOLDER / f"{name}.jsonl").read_text(encoding="ascii").splitlines()]


def test_each_file_has_a_schema() -> None:
    schema = json.loads((FOLDER / "schema.json").read_text(encoding="ascii"))
    assert tuple(sorted(path.stem for path in FOLDER.glob("*.jsonl"))) == NAMES and set(NAMES) < set(schema["$defs"])


@pytest.mark.parametrize("name", NAMES)
def test_each_case_is_as_the_schema_says(name: str) -> None:
    jsonschema = pytest.importorskip("jsonschema")
    whole = json.loads((FOLDER / "schema.json").read_text(encoding="ascii"))
    jsonschema.Draft202012Validator.check_schema(whole)
    held = jsonschema.Draft202012Validator({"$ref": f"#/$defs/{name}", "$defs": whole["$defs"]})
    for case in cases(name):
        held.validate(case)
    for word in cases(name)[-1]:
        wrong = copy.deepcopy(cases(name)[-1])
        del wrong[word]
        assert word == "canonical" or not held.is_valid(wrong), word
    for word, value in (("version", 2), ("name", ""), ("more", 1)):
        assert not held.is_valid({**cases(name)[0], word: value})


def test_a_report_counts_and_says_what_failed(tmp_path: pathlib.Path) -> None:
    path = tmp_path / "report.xml"
    junit.write(path, "vectors", [junit.Case("codes", "one"), junit.Case("texts", "two\0<&>", "wanted\n\x01")])
    suite = ET.fromstring(path.read_bytes())
    assert {word: suite.get(word) for word in ("name", "tests", "failures")} == {
        "name": "vectors",
        "tests": "2",
        "failures": "1",
    }
    one, two = suite
    assert len(one) == 0 and one.get("classname") == "vectors.codes" and two.get("name") == "two\\x00<&>"
    assert two[0].get("message") == "wanted" and two[0].text == "wanted\n\\x01"
