"""The model's pages of texts, as the vectors have them, and its picture of them, as the control room asks for it."""

import json
import pathlib
import subprocess
import sys
import xml.etree.ElementTree as ET

import pytest

from model import layout, pages, text
from wisangub.room.fleet import Sign
from wisangub.room.web.faces import face_of
from wisangub.room.web.pictures import drawn

TOP = pathlib.Path(__file__).resolve().parents[2]
MODEL = str(TOP / "model/signtool")
BENCH = (TOP / "signs/bench.sign").read_bytes()
VECTORS = [json.loads(line) for line in (TOP / "vectors/texts.jsonl").read_text(encoding="utf-8").splitlines()]


def called(*words: str, description: bytes = b"") -> tuple[int, list[str]]:
    call = [sys.executable, MODEL, "pages", *words]
    ended = subprocess.run(call, input=description, capture_output=True, check=False)
    return ended.returncode, ended.stdout.decode().splitlines()


def test_the_pages_are_those_of_the_vectors(capsys: pytest.CaptureFixture[str]) -> None:
    tried = 0
    for vector in VECTORS:
        if not vector["text"].isascii() or "\0" in vector["text"]:
            continue  # no word of a command line
        status = pages.main(["--", vector["text"]], lambda _: text.bench(), lambda *lines: print(*lines, sep="\n"))
        fault, found = vector.get("fault"), capsys.readouterr().out
        assert status == int(bool(fault)), vector["name"]
        said = [f"fault {fault['code']} at {fault['offset']}"] if fault else vector["pages"]
        assert found == "".join(f"{line}\n" for line in said), vector["name"]
        tried += 1
    assert tried > 100
    assert called("--sign", "--", "A[nl]B", description=BENCH) == called("A[nl]B")


def test_one_page_alone() -> None:
    both = called("A[np]B")[1]
    assert called("--page", "1", "A[np]B") == (0, both[:15]) and called("--page", "2", "A[np]B") == (0, both[15:])
    assert called("--page", "3", "A[np]B") == called("--page", "0", "A[np]B") == (1, ["no such page"])


def test_a_picture_has_each_lamp_once() -> None:
    face = text.bench().face
    found, _ = layout.laid_out(face, face.defaults, b"[cf1]A[np]B")
    assert found is not None
    plates = lamps = 0
    for path in ET.fromstring(pages.picture(face, found)).iter("{http://www.w3.org/2000/svg}path"):
        plates += "fill" in path.attrib
        lamps += path.attrib["d"].count("h0") if "stroke" in path.attrib else 0
    assert (plates, lamps) == (2, 2 * face.width * face.height)


def test_the_control_room_takes_it() -> None:
    face = face_of(Sign("bench", "", "127.0.0.1", 161, BENCH, b"public", 10.0, 1))
    found = drawn(MODEL, face, b"A", None)
    assert found.is_good and b"<desc>A</desc>" in found.plain() and b"data-still" in found.plain()
    wrong = drawn(MODEL, face, b"A[fo9]B", None)
    assert (wrong.svg, wrong.why, wrong.offset) == (None, "the sign has no such font", 1)
