"""The examples of a release are built over an installed library, and no test is among them."""

import pathlib
import re
import subprocess

FOLDER = pathlib.Path(__file__).resolve().parents[1]
EXAMPLES = FOLDER.parents[1] / "examples"


def test_each_example_is_shipped(tmp_path: pathlib.Path) -> None:
    subprocess.run([FOLDER / "examples.py", EXAMPLES, tmp_path], check=True)
    names = {path.name for path in tmp_path.iterdir()}
    assert {
        "Makefile",
        "signd.c",
        "panel.c",
        "panel.service",
        "blink.c",
        "dimming.c",
        "names.h",
        "heap.c",
        "arena.h",
        "from_python.py",
    } <= names
    assert not [name for name in names if "test" in name or name.startswith(("mutat", "talk", "refusing"))]
    for path in tmp_path.glob("*.[ch]"):
        for header in re.findall(r'#include "(\w+\.h)"', path.read_text(encoding="utf-8")):
            assert header in names or header == "wisangub.h", path.name


def test_they_are_made_of_the_same_files(tmp_path: pathlib.Path) -> None:
    subprocess.run([FOLDER / "examples.py", EXAMPLES, tmp_path], check=True)
    call = ["make", "-n", "-B", "-C", str(tmp_path), f"OUT={tmp_path}", "CC=cc", "CFLAGS=", "LIBS="]
    made = subprocess.run(call, capture_output=True, text=True, check=True).stdout
    programs = ("signd", "panel", "blink", "dimming")
    whole = ["make", "-n", "-B", "-C", str(EXAMPLES), "LIBRARY=none.a", *(f"out/{name}" for name in programs)]
    wanted = subprocess.run([*whole, "none.a", "-o", "none.a"], capture_output=True, text=True, check=False).stdout
    for name in programs:
        one = re.search(rf"-o \S*/{name} (.*)", made)
        assert one is not None and set(re.findall(r"\w+\.c", one[1])) >= {f"{name}.c"}
        other = re.search(rf"-o \S*/{name} (.*)", wanted)
        assert other is None or re.findall(r"\w+\.c", one[1]) == re.findall(r"\w+\.c", other[1])
