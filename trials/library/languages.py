"""The library from Python and from Rust: null at each of its functions, structs, and the two examples."""

from __future__ import annotations

import ctypes
import importlib.util
import pathlib
import re
import sys
from types import ModuleType

from .builds import functions
from .trial import PLAIN, TOP, Trial, described

EXAMPLE = TOP / "examples/from_python.py"
TEXTS = ("[pt12o3][fo2]FOG[np][pt0o0]A[nl]B", "")
AT_FAULT = "A["
NULL = 5
LAYOUT = re.compile(r"WISANGUB_(AT|SIZE)\((\w+), (?:(\w+), )?(\d+)\)")


def example() -> ModuleType:
    """examples/from_python.py as a module."""
    spec = importlib.util.spec_from_file_location("from_python", EXAMPLE)
    assert spec is not None and spec.loader is not None
    module = importlib.util.module_from_spec(spec)
    sys.modules["from_python"] = module
    spec.loader.exec_module(module)
    return module


def nulls(trial: Trial, module: ModuleType, library: ctypes.CDLL) -> None:
    """Each function that is exported refuses null in place of each of its pointers."""
    wanted = {f"wisangub_{name}" for name in module.ARGUMENTS} | {"wisangub_version"}
    trial.same("from_python.py declares the functions of the header", wanted, functions())
    for name, arguments in module.ARGUMENTS.items():
        given = [None if kind not in NUMBERS else 0 for kind in arguments]
        answer = getattr(library, f"wisangub_{name}")(*given)
        trial.same(f"{name} with null from Python", answer, None if name.endswith("_free") else NULL)


NUMBERS = (ctypes.c_size_t, ctypes.c_uint32, ctypes.c_uint16, ctypes.c_uint8)
STRUCTS = {"sign": "Sign", "centre": "Centre", "text_fault": "TextFault", "shown": "Shown", "code": "Code"}
STRUCTS |= {"cause": "Cause", "text_cause": "TextCause"}
STRUCTS |= {"page": "Page", "entry": "Entry", "status": "Status", "value": "Value", "access": "Access"}


def layouts(trial: Trial, module: ModuleType) -> None:
    """Structs that are declared field by field are laid out as the header says."""
    header = (TOP / "include/wisangub.h").read_text(encoding="utf-8")
    told = LAYOUT.findall(header)
    for what, struct, field, number in told:
        found = getattr(module, STRUCTS[struct])
        at = ctypes.sizeof(found) if what == "SIZE" else getattr(found, field).offset
        trial.same(f"the {what.lower()} of {struct} {field}", at, int(number))
    count = sum(len(getattr(module, name)._fields_) for name in STRUCTS.values())
    trial.same("each field's offset stands in the header", len(told), count + len(STRUCTS) - 2)


def rows(trial: Trial, sign: str, text: str) -> list[str]:
    """What the examples print of a text: the bits of its pages, by examples/talk.c."""
    with trial.talk(described(sign), PLAIN) as talk:
        pages = talk.ask_lines(f"pages {text.encode('latin-1').hex() or '-'}")[:-1]
    found = [re.sub(r"^page \d+ on (\d+) off (\d+) .*", r"page \1 \2", line) for line in pages]
    return [line if line.startswith("page") else re.sub(r"[0-9]", "*", line) for line in found]


def compared(trial: Trial, name: str, words: list[str]) -> None:
    """An example prints what the talk has, refuses a text that is at fault, and a description too."""
    for sign in ("roadside", "gantry"):
        path = str(TOP / "signs" / f"{sign}.sign")
        for text in TEXTS:
            status, said = trial.ran([*words, path, text])
            trial.same(f"{name}, {sign}: {text}", (status, said.splitlines()), (0, rows(trial, sign, text)))
        status, said = trial.ran([*words, path, AT_FAULT])
        trial.check(f"{name}, {sign}: a text at fault", status == 1 and "at octet 1" in said, said)
    status, said = trial.ran([*words, str(EXAMPLE), "A"])
    trial.check(f"{name}: no description", status == 1 and "line 2" in said, said)


def from_python(trial: Trial) -> None:
    path = trial.folder / PLAIN.folder / "shared/libwisangub.so"
    module = example()
    layouts(trial, module)
    nulls(trial, module, module.opened(path))
    compared(trial, "from Python", [sys.executable, str(EXAMPLE), "--library", str(path)])


def from_rust(trial: Trial) -> None:
    if not trial.has("Rust", "rustc"):
        return
    made: pathlib.Path = trial.folder / "from_rust"
    words = ["rustc", "-O", "--edition", "2021", "-L", f"native={trial.folder / PLAIN.folder}", "-l", "static=wisangub"]
    words += ["-l", "static=wisangub_heap", "-D", "warnings", "-o", str(made), str(TOP / "examples/from_rust.rs")]
    status, said = trial.ran(words)
    if trial.check("Rust: compile", status == 0, said):
        compared(trial, "from Rust", [str(made)])
        status, said = trial.ran([str(made)])
        trial.check("Rust: its use", status == 2 and "usage" in said, said)


def run(trial: Trial) -> None:
    from_python(trial)
    from_rust(trial)
