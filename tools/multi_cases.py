#!/usr/bin/env python3
"""Writes the cases of the crate dms_multi from vectors in lines of JSON.

usage: tools/multi_cases.py VECTORS.jsonl > crates/dms_text_tests/src/tests/multi/cases.rt

Each vector has `text` and `canonical` (octets in hexadecimal), `spots` (first, past, item) and `fault` (code, place, or
null). Taken are short texts of printable ASCII, as many as LIMIT.
"""
import argparse
import json
import pathlib
from typing import Any

_LIMIT = 160
_LONGEST = 40
NAMES = {"FontTag": "Font"}


def value(word: str) -> str:
    return "None" if word == "-" else f"Some({word})"


def item(text: str) -> str:
    """The item as its derived Debug shows it."""
    name, listed = text[:-1].split("(")
    name = NAMES.get(name, name)
    words = [word for word in listed.split(", ") if word]
    if name == "Char":
        return f"Char({words[0]})"
    if name == "Font":
        if words[0] == "-":
            return "Font(None)"
        return f"Font(Some(({words[0]}, {value(words[1])})))"
    if name == "FlashOn":
        return f"FlashOn {{ first: {words[0]}, lit: {value(words[1])}, dark: {value(words[2])} }}"
    if name == "PageTime":
        return f"PageTime {{ lit: {value(words[0])}, dark: {value(words[1])} }}"
    if not words:
        return name
    return f"{name}({value(words[0])})"


def read(vector: dict[str, Any]) -> str:
    parts = [f"{first}..{past} {item(text)}" for first, past, text in vector["spots"]]
    if vector["fault"]:
        code, place = vector["fault"]
        parts.append(f"fault {code} at {place}")
    return "".join(part + "; " for part in parts)


def printable(octets: bytes) -> bool:
    return all(32 <= octet < 127 and octet not in (34, 92, 124) for octet in octets)


def main() -> None:
    parser = argparse.ArgumentParser(description=__doc__, formatter_class=argparse.RawDescriptionHelpFormatter)
    parser.add_argument("vectors", type=pathlib.Path, help="vectors/texts.jsonl")
    cases = []
    for line in parser.parse_args().vectors.read_text(encoding="ascii").splitlines():
        vector = json.loads(line)
        if vector["canonical"] is None:
            continue
        text = bytes.fromhex(vector["text"])
        canonical = bytes.fromhex(vector["canonical"])
        if 0 < len(text) <= _LONGEST and printable(text + canonical):
            cases.append("|".join([text.decode(), read(vector), canonical.decode()]))
    print("//! A case a line: a text, what it is read as and the canonical text of its items, with a bar between them.")
    print("//! Written by tools/multi_cases.py.")
    print()
    print('pub(crate) static CASES: &str = "\\')
    for case in cases[:_LIMIT]:
        print(case)
    print('";')


if __name__ == "__main__":
    main()
