#!/usr/bin/env python3
"""Writes vectors/*.jsonl: cases for makers of other signs and centres. The answers are those of the model in model,
which is written from docs/PROFILE.md; the program has no part in them.

    tools/make_vectors.py           writes the files
    tools/make_vectors.py --check   fails where a file is not what would be written
"""

import argparse
import json
import pathlib
import sys

from vector_cases import agents, codes, datagrams, requests, scripts, texts

FOLDER = pathlib.Path(__file__).resolve().parent.parent / "vectors"
_VERSION = 1  # of the form of the cases, which vectors/schema.json says
_FILES = {
    "datagrams": datagrams.cases,
    "texts": texts.cases,
    "codes": codes.cases,
    "requests": requests.cases,
    "scripts": scripts.cases,
    "agents": agents.cases,
}


def main() -> int:
    parser = argparse.ArgumentParser(description=__doc__, formatter_class=argparse.RawDescriptionHelpFormatter)
    parser.add_argument("--check", action="store_true", help="writes nothing")
    only_checks, failed = parser.parse_args().check, 0
    FOLDER.mkdir(exist_ok=True)
    for name, cases in _FILES.items():
        made = list(cases())
        names = [case["name"] for case in made]
        assert len(set(names)) == len(names), [word for word in names if names.count(word) > 1][:3]
        lines = "".join(json.dumps({"version": _VERSION, **case}, ensure_ascii=True) + "\n" for case in made)
        path = FOLDER / f"{name}.jsonl"
        if only_checks:
            failed += not path.exists() or path.read_text(encoding="ascii") != lines
        else:
            path.write_text(lines, encoding="ascii")
        print(f"{name}: {len(made)}")
    return 1 if failed else 0


if __name__ == "__main__":
    sys.exit(main())
