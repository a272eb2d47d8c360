"""Runs the program over vectors/*.jsonl: `python3 -m trials.check_vectors [--program PATH] [--count N] [--junit FILE]`
prints `N passed, N failed`.

Datagrams go through `decode`, texts through `items`, `check` and `pages`, codes through `code` and `activation`,
requests through `answer`, scripts through `replay`, and lines of agents through `sign`; of a program that does not know
the lines `object` or `fonts`, the cases that need them are skipped. What `decode`, `items` and `check` print with
--json is made into lines again, which have to be those that are wanted without. Names of objects are those of
mibs/DMS-PROFILE-MIB. With --count only so many cases of each file are taken; with --junit a report is written too, a
test case for each call.
"""

import argparse
import json
import pathlib
import re
import subprocess
import sys
from collections.abc import Iterator
from typing import Any

from wisangub import junit
from wisangub.process.places import SIGNTOOL, program

TOP = pathlib.Path(__file__).resolve().parent.parent

_Case = dict[str, Any]  # a line of the vectors, or a part of one, as JSON has it
Call = tuple[list[str], str, str, int]  # the words, the standard input, the output that is wanted, and the status
_FAULTS = {
    "Truncated": "truncated",
    "BadTag": "unexpected tag",
    "BadLength": "bad length",
    "LengthPast": "content passes its element",
    "BadInteger": "bad integer",
    "BadName": "bad object identifier",
    "BadVersion": "version is not 0",
    "TrailingBytes": "trailing octets",
    "TooLong": "datagram over 1472 octets",
}


def _objects_of_mib() -> dict[str, str]:
    """The names of the MIB's objects by their dotted numbers."""
    text = "".join(path.read_text(encoding="ascii") for path in (TOP / "mibs").glob("DMS-PROFILE-MIB*"))
    found = {"enterprises": "1.3.6.1.4.1"}
    names = {}
    object_of_mib = r"(?ms)^(\w+)\s+OBJECT(-TYPE| IDENTIFIER).*?::=\s*\{\s*(\w+)\s+(\d+)\s*\}"
    for name, kind, parent, number in re.findall(object_of_mib, text):
        found[name] = f"{found[parent]}.{number}"
        if kind == "-TYPE" and name not in ("dmsMessageTable", "dmsMessageEntry"):
            names[found[name]] = name
    return names


_OBJECTS = _objects_of_mib()


def named(dotted: str) -> str:
    """A name as `decode` prints it: the object and its instance follow in parentheses. A scalar's instance is 0, a
    cell's its row."""
    for places in (1, 2):
        name, *instance = dotted.rsplit(".", places)
        is_cell = name.count(".") == 13
        if name in _OBJECTS and is_cell == (places == 2) and (is_cell or instance == ["0"]):
            return f"{dotted} ({_OBJECTS[name]}.{'.'.join(instance)})"
    return dotted


def _octets_printed(digits: str) -> str:
    octets = bytes.fromhex(digits)
    text = f' "{octets.decode("ascii")}"' if octets and all(32 <= octet <= 126 for octet in octets) else ""
    return (digits or "-") + text


def _value_printed(kind: str, value: Any) -> str:
    if kind in ("OCTET STRING", "Opaque"):
        return f"{kind} {_octets_printed(value)}"
    if kind == "OBJECT IDENTIFIER":
        return f"{kind} {named(value)}"
    if kind == "IpAddress":
        return f"{kind} {'.'.join(str(octet) for octet in bytes.fromhex(value))}"
    return "NULL" if kind == "NULL" else f"{kind} {value}"


def fields(message: _Case) -> Iterator[str]:
    """A message as `decode` prints it."""
    yield f"kind {message['kind']}"
    yield f"community {_octets_printed(message['community'])}"
    for field in ("request-id", "error-status", "error-index"):
        yield f"{field} {message[field]}"
    for binding in message["bindings"]:
        yield f"binding {named(binding['name'])}: {_value_printed(binding['type'], binding['value'])}"


def _item_printed(item: list[Any]) -> str:
    """An item as `items` prints it."""
    offset, kind, *values = item
    if kind == "font":
        number, version = values
        values = ["default" if number is None else number] + ([] if version is None else ["version", version])
    return " ".join(str("default" if word is None else word) for word in [offset, kind, *values])


def _octets_of_json(octets: _Case) -> str:
    return (octets["octets"] or "-") + (f' "{octets["text"]}"' if "text" in octets else "")


def _name_of_json(names: _Case) -> str:
    return f"{names['name']} ({names['object']})" if "object" in names else str(names["name"])


def _value_of_json(kind: str, value: Any) -> str:
    if kind in ("OCTET STRING", "Opaque"):
        return f"{kind} {_octets_of_json(value)}"
    if kind == "OBJECT IDENTIFIER":
        return f"{kind} {_name_of_json(value)}"
    return kind if value is None else f"{kind} {value}"


def _lines_of_json(text: str) -> Iterator[str]:
    """The lines that an object of `decode`, `items` or `check` with --json stands for."""
    found = json.loads(text)
    for item in found.get("items", []):
        values = ["default" if value is None else value for value in item["values"]]
        version = ["version", item["version"]] if "version" in item else []
        yield " ".join(map(str, [item["at"], item["item"], *values, *version]))
    if "kind" in found:
        yield f"kind {found['kind']}"
        yield f"community {_octets_of_json(found['community'])}"
        yield from (f"{field} {found[field]}" for field in ("request-id", "error-status", "error-index"))
        for binding in found["binding"]:
            yield f"binding {_name_of_json(binding)}: {_value_of_json(binding['type'], binding['value'])}"
    if "pages" in found:
        yield f"ok pages {found['pages']}"
    if "fault" in found:
        place = f"octet {found['octet']}" if "octet" in found else found["at"]
        yield f"fault {found['fault']} at {place}"


def _as_lines(call: list[str], text: str) -> str:
    """What a call printed, an object of JSON as the lines that it stands for."""
    return "".join(line + "\n" for line in _lines_of_json(text)) if "--json" in call else text


def _with_json(call: list[str]) -> list[list[str]]:
    """The same call with --json, where it has this option."""
    return [[call[0], "--json", *call[1:]]] if call[0] in ("decode", "items", "check") else []


def _calls(kind: str, case: _Case) -> Iterator[Call]:
    """The words of each call for a case, its standard input, the output that is wanted and the status."""
    if kind == "texts":
        markup = case["markup"]
        items = "".join(_item_printed(item) + "\n" for item in case["items"])
        items += f"fault {markup['code']} at {markup['offset']}\n" if markup else ""
        yield ["items", "--", case["text"]], "", items, 1 if markup else 0
        fault = case.get("fault")
        refused = fault and f"fault {fault['code']} at {fault['offset']}\n"
        pages = [line for line in case.get("pages", []) if line.startswith("page ")]
        yield ["check", "--", case["text"]], "", refused or f"ok pages {len(pages)}\n", 1 if fault else 0
        yield ["pages", "--", case["text"]], "", refused or "\n".join(case["pages"]) + "\n", 1 if fault else 0
    elif kind == "codes":
        flags = [f"--{word}" for word in ("beacon", "pixel", "swapped") if case[word]]
        words = [
            "code",
            str(case["type"]),
            str(case["number"]),
            *flags,
            f"--duration={case['duration']}",
            f"--priority={case['priority']}",
            f"--address={case['address']}",
            "--",
            case["text"],
        ]
        yield words, "", f"crc {case['checksum']}\ncode {case['code']}\n", 0
        terms = [word for word in words[3:-2] if word not in ("--beacon", "--pixel")]
        yield ["activation", *words[1:3], case["checksum"], *terms], "", f"code {case['code']}\n", 0
    elif kind == "requests":
        reply = case["reply"]
        yield ["answer", case["request"]], "", "dropped\n" if reply is None else reply + "\n", 1 if reply is None else 0
    elif kind == "agents":
        lines = case["lines"]
        answers = [answer for one in lines for answer in one["answer"]]
        yield ["sign"], "".join(f"{one['line']}\n" for one in lines), "".join(f"{one}\n" for one in answers), 0
    elif kind == "scripts":
        wanted = f"line {case['line']}\n" if "line" in case else "\n".join(case["report"]) + "\n"
        yield ["replay"], case["script"], wanted, 1 if "line" in case else 0
    elif "fault" in case:
        yield ["decode", case["octets"]], "", f"fault {_FAULTS[case['fault']]} at octet {case['offset']}\n", 1
        yield ["answer", case["octets"]], "", "dropped\n", 1
    else:
        yield ["decode", case["octets"]], "", "\n".join(fields(case["message"])) + "\n", 0


def _unknown(program: str) -> list[str]:
    """The lines about objects that the program does not know."""
    asked = {"object": "objects", "fonts": "fonts"}
    ended = subprocess.run(
        [program, "sign"], input="objects\nfonts\n".encode(), capture_output=True, timeout=60, check=False
    )
    answers = dict(zip(asked, ended.stdout.decode().splitlines()))
    return [line for line in asked if answers.get(line) != "ok"]


def _needs(case: _Case, unknown: list[str]) -> bool:
    """Whether a case has lines that the program does not know."""
    lines = [one["line"] for one in case.get("lines", [])]
    return bool(lines) and ("object" in unknown or "fonts" in unknown and "fonts" in lines)


def _difference(program: str, call: list[str], stdin: str, wanted: tuple[str, int]) -> str:
    """How what a call prints, and its status, differ from what is wanted; nothing where they do not."""
    ended = subprocess.run([program, *call], input=stdin.encode(), capture_output=True, timeout=60, check=False)
    printed = _as_lines(call, ended.stdout.decode())
    if (printed, ended.returncode) == wanted:
        return ""
    return f"{call[0]} printed {printed[:200]!r} with {ended.returncode}, wanted {wanted[0][:200]!r} with {wanted[1]}"


def main() -> int:
    parser = argparse.ArgumentParser(description=__doc__, formatter_class=argparse.RawDescriptionHelpFormatter)
    parser.add_argument(
        "--program", type=program, default=str(SIGNTOOL), help="the program signtool, as tools/build.py makes it"
    )
    parser.add_argument("--count", type=int, help="the cases that are taken of each file")
    parser.add_argument("--junit", type=pathlib.Path, metavar="FILE", help="a report as JUnit has it is written here")
    asked = parser.parse_args()
    tried, skipped, unknown = [], 0, _unknown(asked.program)
    for path in sorted((TOP / "vectors").glob("*.jsonl")):
        for line in path.read_text(encoding="ascii").splitlines()[: asked.count]:
            case = json.loads(line)
            if _needs(case, unknown):
                skipped += 1
                continue
            for call, stdin, output, status in _calls(path.stem, case):
                for made in [call, *_with_json(call)]:
                    fault = _difference(asked.program, made, stdin, (output, status)) or ""
                    tried.append(junit.Case(path.stem, f"{case['name']}: {' '.join(made[:1])}", fault))
                    if fault:
                        print(f"{path.stem}, {case['name']}: {fault}")
    if skipped:
        print(f"skipped {skipped} cases of agents: the program has no line `{'`, no line `'.join(unknown)}`")
    failed = sum(bool(case.fault) for case in tried)
    if asked.junit:
        junit.write(asked.junit, "vectors", tried)
    print(f"{len(tried) - failed} passed, {failed} failed")
    return 1 if failed else 0


if __name__ == "__main__":
    sys.exit(main())
