"""Bars of the wrong bodies: that none is lost, that each can be applied and read, and that each crate that promises has
one."""

from __future__ import annotations

import re

from . import crates
from .edits import edits_of, faults
from .names import unknown
from .tree import Tree

LIST = "tools/upkeep/wrong_bodies.txt"
_ROW = re.compile(r"(?P<star>\* )?(?P<crate>\w+)/(?P<name>[\w.-]+)(?:: (?P<reason>.+))?")
_FOLDERS = ("must-fail", "wrong-bodies")
_PUBLIC = re.compile(
    r'(?m)^[ \t]*pub (?:const )?(?:extern "C" )?fn (?P<name>\w+)(?P<head>(?:.|\n)*?)(?P<body>\{\}?)[ \t]*$'
)
_FEWEST = 5  # of so many public functions with a body one has a clause, or the crate is no crate of promises


def listed(tree: Tree) -> list[str]:
    """Wrong bodies of the list that are gone with no reason, or stand elsewhere, and reasons for what is not gone."""
    found = []
    for number, line in tree.lines(LIST) if tree.has(LIST) else []:
        row = _ROW.fullmatch(line)
        if not row:
            found += [f"{LIST}:{number}: no row of a wrong body"] if line and not line.startswith("#") else []
            continue
        name = f"{row['crate']}/{row['name']}"
        stands = [folder for folder in _FOLDERS if f"crates/{row['crate']}/{folder}/{row['name']}.edit" in tree.names]
        if row["reason"] and stands:
            found.append(f"{LIST}:{number}: {name} is not gone, and a reason is given")
        elif not row["reason"] and not stands:
            found.append(f"{LIST}:{number}: {name} is gone, and no reason is given")
        elif len(stands) > 1:
            found.append(f"{LIST}:{number}: {name} stands in both folders")
        elif row["star"] and not row["reason"] and stands != ["must-fail"]:
            found.append(f"{LIST}:{number}: {name} does not stand in must-fail/")
    return found


def _promises(tree: Tree, crate: str) -> bool:
    """Whether public functions of a crate have clauses; laws have no body, and what is measured or run has no
    clause."""
    heads = [
        public["head"]
        for name in crates.sources(tree, crate)
        for public in _PUBLIC.finditer(tree.text(name))
        if public["body"] == "{"
    ]
    stated = sum(bool(re.search(r"\bensures\b", head)) for head in heads)
    return stated > 0 and _FEWEST * stated >= len(heads)


def owed(tree: Tree) -> list[str]:
    """Crates that promise, and have no wrong body that `rt ci` tries."""
    return [
        f"crates/{crate}/must-fail: no wrong body"
        for crate in crates.names(tree)
        if _promises(tree, crate) and not any(name.startswith(f"crates/{crate}/must-fail/") for name in tree.names)
    ]


def read(tree: Tree) -> list[str]:
    """Wrong bodies that cannot be applied to the code as it stands, or name what is not there."""
    found = []
    for crate, below in crates.used(tree.text(crates.LIST)).items():
        edits = edits_of(tree.top / "crates" / crate)
        wrong = faults(edits)
        found += [f"crates/{crate}/{name}.edit: {why}" for name, why in wrong.items()]
        found += [
            f"{crate}/{edit.name}: names {name}, which its file does not"
            for edit in edits
            if edit.name not in wrong
            for name in unknown(edit, below)
        ]
    return found
