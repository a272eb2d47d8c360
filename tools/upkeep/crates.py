"""Bars of the crates: that pages name each, group by group in the order of crates.txt, and what each of them owes."""

import re

from .tree import Tree

LIST = "crates.txt"
_PAGES = ("docs/ARCHITECTURE.md", "docs/MAP.md", "docs/PROVED.md")
_REASONS, _OLDER = "docs/DECISIONS.md", "tools/upkeep/older_paths.txt"
# the line of a group: its name, and the families of its crates
GROUP = re.compile(r"## (?P<group>[a-z][a-z ]*): (?P<families>\w+(?:, \w+)*)")
_FEWEST = 10
_MOST_FUNCTIONS, MOST_LINES = 130, 2000
FUNCTION = re.compile(r"(?m)^\s*(?:pub(?:\(\w+\))? )?(?:const )?(?:extern \"C\" )?fn \w+")
_MODULE = re.compile(r"(?m)^pub mod (\w+);")
_PUBLIC = re.compile(
    r"(?m)(?P<above>(?:^[ \t]*(?:///|#\[)[^\n]*\n)*)^[ \t]*pub (?:const )?(?:extern \"C\" )?fn (?P<name>\w+)"
)


def names(tree: Tree) -> list[str]:
    """The crates of crates.txt, in its order."""
    lines = [line for _, line in tree.lines(LIST) if line.strip() and not line.startswith("#")]
    return [line.split(":")[0].split()[0] for line in lines]


def used(text: str) -> dict[str, list[str]]:
    """What each crate stands on, of others and of the kit, by a text as that of crates.txt."""
    lines = [line.split("#")[0] for line in text.splitlines()]
    halves = [line.partition(":") for line in lines if line.strip()]
    return {head.split()[0]: below.split() for head, _, below in halves}


def groups(tree: Tree) -> dict[str, list[str]]:
    """The crates of each group: those below its line of crates.txt."""
    found: dict[str, list[str]] = {}
    for _, line in tree.lines(LIST):
        group = GROUP.fullmatch(line)
        if group:
            found[group["group"]] = []
        elif found and re.match(r"\w", line):
            found[list(found)[-1]].append(line.split(":")[0].split()[0])
    return found


def named(tree: Tree) -> list[str]:
    """Crates that a page on all of them does not name."""
    return [
        f"{page}: {crate} is not named"
        for page in _PAGES
        for crate in names(tree)
        if not re.search(rf"\b{re.escape(crate)}\b", tree.text(page))
    ]


def _headings(text: str, wanted: set[str]) -> list[tuple[str, str]]:
    """The groups of a page in its order, each with its text: a heading, or a row of a table that begins with its
    name."""
    marks = list(re.finditer(r"(?m)^(?:#+ |\| \*\*)([A-Za-z ]+)", text))
    ends = [mark.start() for mark in marks[1:]] + [len(text)]
    parts = [(mark[1].strip().lower(), text[mark.end() : end]) for mark, end in zip(marks, ends)]
    return [(name, part) for name, part in parts if name in wanted]


def ordered(tree: Tree) -> list[str]:
    """Pages whose groups are not those of crates.txt in its order, and crates that stand in no part of their group."""
    wanted = groups(tree)
    found = []
    for page in _PAGES:
        parts = _headings(tree.text(page), set(wanted))
        said = [name for name, _ in parts]
        if said != list(wanted):
            found.append(f"{page}: the groups are {', '.join(said)}; in {LIST} they are {', '.join(wanted)}")
        found += [
            f"{page}: {crate} does not stand under {name}"
            for name, part in parts
            for crate in wanted[name]
            if not re.search(rf"\b{re.escape(crate)}\b", part)
        ]
    return found


def sources(tree: Tree, crate: str) -> list[str]:
    """The files of a crate's code."""
    return [name for name in tree.names if name.startswith(f"crates/{crate}/src/") and name.endswith(".rt")]


def is_tests(crate: str) -> bool:
    """Whether a crate is one of tests."""
    return crate.endswith("_tests")


def functions(tree: Tree, crate: str) -> int:
    """How many functions a crate has."""
    return sum(len(FUNCTION.findall(tree.text(name))) for name in sources(tree, crate))


def large(tree: Tree) -> list[str]:
    """Crates of more than 130 functions, and those whose code has more than 2,000 lines."""
    found = []
    for crate in names(tree):
        count, lines = functions(tree, crate), sum(tree.text(name).count("\n") for name in sources(tree, crate))
        if count > _MOST_FUNCTIONS:
            found.append(f"{crate}: {count} functions, {_MOST_FUNCTIONS} at most")
        if lines > MOST_LINES:
            found.append(f"{crate}: {lines:,} lines of code, {MOST_LINES:,} at most")
    return found


def few(tree: Tree) -> list[str]:
    """Crates of under ten functions, but for those of tests, for which no reason is given."""
    counts = {crate: functions(tree, crate) for crate in names(tree)}
    return [
        f"{crate}: {count} functions, and {_REASONS} has no reason for it"
        for crate, count in counts.items()
        if count < _FEWEST and not is_tests(crate) and not re.search(rf"\b{re.escape(crate)}\b", tree.text(_REASONS))
    ]


def examples(tree: Tree) -> list[str]:
    """Crates whose first page has no example, but for those of tests and programs, whose page is their help."""
    pages = [f"crates/{crate}/src/lib.rt" for crate in names(tree) if not is_tests(crate)]
    return [
        f"{page}: no example on the crate's first page"
        for page in pages
        if tree.has(page) and not any(line.startswith("//! ```") for _, line in tree.lines(page))
    ]


def unsaid(tree: Tree) -> list[str]:
    """Public functions that have no comment, that no other crate uses and that no page names."""
    pages = "\n".join(tree.text(name) for name in tree.documents())
    texts = {crate: "\n".join(tree.text(name) for name in sources(tree, crate)) for crate in names(tree)}
    found = []
    for crate in texts:
        others = "\n".join([pages, *(text for other, text in texts.items() if other != crate)])
        for name in sources(tree, crate):
            found += [
                f"{name}: nothing uses, names or documents {public['name']}"
                for public in _PUBLIC.finditer(tree.text(name))
                if "///" not in public["above"] and not re.search(rf"\b{public['name']}\b", others)
            ]
    return found


def paths(tree: Tree) -> list[str]:
    """Public modules whose names the crate's first page hands out too, but for the paths that are kept."""
    kept, found = tree.text(_OLDER).split("\n"), []
    for crate in names(tree):
        page = f"crates/{crate}/src/lib.rt"
        for module in _MODULE.findall(tree.text(page)) if tree.has(page) else ():
            handed_out = re.search(rf"(?m)^pub use {module}::", tree.text(page))
            if handed_out and f"{crate}::{module}" not in kept:
                found.append(f"{page}: two paths lead to the names of {module}, and {_OLDER} does not have this one")
    return found
