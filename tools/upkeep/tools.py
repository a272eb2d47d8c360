"""Bars of the tools: each is in the one list, can be called, and says what it is."""

import ast
import re
from collections.abc import Iterator

from .tree import Tree

_LIST = "CONTRIBUTING.md"
_FOLDERS = ("bin/", "tools/", "trials/", "measures/")
_MAIN = 'if __name__ == "__main__":'


def scripts(tree: Tree) -> list[str]:
    """The files of these folders themselves that begin with `#!`."""
    return [
        name
        for name in tree.names
        if name.startswith(_FOLDERS) and name.count("/") == 1 and tree.text(name).startswith("#!")
    ]


def modules(tree: Tree) -> list[str]:
    """The modules of Python that have a command line and are no scripts."""
    return [
        name
        for name in tree.names
        if name.endswith(".py") and _MAIN in tree.text(name) and not tree.text(name).startswith("#!")
    ]


def in_list(tree: Tree) -> list[str]:
    """Tools that CONTRIBUTING does not name."""
    return [
        f"{_LIST}: {name} is not in the list of tools"
        for name in scripts(tree)
        if not re.search(rf"(?<![\w/]){re.escape(name)}\b", tree.text(_LIST))
    ]


def has_help(tree: Tree) -> list[str]:
    """Tools that do not read --help: tools/helps.sh looks at what they do then."""
    return [
        f"{name}: --help is not read"
        for name in [*scripts(tree), *modules(tree)]
        if not re.search(
            r"ArgumentParser\(|--help|from \.cli import main|import main\b|import run\b|def run\(", tree.text(name)
        )
        and "options(__doc__" not in tree.text(name)
    ]


def _wordless(text: str) -> Iterator[tuple[int, str]]:
    """The arguments of a program of Python that have no help, each with its line."""
    for call in ast.walk(ast.parse(text)):
        if isinstance(call, ast.Call) and isinstance(call.func, ast.Attribute) and call.func.attr == "add_argument":
            names = [word.value for word in call.args if isinstance(word, ast.Constant)]
            if names and all(keyword.arg != "help" for keyword in call.keywords):
                yield call.lineno, str(names[0])


def has_words(tree: Tree) -> list[str]:
    """Options of programs of Python of which their help says nothing."""
    return [
        f"{name}:{line}: {option} has no help"
        for name in tree.names
        if name.endswith(".py") and ".add_argument(" in tree.text(name)
        for line, option in _wordless(tree.text(name))
    ]


def executable(tree: Tree) -> list[str]:
    """Scripts that cannot be called."""
    return [f"{name}: not executable" for name in scripts(tree) if not (tree.top / name).stat().st_mode & 0o100]
