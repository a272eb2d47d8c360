"""A bar of the Python that is shipped: it imports itself, Python's own modules and the packages of its extras."""

import ast
import sys
from collections.abc import Iterator

from .tree import Tree

FOLDER = "python/wisangub/"
_PACKAGES = {"aiohttp", "jinja2", "markupsafe", "prometheus_client", "psycopg", "rich"}
_KNOWN = set(sys.stdlib_module_names) | _PACKAGES | {"wisangub"}


def imported(text: str) -> Iterator[tuple[int, str]]:
    """The lines that import something from outside of a file's own package, and the first names of that."""
    for node in ast.walk(ast.parse(text)):
        if isinstance(node, ast.Import):
            yield from ((node.lineno, name.name.split(".")[0]) for name in node.names)
        elif isinstance(node, ast.ImportFrom) and not node.level:
            yield node.lineno, str(node.module).split(".")[0]


def alone(tree: Tree) -> list[str]:
    """What is shipped and imports the model, a trial, a tool, or what nobody has said that it needs."""
    files = (name for name in tree.names if name.startswith(FOLDER) and name.endswith(".py"))
    return [
        f"{name}:{line}: imports {word}, which is not shipped"
        for name in files
        for line, word in imported(tree.text(name))
        if word not in _KNOWN
    ]
