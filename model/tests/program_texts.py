"""The texts that tests of the program want, as their sources have them."""

import pathlib
import re
from collections.abc import Iterator

CRATES = pathlib.Path(__file__).parents[2] / "crates"
_TEXT = re.compile(r'const (\w+): &str = "(?:\\\n)?([^"]*)";')
_LIST = re.compile(r"const (\w+): &\[&str\] = &\[(.*?)\];", re.DOTALL)
_ITEM = re.compile(r'"([^"]*)"|((?:\w+::)*)(\w+)')


def texts(*names: str) -> dict[str, str]:
    """The texts of these files, by the names of their constants."""
    return {one[1]: one[2] for name in names for one in _TEXT.finditer((CRATES / name).read_text())}


def items(words: str, named: dict[str, str]) -> list[str]:
    """The texts of a list: each stands there, or is named."""
    return [named[one[3]] if one[3] else one[1].replace("\\n", "\n") for one in _ITEM.finditer(words)]


def lists(name: str, named: dict[str, str]) -> Iterator[tuple[str, list[str]]]:
    """The lists of texts of a file, with the names of their constants."""
    for one in _LIST.finditer((CRATES / name).read_text()):
        yield one[1], items(one[2], named)
