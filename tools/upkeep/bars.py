"""The bars by their names, and those that do not hold yet."""

from collections.abc import Callable
from dataclasses import dataclass

from . import code, counts, crates, documents, drawing, families, map_page, rows, shipped, tools, words, wrong
from .tree import Tree


@dataclass(frozen=True)
class Bar:
    """What is looked at; findings that begin with one of `later` are printed with --all alone, until then."""

    name: str
    look: Callable[[Tree], list[str]]
    later: tuple[str, ...] = ()

    def findings(self, tree: Tree, is_all: bool = False) -> list[str]:
        """What is below the bar, now or with what is left for later."""
        found = self.look(tree)
        return found if is_all else [line for line in found if not line.startswith(self.later or ("\0",))]


BARS = (
    Bar("lines of pages", documents.wide_lines),
    Bar("rows of tables", documents.wide_rows),
    Bar("lengths of pages", documents.long_pages),
    Bar("links", documents.links),
    Bar("links of the map", map_page.stale),
    Bar("crates are named", crates.named),
    Bar("groups are in one order", crates.ordered),
    Bar("families of crates", families.kept),
    Bar("crates of few functions", crates.few),
    Bar("sizes of crates", crates.large),
    Bar("examples of crates", crates.examples),
    Bar("public functions", crates.unsaid),
    Bar("one path to each name", crates.paths),
    Bar("wrong bodies are kept", wrong.listed),
    Bar("a wrong body of each crate", wrong.owed),
    Bar("wrong bodies apply and read", wrong.read),
    Bar("the drawing of the groups", drawing.drawn),
    Bar("files that octets pass", drawing.passed),
    Bar("the list of tools", tools.in_list),
    Bar("tools can be called", tools.executable),
    Bar("tools have a help", tools.has_help),
    Bar("options have a help", tools.has_words),
    Bar("rows of hexadecimal", rows.without_words),
    Bar("numbers of the page on tests", counts.stale),
    Bar("nothing is put off", words.put_off),
    Bar("nothing is named that is gone", words.gone),
    Bar("lines of code", code.wide),
    Bar("what is shipped stands alone", shipped.alone),
)

# Bars that do not hold yet: they are looked at with --all, or by name.
NOT_YET: tuple[Bar, ...] = ()
