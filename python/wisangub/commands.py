"""A command with subcommands: the first word may name one, which has options of its own."""

import importlib
import sys
from collections.abc import Mapping
from typing import Callable

from wisangub import refusal


def run(main: str, parts: Mapping[str, str], status_of: Callable[[Callable[[], int]], int] = refusal.status_of) -> int:
    """The exit status of the command: of the module that its first word names, and else of `main`. Each module has a
    function `main` that reads what follows; `status_of` says what one that ends otherwise comes to."""
    word = sys.argv[1] if len(sys.argv) > 1 else ""
    if word in parts:
        sys.argv[:2] = [f"{sys.argv[0]} {word}"]

    def program() -> int:
        return int(importlib.import_module(parts.get(word, main)).main())

    return status_of(program)
