"""Which edits are tried in one check."""

from __future__ import annotations

import pathlib

from upkeep.edits import BadEdit, Edit, applied


def are_apart(edits: list[Edit]) -> bool:
    """Whether each can be applied where the others are: none makes a text twice that another one changes."""
    texts: dict[pathlib.Path, str] = {}
    try:
        for edit in edits:
            texts = applied(edit, texts)
    except BadEdit:
        return False
    return True


def groups(edits: list[Edit]) -> list[list[Edit]]:
    """Edits that change functions of their own, and each other one alone."""
    made: list[list[Edit]] = []
    for edit in edits:
        place = next(
            (
                group
                for group in made
                if None not in edit.functions
                and not any(None in other.functions or other.functions & edit.functions for other in group)
                and are_apart([*group, edit])
            ),
            None,
        )
        if place is None:
            made.append([edit])
        else:
            place.append(edit)
    return made
