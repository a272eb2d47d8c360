"""The edits of a crate, tried: which are refused, by which goals, and why others are not.

An edit is refused where a goal of the function that it changes stays open; where it changes a constant or a type, a
goal of any function of the crate, or a lemma on it: those that name it are tried first, and all where none of these
refuses it. Where the proof files of a function do not read in a check of several, its edit is tried by itself and the
others together without it; where anything else is odd there, each is tried by itself.
"""

from __future__ import annotations

from collections.abc import Iterator
from dataclasses import dataclass, field

from upkeep.edits import Edit

from .check import Checker
from .groups import groups
from .said import Said


@dataclass
class Outcome:
    edit: Edit
    goals: list[str] = field(default_factory=list)
    why: str = ""  # not refused
    is_kept: bool = False  # an earlier run refused it

    @property
    def is_refused(self) -> bool:
        return bool(self.goals)


def paths_of(edit: Edit) -> set[str]:
    """The functions that it changes, where it changes nothing else."""
    return set() if None in edit.functions else {path for path in edit.functions if path}


def judged(edit: Edit, paths: set[str], said: Said) -> Outcome:
    """What the open goals of these functions say of an edit that was tried by itself."""
    goals = [] if said.bad or said.unknown else said.goals_of(paths)
    if not paths_of(edit) and not (said.bad or said.unknown):
        # a lemma says what a constant is
        goals += said.lemmas
    if goals:
        return Outcome(edit, goals)
    unread = [said.unread[path] for path in sorted(said.unread)]
    others = said.goals_of(said.functions)
    if said.bad:
        return Outcome(edit, why=f"cannot be read: {said.bad}")
    if said.unknown or unread:
        return Outcome(edit, why=f"nothing is known of it: {said.unknown or unread[0]}")
    return Outcome(edit, why=f"not refused: {f'open are {others} alone' if others else 'it is still proved'}")


def by_users(checker: Checker, edit: Edit) -> Outcome | None:
    """The edit of a constant or a type in a check of the functions that name it, where one of them refuses it."""
    if not edit.users:
        return None
    said = checker.said([edit], edit.users)
    outcome = judged(edit, set(said.functions), said)
    return outcome if outcome.is_refused else None


def alone(checker: Checker, edit: Edit) -> Outcome:
    """The edit in a check of the functions that it changes, or else of all."""
    if refused := by_users(checker, edit):
        return refused
    paths = paths_of(edit)
    said = checker.said([edit], paths)
    if paths and (said.unknown or not said.bad and not paths <= said.functions):
        # the prover has another name for the function, say
        said = checker.said([edit], set())
        paths &= said.functions
    return judged(edit, paths or said.functions, said)


def together(checker: Checker, group: list[Edit]) -> Iterator[Outcome]:
    """Edits of functions of their own in one check. One that leaves no goal open there is tried by itself."""
    said = checker.said(group, {path for edit in group for path in paths_of(edit)})
    unread = [edit for edit in group if paths_of(edit) & set(said.unread)]
    if unread and not said.bad and not said.unknown:
        for edit in unread:
            yield alone(checker, edit)
        yield from tried(checker, [edit for edit in group if edit not in unread])
        return
    for edit in group:
        goals = [] if said.is_odd else said.goals_of(paths_of(edit))
        yield Outcome(edit, goals) if goals else alone(checker, edit)


def tried(checker: Checker, edits: list[Edit]) -> Iterator[Outcome]:
    """Each of the edits, which can all be applied."""
    for group in groups(edits):
        if len(group) > 1:
            yield from together(checker, group)
        else:
            yield alone(checker, group[0])
