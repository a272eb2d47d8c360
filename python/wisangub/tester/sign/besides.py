"""Objects that a sign has besides the profile's: they are no difference, and GetNext is to go over them."""

import bisect
from dataclasses import dataclass, field, replace
from typing import Callable

from wisangub.snmp import wire
from wisangub.tester.findings.compare import Kind, Mismatch
from wisangub.tester.requests.objects import Name

AskOurs = Callable[[wire.Message], wire.Message | None]


@dataclass
class Besides:
    """The names of the profile's instances, and those that the sign has besides, both in order."""

    known: list[Name] = field(default_factory=list)
    names: list[Name] = field(default_factory=list)

    def add(self, name: Name) -> None:
        """The sign has this instance too."""
        bisect.insort(self.names, name)

    def after(self, name: Name) -> Name | None:
        """What comes after a name, of all that the sign has."""
        found = [held[at] for held in (self.known, self.names) if (at := bisect.bisect_right(held, name)) < len(held)]
        return min(found, default=None)

    def judged(
        self, request: wire.Message, theirs: wire.Message, differs: Mismatch, masked: frozenset[Name], ours: AskOurs
    ) -> Mismatch | None:
        """What still differs: of the bindings that are about the profile's objects alone, `ours` says what is right."""
        beside = [self._is_beside(request.kind, name) for name, _ in request.bindings]
        if not any(beside):
            return differs
        if request.kind == wire.SET:
            return None if all(beside) else differs
        others = [bound for bound, is_beside in zip(request.bindings, beside) if not is_beside]
        places = [at for at, is_beside in enumerate(beside, 1) if not is_beside]
        right = ours(replace(request, bindings=others)) if others else None
        if others and right is None or theirs.status == wire.TOO_BIG:
            return None if theirs.status == wire.TOO_BIG else differs
        if right is not None and right.status:
            is_same = (theirs.status, theirs.index) == (right.status, places[right.index - 1] if right.index else 0)
            return None if is_same else Mismatch(Kind.STATUS)
        if theirs.status:
            return Mismatch(Kind.STATUS)
        return self._values(request, theirs, masked, {} if right is None else dict(right.bindings))

    def _is_beside(self, kind: int, name: Name) -> bool:
        found = self.after(name) if kind == wire.GET_NEXT else name
        return found is not None and found in self.names

    def _values(
        self, request: wire.Message, theirs: wire.Message, masked: frozenset[Name], right: dict[Name, wire.Tagged]
    ) -> Mismatch | None:
        """Other names, or other values of the profile's objects."""
        asked = [name for name, _ in request.bindings]
        expected: list[Name | None] = [self.after(name) if request.kind == wire.GET_NEXT else name for name in asked]
        have = [name for name, _ in theirs.bindings]
        if have != expected:
            return Mismatch(Kind.BINDINGS, tuple(name for name, want in zip(have, expected) if name != want))
        wrong = [name for name, value in theirs.bindings if right.get(name, value) != value and name not in masked]
        return Mismatch(Kind.VALUE, tuple(wrong)) if wrong else None
