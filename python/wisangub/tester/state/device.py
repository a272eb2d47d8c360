"""What a sign reads of the objects that it claims beside the profile's, before any of them is set."""

from typing import Callable

from wisangub.tester.context import Context
from wisangub.tester.requests.objects import Name, Value
from wisangub.tester.sign.pair import Pair

from .reset import Reset

Read = Callable[[list[Name]], dict[Name, Value | None]]


class Learnt:
    """Ours has the objects that the sign claims, with the values that the sign reads, while this lasts; a value that
    is not what is claimed is another than ours, and so a difference. Values that are read alone may change; what is put
    back at the end is read surely."""

    def __init__(self, pair: Pair, reset: Reset, context: Context, read_surely: Read) -> None:
        self._pair, self._reset, self._context, self._read_surely = pair, reset, context, read_surely
        self._besides: list[Name] = []

    def __enter__(self) -> None:
        claims = self._context.claims.device
        settable = self._settable()
        there = [claim.name for claim in claims if claim.is_there]
        read = self._reset.read([name for name in there if name not in settable]) if there else {}
        read |= self._read_surely([name for name in there if name in settable]) if there else {}
        right = {name: value for name, value in read.items() if value is not None}
        right = {claim.name: right[claim.name] for claim in claims if claim.is_right(right.get(claim.name))}
        self._context.device.update({name: value for name, value in right.items() if name in settable})
        if self._pair.device is not None:
            held = {claim.name: right.get(claim.name, claim.example()) for claim in claims if claim.is_there}
            self._pair.device.learn(claims, held)
        self._pair.masked |= set(right) - settable
        self._besides = self._pair.besides.names
        names = {claim.name for claim in claims}
        self._pair.besides.names = [name for name in self._besides if name not in names]

    def __exit__(self, *_: object) -> None:
        self._pair.besides.names = self._besides
        self._pair.masked -= {claim.name for claim in self._context.claims.device}
        if self._pair.device is not None:
            self._pair.device.learn((), {})

    def _settable(self) -> set[Name]:
        return {claim.name for claim in self._context.claims.device if claim.ends is not None}
