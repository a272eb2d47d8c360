"""Differences: what is kept of each, and what counts as the same one."""

from dataclasses import dataclass, field

from wisangub.tester.requests.messages import spelled, status_of
from wisangub.tester.requests.objects import object_of, spoken
from wisangub.tester.requests.steps import Step
from wisangub.tester.sign.pair import Exchange

from .compare import Kind, Mismatch, fields
from .rules import Rule


@dataclass(frozen=True)
class Signature:
    """What is alike in two runs that show the same difference."""

    kind: Kind
    request: int | None  # Get, GetNext, Set, or octets that are no message
    ours: int | None
    theirs: int | None
    objects: tuple[tuple[int, ...], ...]

    def is_like(self, other: "Signature") -> bool:
        """Whether both are one difference: the same but for the objects, of which one is in both."""
        same = (self.kind, self.request, self.ours, self.theirs) == (
            other.kind,
            other.request,
            other.ours,
            other.theirs,
        )
        return same and (self.objects == other.objects or bool(set(self.objects) & set(other.objects)))


def signature(exchange: Exchange) -> Signature:
    """What is alike in two exchanges that show the same difference."""
    assert exchange.mismatch is not None
    message = spelled(exchange.octets)
    names = exchange.mismatch.names
    kind = None if message is None else message.kind
    objects = tuple(sorted({object_of(name) for name in names}))
    return Signature(exchange.mismatch.kind, kind, status_of(exchange.ours), status_of(exchange.theirs), objects)


def subject(exchange: Exchange) -> tuple[tuple[int, ...], ...]:
    """The objects that a difference is about: of the values that differ, or of the binding that one refused."""
    assert exchange.mismatch is not None
    if exchange.mismatch.names:
        return tuple(sorted({object_of(name) for name in exchange.mismatch.names[:1]}))
    message = spelled(exchange.octets)
    replies = [spelled(octets or b"") for octets in (exchange.ours, exchange.theirs)]
    for reply in replies:
        if message is not None and reply is not None and 1 <= reply.index <= len(message.bindings):
            return (object_of(message.bindings[reply.index - 1][0]),)
    return ()


@dataclass
class Difference:
    """A difference that is told, with the sequence from the known state that shows it."""

    rule: Rule
    found_in: str  # the chapter in which it was seen
    mismatch: Mismatch
    steps: list[Step]
    sent: list[bytes | None]  # the datagrams of the last run, None where a tick was waited for
    octets: bytes
    ours: bytes | None
    theirs: bytes | None
    is_repeated: bool = True
    is_shrunk: bool = True
    alike: int = 0
    note: str = ""
    pictures: list[tuple[str, list[str]]] = field(default_factory=list)

    subject: tuple[tuple[int, ...], ...] = ()

    @staticmethod
    def of(rule: Rule, found_in: str, exchange: Exchange, steps: list[Step], sent: list[bytes | None]) -> "Difference":
        """The difference that an exchange shows at the end of these steps."""
        assert exchange.mismatch is not None
        octets, ours, theirs = exchange.octets, exchange.ours, exchange.theirs
        made = Difference(rule, found_in, exchange.mismatch, steps, sent, octets, ours, theirs)
        made.subject = subject(exchange)
        return made

    def is_like(self, other: "Difference") -> bool:
        """Whether both are of one rule, class and object."""
        kinds = (self.mismatch.kind, other.mismatch.kind)
        return self.rule.key == other.rule.key and kinds[0] is kinds[1] and self.subject == other.subject

    @property
    def title(self) -> str:
        """The class and the first of the objects that differ."""
        about = ", ".join(dict.fromkeys(spoken(name) for name in self.mismatch.names[:3]))
        return self.mismatch.kind.value + (f": {about}" if about else "")

    @property
    def datagrams(self) -> int:
        """How many datagrams the sequence sends."""
        return sum(octets is not None for octets in self.sent)

    def sides(self) -> tuple[list[str], list[str]]:
        """Both replies as fields."""
        return fields(self.ours), fields(self.theirs)

    def repeat_words(self) -> str:
        """The sequence as `--repeat` takes it."""
        return ",".join("tick" if octets is None else octets.hex() or "-" for octets in self.sent)
