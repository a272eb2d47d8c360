"""Which cases show what of a sign's claims, and with what outcome."""

from dataclasses import dataclass, field

from wisangub.snmp.names import OBJECTS
from wisangub.tester.requests.texts import TAGS
from wisangub.tester.sign.device_claims import DeviceClaim

ALIKE, DIFFERS, NOT_JUDGED, NOT_SUPPORTED = "alike", "differs", "not judged", "not supported"
OUTCOMES = (ALIKE, DIFFERS, NOT_JUDGED, NOT_SUPPORTED)


@dataclass
class Case:
    """A case by its chapter and its name: the key of the rule that it is about, what it shows, and its outcome."""

    chapter: str
    name: str
    rule: str
    shows: list[str]
    outcome: str = NOT_JUDGED


@dataclass
class Requirement:
    """An object or a tag of the profile: whether it is claimed, with what range, and the cases that show it."""

    word: str
    is_claimed: bool
    claimed_range: tuple[int, int] | None
    cases: list[Case]

    def count(self, outcome: str) -> int:
        """How many of its cases have this outcome."""
        return sum(case.outcome == outcome for case in self.cases)

    def chapters(self) -> list[str]:
        """The chapters of its cases."""
        return list(dict.fromkeys(case.chapter for case in self.cases))


@dataclass
class Trace:
    """All cases of a test, in order, and what is claimed."""

    missing: frozenset[str] = frozenset()  # objects, and tags as `[fo]`
    ranges: dict[str, tuple[int, int]] = field(default_factory=dict)
    cases: list[Case] = field(default_factory=list)
    device: list[str] = field(default_factory=list)  # objects beside the profile's that are claimed, or said to be none

    def claim_device(self, claims: tuple[DeviceClaim, ...]) -> None:
        """What is claimed beside the profile's objects."""
        self.device = [claim.word for claim in claims]
        self.missing |= {claim.word for claim in claims if not claim.is_there}
        self.ranges |= {claim.word: claim.ends for claim in claims if claim.ends is not None}

    def requirements(self) -> list[Requirement]:
        """Each object and tag of the profile, and what is claimed besides, with the cases that show it."""
        words = [*OBJECTS, *[f"[{tag}]" for tag in TAGS], *self.device]
        shown: dict[str, list[Case]] = {word: [] for word in words}
        for case in self.cases:
            for word in case.shows:
                shown[word].append(case)
        return [Requirement(word, word not in self.missing, self.ranges.get(word), shown[word]) for word in words]
