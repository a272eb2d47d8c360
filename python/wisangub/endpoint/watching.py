"""Who watches a sign's front end: nobody, where no page is asked for."""

from __future__ import annotations

from typing import TYPE_CHECKING

if TYPE_CHECKING:
    from .sign_front_end import Heard, SignFrontEnd


class Watcher:
    """Is told by the front end what passes there, in the front end's thread and in its order, and sees and loses
    nothing."""

    def files(self) -> list[int]:
        """What wakes the front end, as a datagram does."""
        return []

    def wait(self, now: float) -> float | None:
        """The seconds until the front end has to come by; None where that need not be."""
        return None

    def loses(self) -> bool:
        """Whether this datagram to the sign is to be lost."""
        return False

    def left_out(self, heard: Heard, why: str) -> None:
        """A datagram was not handed over."""

    def answered(self, heard: Heard, answer: bytes) -> bool:
        """A datagram was handed over, and answered so: whether its reply is to be lost."""
        return False

    def before_seconds(self) -> None:
        """Seconds are to be handed over, or the power is to go or to come back."""

    def after_seconds(self) -> None:
        """Seconds were handed over."""

    def after_power(self) -> None:
        """The power went or came back."""

    def turn(self, front_end: SignFrontEnd) -> None:
        """The front end is between two steps."""
