"""What the page shows, gathered in the front end's thread; a page's threads read it whole, as it was last put there."""

import time
from dataclasses import dataclass, replace
from typing import TYPE_CHECKING

from wisangub.endpoint.clock import running
from wisangub.endpoint.watching import Watcher
from wisangub.process.coprocess import CoProcess

from .exchanges import Exchanges
from .presses import Presses
from .readings import Asker, Reading

if TYPE_CHECKING:
    from wisangub.endpoint.sign_front_end import Communities, Heard, SignFrontEnd

LOOK = 0.2  # seconds from one look at the sign to the next
POWER_LOSS = 13  # of dmsMsgSourceMode: a sign has it as long as its power is off, and never else


@dataclass(frozen=True)
class Shown:
    """The line `shown ..` of a live sign's answer to `state`."""

    memory: int
    number: int
    checksum: str
    mode: int
    priority: int
    remaining: int
    text: bytes

    @staticmethod
    def of(line: bytes) -> "Shown":
        words = line.decode("ascii").split(" ")
        memory, number, mode, priority, remaining = (int(words[at]) for at in (1, 2, 5, 7, 9))
        text = b"" if words[11] == "-" else bytes.fromhex(words[11])
        return Shown(memory, number, words[3], mode, priority, remaining, text)

    @property
    def is_powered(self) -> bool:
        return self.mode != POWER_LOSS

    def is_as(self, other: "Shown") -> bool:
        """Whether it is the same message, for another time."""
        return replace(self, remaining=0) == replace(other, remaining=0)


@dataclass(frozen=True)
class View:
    """What is known of the sign: what is shown and its lamps; the last reading, when it was made, and whether the sign
    may have changed since; the message that was shown then, and the defaults that it was activated under."""

    shown: Shown
    lamps: tuple[bytes, ...]
    reading: Reading | None
    read_at: float
    is_older: bool
    read_of: Shown | None
    defaults: tuple[int, ...] | None

    @property
    def is_read_of_shown(self) -> bool:
        """Whether the reading is of the message that is shown now."""
        return self.read_of is not None and self.shown.is_as(self.read_of)


class Board(Watcher):
    """`is_heard`: no second has passed since a datagram was answered or the power came back, so that a Get changes
    nothing. `is_wanted`: there may be something new to ask for by Gets."""

    def __init__(self, sign: CoProcess, who: "Communities", reading: Reading | None, is_heard: bool) -> None:
        self.sign, self.who, self.asker = sign, who, Asker(sign, who[0])
        self.exchanges, self.presses = Exchanges(*who), Presses()
        self.is_heard, self.is_wanted, self.is_due = is_heard, reading is None, True
        self.is_shown_anew, self.looked = False, 0.0
        self.silence = reading.silence if reading else 0
        shown, lamps = Shown.of(sign.ask(b"state")[0]), tuple(sign.ask(b"show")[:-1])
        defaults = reading.defaults if reading else None
        self.view = View(shown, lamps, reading, time.time(), False, shown if reading else None, defaults)
        self.look()

    # --- what the front end asks and tells ----------------------------------------------------------------------------

    def files(self) -> list[int]:
        return [self.presses.file]

    def wait(self, now: float) -> float | None:
        is_waited_for = self.is_due or self.is_wanted and self.may_ask()
        return max(0.0, self.looked + LOOK - now) if is_waited_for else None

    def loses(self) -> bool:
        return self.presses.loses_request()

    def left_out(self, heard: "Heard", why: str) -> None:
        self.exchanges.add(time.time(), heard, b"", why)

    def answered(self, heard: "Heard", answer: bytes) -> bool:
        word, _, rest = answer.partition(b" ")
        if word not in (b"reply", b"accepted"):
            self.exchanges.add(time.time(), heard, b"", "not answered")
            return False
        is_lost = self.presses.loses_reply()
        self.exchanges.add(time.time(), heard, rest.rpartition(b" ")[2], "its reply was lost" if is_lost else "")
        self.is_heard = self.is_wanted = True
        self.is_shown_anew = self.is_shown_anew or word == b"accepted"
        return is_lost

    def before_seconds(self) -> None:
        if self.is_wanted and self.may_ask():
            self.look()
        self.is_heard = False

    def after_seconds(self) -> None:
        self.is_due = True
        reading = self.view.reading
        self.is_wanted = self.is_wanted or reading is not None and reading.is_validating

    def after_power(self) -> None:
        self.look()

    def turn(self, front_end: "SignFrontEnd") -> None:
        pressed = self.presses.done_by(front_end)
        if pressed or self.wait(running()) == 0.0:
            self.look()
        for one in pressed:
            one.done.set()

    # --- what is looked at --------------------------------------------------------------------------------------------

    def may_ask(self, shown: Shown | None = None) -> bool:
        """Whether a Get would change nothing. Where the power is off it is not answered."""
        return (shown or self.view.shown).is_powered and (self.is_heard or self.silence == 0)

    def look(self) -> None:
        """Asks what is shown, and the rest where that may be asked. Only a power event has the power back, and it is
        looked at at once: then the count of silent seconds is 0."""
        before, self.is_due, self.looked = self.view, False, running()
        shown, lamps = Shown.of(self.sign.ask(b"state")[0]), tuple(self.sign.ask(b"show")[:-1])
        is_other = self.is_shown_anew or not shown.is_as(before.shown) or lamps != before.lamps
        is_back = shown.is_powered and not before.shown.is_powered
        self.is_heard, self.is_wanted = self.is_heard or is_back, self.is_wanted or is_other or is_back
        self.is_shown_anew = False
        view = replace(before, shown=shown, lamps=lamps, is_older=self.is_wanted)
        self.view = self.asked(view, is_other) if self.is_wanted and self.may_ask(shown) else view

    def asked(self, view: View, is_other: bool) -> View:
        """The view with what is asked for by Gets, which nobody sees half. A message has the defaults that hold as it
        comes up."""
        reading = self.asker.read()
        if reading is None:
            return view
        self.is_wanted, self.silence = False, reading.silence
        defaults = reading.defaults if is_other or view.defaults is None else view.defaults
        return replace(
            view, reading=reading, read_at=time.time(), is_older=False, read_of=view.shown, defaults=defaults
        )
