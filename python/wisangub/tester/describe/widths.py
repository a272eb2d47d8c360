"""How wide the characters of a font are.

What fits says that characters are not wider than was guessed; the first line that does not fit says of all its
characters at once that they are not narrower. So one validation tells a whole group whose widths were guessed right.
"""

import copy
from collections import deque
from collections.abc import Generator, Hashable
from dataclasses import dataclass, field
from typing import Callable, Sequence

from .fillers import Fillers
from .fonts import MOST_SIDE, Found
from .lines import Line, LineFrame, spelled
from .narrowing import first_without_room
from .validations import Validations

# characters that have one width in most fonts
CLASSES = (
    "023456789ABCDEFGHKLNOPRSTUVXYZ",
    "abcdeghnopqsu",
    "=+-_~?$^*/\\QJvxyzk&",
    "#%@MWmw",
    "I1il",
    "ftrj",
    ".,:;!'|`",
    '()[]{}<>"',
    " ",
)
_MORE = 5  # columns by which a character may be wider than was guessed, for the first line of the next text
_MOST_SIZE, _MOST_COPIES = 20, 24  # characters of a group, and times that each stands in a line


def kind(character: int) -> Hashable:
    """The class of a character; one of its own where none has it."""
    return next((at for at, held in enumerate(CLASSES) if chr(character) in held), -character)


def _place(character: int) -> tuple[int, int]:
    """Where a character stands among the others: those of a class together."""
    found = kind(character)
    return (found if isinstance(found, int) and found >= 0 else len(CLASSES)), character


@dataclass
class Group:
    """Characters with the widths that are guessed, in columns; of those that are bounded none is wider."""

    guesses: dict[int, int]
    bounded: set[int] = field(default_factory=set)

    def parts(self) -> "list[Group]":
        """The halves; of one character its next guess, since it is narrower."""
        held = list(self.guesses.items())
        if len(held) == 1:
            return [Group({character: guess - 1 for character, guess in held}, set(self.bounded))]
        halves = [dict(held[: len(held) // 2]), dict(held[len(held) // 2 :])]
        return [Group(half, self.bounded & set(half)) for half in halves]


@dataclass
class State:
    """What is known of widths, what is guessed, and the characters that no line tells."""

    known: dict[int, int]
    groups: deque[Group] = field(default_factory=deque)
    untold: list[int] = field(default_factory=list)


@dataclass
class Widths:
    """The widths of a font's characters, whose spacing and one width at least are known. Characters of which `alike`
    says the same are guessed to be as wide as each other."""

    validations: Validations
    font: Found
    fillers: Fillers
    room: int  # columns of the matrix
    frame: Callable[[], LineFrame]
    alike: Callable[[int], Hashable] = kind

    def find(self) -> None:
        """All widths."""
        state = State(dict(self.font.widths))
        waiting = sorted((held for held in self.font.characters if held not in state.known), key=_place)
        while waiting or state.groups:
            waiting = self._guess(state, waiting)
            self._ask(state)
        if state.untold:
            numbers = ", ".join(map(str, state.untold))
            self.font.notes.append(f"the widths of these characters are guessed, since no text tells them: {numbers}")

    # --- guesses ---------------------------------------------------------------------------------------------

    def _guess(self, state: State, waiting: Sequence[int]) -> list[int]:
        """Groups of characters like one that is known, and the first of each other kind alone; what is left."""
        known = {self.alike(held): width for held, width in state.known.items()}
        guessed = [held for held in waiting if self.alike(held) in known]
        while guessed:
            guesses = {held: known[self.alike(held)] for held in guessed[: self._size(guessed, known)]}
            state.groups.append(Group(guesses))
            guessed = guessed[len(guesses) :]
        pending = {self.alike(held) for group in state.groups for held in group.guesses} | set(known)
        usual, left = state.known[self.font.reference], []
        for held in waiting:
            if self.alike(held) in known:
                continue
            if self.alike(held) in pending:
                left.append(held)
                continue
            pending.add(self.alike(held))
            state.groups.append(Group({held: min(MOST_SIDE, usual + _MORE)}))
        return left

    def _size(self, guessed: Sequence[int], known: dict[Hashable, int]) -> int:
        """How many of these one line tells at most."""
        size = min(_MOST_SIZE, len(guessed))
        while size > 1 and self._least({held: known[self.alike(held)] for held in guessed[:size]}) is None:
            size -= 1
        return size

    # --- lines -----------------------------------------------------------------------------------------------

    def _line(self, held: Sequence[int], pitches: int, columns: int) -> Line | None:
        """These characters, that are thought to take so many columns each with a spacing, in a line of so many; it is
        filled up with others of the font, or at the right with those of another one."""
        if pitches > columns:
            return None
        mine = tuple((self.font.number, character) for character in held)
        filler = self.fillers.pitched(self.font.number, columns - pitches)
        if filler is not None:
            return Line(mine + filler)
        other = self.fillers.part(columns - pitches, self.font.number)
        return None if other is None else Line(mine, right=other)

    def _most(self, character: int, guess: int) -> Line | None:
        """The shortest line that has no room just where a character is wider than was guessed."""
        capacity, pitch = self.room + self.font.space, guess + self.font.space
        found: list[Line] = []
        for count in range(1, capacity // pitch + 1):
            lines = (self._line([character] * count, count * pitch, capacity - slack) for slack in range(count))
            found += [line for line in lines if line is not None][:1]
            if found and count >= 4:
                break
        return min(found, key=_octets) if found else None

    def _least(self, guesses: dict[int, int]) -> Line | None:
        """A line that has room just where one of these, of which none is wider, is narrower than was guessed."""
        capacity, pitches = self.room + self.font.space, sum(guesses.values()) + len(guesses) * self.font.space
        for copies in range(1, min(_MOST_COPIES, (capacity + _MOST_COPIES) // pitches) + 1):
            held = [character for character in guesses for _ in range(copies)]
            for over in range(1, copies + 1):
                line = self._line(held, copies * pitches, capacity + over)
                if line is not None:
                    return line
        return None

    # --- texts -----------------------------------------------------------------------------------------------

    def _walk(self, state: State) -> Generator[Line, bool, None]:
        """The lines that tell the groups, one after the other, where each is answered by whether it has room; it ends
        with the first that has none. What an answer tells is in the state at once."""
        groups = state.groups
        while groups:
            group = groups[0]
            for character, guess in list(group.guesses.items()):
                if character in group.bounded:
                    continue
                line = self._most(character, guess)
                if line is None or guess >= MOST_SIDE:
                    group.bounded.add(character)
                elif (yield line):
                    group.bounded.add(character)
                else:
                    del group.guesses[character]
                    if not group.guesses:
                        groups.popleft()
                    groups.append(Group({character: min(MOST_SIDE, guess + 1 + _MORE)}))
                    return
            is_told = max(group.guesses.values()) == 1  # nothing is narrower
            line = None if is_told else self._least(group.guesses)
            if line is None:
                groups.popleft()
                self._close(state, group, is_told)
                continue
            has_room = yield line
            groups.popleft()
            if not has_room:
                state.known |= group.guesses
                return
            groups.extend(group.parts())

    def _close(self, state: State, group: Group, is_told: bool) -> None:
        """A group that is told without a line; or no line tells it, so its halves are told, or its guess is taken."""
        if len(group.guesses) > 1 and not is_told:
            state.groups.extend(group.parts())
            return
        state.known |= group.guesses
        state.untold += [] if is_told else group.guesses

    def _ask(self, state: State) -> None:
        """One validation of as many lines as a text has room for."""
        frame, count = self.frame(), 0
        walk = self._walk(copy.deepcopy(state))
        line = next(walk, None)
        while line is not None and frame.is_added(line):
            count += 1
            line = _sent(walk, True)
        walk = self._walk(state)
        line = next(walk, None)
        if count:
            failed = first_without_room(self.validations.ask(frame.text()), frame, count)
            for at in range(min(count, failed + 1)):
                line = _sent(walk, at != failed)
        elif line is not None:
            self._close(state, state.groups.popleft(), False)
        self.font.widths.update(state.known)


def _sent(walk: Generator[Line, bool, None], has_room: bool) -> Line | None:
    """The next line after this answer; None where there is none."""
    try:
        return walk.send(has_room)
    except StopIteration:
        return None


def _octets(line: Line) -> int:
    tags = len(b"[jl4][fo1][jl2][fo2]") if line.right else 0
    return tags + sum(len(spelled(held)) for _, held in line.left + line.right)
