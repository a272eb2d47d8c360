"""Lines that wait for a disk: as they are, and from some number on seconds and polls in little memory."""

_MINUTE = 60
MOST_EXACT = 1000  # lines that are kept as they are


class Polls:
    """Seconds and polls in turn, each poll after a gap of seconds. A silence acts in whole minutes, and acting again it
    leaves what it left before, as long as nothing else is done to a sign. So of the gaps only one that has more whole
    minutes than each before it counts; the others may stand in pieces that have no more minutes than those."""

    def __init__(self) -> None:
        self.parts: list[tuple[int, int]] = []  # so many seconds, in gaps of at most so many
        self.seconds = 0  # since the last poll
        self.most = _MINUTE - 1  # the longest gap that does nothing new

    def heard(self) -> None:
        """A poll after the seconds so far."""
        gap, self.seconds = self.seconds, 0
        if gap > self.most:
            self.parts.append((gap, gap))
            self.most = gap - gap % _MINUTE + _MINUTE - 1
        elif self.parts and self.parts[-1][1] == self.most:
            self.parts[-1] = (self.parts[-1][0] + gap, self.most)
        else:
            self.parts.append((gap, self.most))

    def taken(self, count: int) -> list[bytes]:
        """About so many lines, which are no longer here; fewer where there are no more."""
        lines: list[bytes] = []
        while self.parts and len(lines) < count:
            seconds, most = self.parts.pop(0)
            gap = min(seconds, most)
            lines += [b"ticks %d" % gap, b"heard"] if gap else [b"heard"]
            if seconds > gap:
                self.parts.insert(0, (seconds - gap, most))
        if not self.parts and self.seconds:
            lines.append(b"ticks %d" % self.seconds)
            self.seconds = 0
        return lines


class Owed:
    """The lines in order. `heard` and seconds are told apart from all else, which comes only while the first lines are
    kept as they are."""

    def __init__(self) -> None:
        self.first: list[bytes] = []
        self.polls: Polls | None = None

    def __bool__(self) -> bool:
        return bool(self.first) or self.polls is not None

    def shorten(self) -> None:
        """Behind a poll, and enough lines, the next ones are kept in little memory."""
        if self.polls is None and len(self.first) >= MOST_EXACT and self.first[-1] == b"heard":
            self.polls = Polls()

    def ticks(self, seconds: int) -> None:
        """Seconds, in one line with those in a row before them."""
        self.shorten()
        if self.polls:
            self.polls.seconds += seconds
        elif self.first and self.first[-1].startswith(b"ticks "):
            self.first[-1] = b"ticks %d" % (int(self.first[-1][6:]) + seconds)
        else:
            self.first.append(b"ticks %d" % seconds)

    def add(self, lines: list[bytes]) -> None:
        """Other lines."""
        self.shorten()
        if self.polls is None:
            self.first += lines
        elif lines == [b"heard"]:
            self.polls.heard()
        else:
            self.first += self.polls.taken(1 << 30) + lines
            self.polls = None

    def some(self) -> list[bytes]:
        """The first lines, to be written; they stay here until they are dropped."""
        if not self.first and self.polls:
            self.first = self.polls.taken(MOST_EXACT)
            self.polls = self.polls if self.polls.parts else None
        return self.first[:MOST_EXACT]

    def drop(self, count: int) -> None:
        """So many of the first lines are written."""
        del self.first[:count]
