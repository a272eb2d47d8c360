"""What a sign says of itself: its size, rows, defaults and permanent messages, and the order of its checksums."""

from dataclasses import dataclass, field

from wisangub.snmp.names import Memory, scalar
from wisangub.tester.requests.checksum import checksum
from wisangub.tester.requests.objects import DEFAULTS, Column, Row, Value

from .client import Client, Unreached

_SIZE = ("vmsSignWidthPixels", "vmsSignHeightPixels")
_ROWS = ("dmsNumPermanentMsg", "dmsMaxChangeableMsg", "dmsMaxVolatileMsg")
MOST_COLUMNS, MOST_LINES = 256, 64  # of a description
MOST_PERMANENT, MOST_CHANGEABLE, MOST_VOLATILE = 16, 64, 16
_MOST = 65535  # columns, rows of lamps, messages of a memory, and any of the defaults


@dataclass(frozen=True)
class Permanent:
    """A permanent message, with its checksum as it reads."""

    text: bytes
    owner: bytes
    beacon: int
    pixel: int
    priority: int
    checksum: int


@dataclass
class Read:
    """What was read of a sign. `order` is `high`, `swapped`, or nothing where it is not known yet."""

    width: int
    height: int
    defaults: list[int]
    changeable: int
    volatile: int
    permanent: list[Permanent] = field(default_factory=list)
    order: str = ""

    @property
    def rows(self) -> list[Row]:
        """The rows that may be written, those of the volatile memory last."""
        changeable = [Row(Memory.CHANGEABLE, number + 1) for number in range(self.changeable)]
        return changeable + [Row(Memory.VOLATILE, number + 1) for number in range(self.volatile)]

    def learn_order(self, text: bytes, beacon: int, pixel: int, read: int) -> None:
        """The order, of the checksum that a message reads; it stays open where both octets are the same."""
        right = checksum(text, beacon, pixel)
        swapped = right % 256 * 256 + right // 256
        if not self.order and right != swapped:
            self.order = "high" if read == right else "swapped" if read == swapped else ""


def read(client: Client) -> Read:
    """What the sign says. Raises Unreached where it lacks an object that a description needs."""
    names = [scalar(word) for word in (*_SIZE, *_ROWS)] + list(DEFAULTS)
    found = client.numbers(names)
    for word, name in zip((*_SIZE, *_ROWS, *["a default"] * len(DEFAULTS)), names):
        if not 0 <= found.get(name, -1) <= _MOST:
            raise Unreached(f"the sign has no {word} that is a number up to {_MOST}, and a description needs it")
    width, height, permanent, changeable, volatile, *defaults = (found[name] for name in names)
    held = Read(width, height, defaults, changeable, volatile)
    for number in range(1, min(permanent, MOST_PERMANENT) + 1):
        message = _permanent(client, Row(Memory.PERMANENT, number))
        held.permanent.append(message)
        held.learn_order(message.text, message.beacon, message.pixel, message.checksum)
    return held


def _permanent(client: Client, row: Row) -> Permanent:
    columns = (Column.TEXT, Column.OWNER, Column.BEACON, Column.PIXEL_SERVICE, Column.PRIORITY, Column.CRC)
    found = client.read([row.cell(column) for column in columns])
    text, owner = (_octets(found.get(row.cell(column))) for column in columns[:2])
    numbers = (_number(found.get(row.cell(column))) for column in columns[2:])
    return Permanent(text, owner, *numbers)


def _octets(value: Value | None) -> bytes:
    return value[1] if value is not None and isinstance(value[1], bytes) else b""


def _number(value: Value | None) -> int:
    return value[1] if value is not None and isinstance(value[1], int) else 0
