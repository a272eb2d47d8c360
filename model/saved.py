"""The state of a sign as text: what came to be since it was made."""

from collections.abc import Iterable

from .codes import CHANGEABLE, VOLATILE
from .description import NOT_USED, Row
from .state import Shown, State

OWN = {
    "short-power-recovery": 8,
    "long-power-recovery": 9,
    "power-loss": 14,
    "end-duration": 15,
    "communications-loss": 12,
}


def numbers(values: Iterable[int], between: str = " ") -> str:
    """Numbers as words, or with something else between them."""
    return between.join(str(value) for value in values)


def message_words(message: Row | Shown) -> str:
    """A message as the line of a permanent row has it."""
    texts = f"{message.text.hex() or '-'} {message.owner.hex() or '-'}"
    return f"{texts} {message.beacon} {message.pixel} {message.priority}"


def row_lines(name: str, rows: list[Row]) -> list[str]:
    """The rows that are used, by their numbers."""
    used = [(number, row) for number, row in enumerate(rows, 1) if row.status != NOT_USED]
    return [f"{name} {number} {row.status} {message_words(row)}" for number, row in used]


def shown_lines(name: str, shown: Shown, swapped: bool) -> list[str]:
    """What is shown or was kept."""
    end = [] if shown.remaining is None else [f"{name}-remaining {shown.remaining}"]
    return [
        f"{name} {message_words(shown)}",
        f"{name}-source {shown.source.octets(swapped).hex()}",
        f"{name}-mode {shown.mode}",
        f"{name}-address {numbers(shown.address, '.')}",
        *end,
        f"{name}-defaults {numbers(shown.defaults)}",
    ]


def saved(state: State) -> list[str]:
    """The lines of a sign's state."""
    return [
        "state 1 sign",
        *row_lines("changeable", state.rows[CHANGEABLE]),
        *row_lines("volatile", state.rows[VOLATILE]),
        f"defaults {numbers(state.defaults)}",
        *(f"{name} {state.own[place].hex()}" for name, place in OWN.items()),
        f"short-power-loss-time {state.short_loss}",
        f"time-comm-loss {state.silence_limit}",
        f"silent {state.silence}",
        *shown_lines("shown", state.shown, state.swapped),
        *shown_lines("kept", state.kept, state.swapped),
        f"validate-error {state.verdict}",
        f"activate-error {state.activate_error}",
        f"syntax-error {state.syntax}",
        f"syntax-error-position {state.syntax_at}",
        f"accepted-code {state.last_code.hex()}",
        f"failed-code {state.refused_code.hex()}",
        f"powered {int(state.power)}",
        "end",
    ]
