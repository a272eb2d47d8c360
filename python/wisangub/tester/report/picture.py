"""Pictures of texts as our sign draws them, as SVG inside a page."""

from xml.sax.saxutils import escape

from wisangub.snmp import wire
from wisangub.tester.context import Context
from wisangub.tester.findings.compare import shown
from wisangub.tester.findings.differences import Difference
from wisangub.tester.requests.objects import Column, column_of
from wisangub.tester.requests.steps import Ask

_SHADES = ["#000000", "#ff0000", "#ffff00", "#00ff00", "#00ffff", "#0000ff", "#ff00ff", "#ffffff", "#ff8000", "#ffbf00"]
_JUDGING = ("validation", "defaults", "activation")
_LAMP = 4


def _text_of(difference: Difference) -> bytes | None:
    """The text that the sequence wrote last."""
    found = None
    for step in difference.steps:
        if isinstance(step, Ask) and step.kind == wire.SET:
            for name, (_, held) in step.bindings:
                if column_of(name) == Column.TEXT and isinstance(held, bytes):
                    found = held
    return found


def pictures(difference: Difference, context: Context) -> list[tuple[str, list[str]]]:
    """Captions and pages, as lines, of the text that the two judge otherwise; up to its fault where ours refuses it."""
    text = _text_of(difference)
    if text is None or difference.rule.chapter not in _JUDGING:
        return []
    spelled = shown(text)
    pages = context.judge.pages(text)
    if pages:
        return [(f"{spelled} fits on our sign", pages)]
    fault = context.fault(text)
    if fault is None:
        return []
    front = context.judge.pages(text[: fault[1]]) if fault[1] else []
    caption = f"{spelled}: our sign refuses it with code {fault[0]} at octet {fault[1]}"
    return [(caption + (", and draws what stands before" if front else ""), front)]


def pages_of(lines: list[str]) -> list[list[str]]:
    """The rows of each page."""
    found: list[list[str]] = []
    for line in lines:
        if line.startswith("page "):
            found.append([])
        else:
            found[-1].append(line)
    return found


def svg(rows: list[str], said: str) -> str:
    """A page's lamps; what is said of them is for who does not see them."""
    width, height = _LAMP * max(map(len, rows), default=1), _LAMP * len(rows)
    dots = {"dark": ""} | {digit: "" for digit in "0123456789"}
    for y, row in enumerate(rows):
        for x, cell in enumerate(row):
            dots["dark" if cell == "." else cell] += f"M{_LAMP * x + 2},{_LAMP * y + 2}h0"
    paths = "".join(
        f'<path d="{path}" stroke="{"#2a2a2a" if name == "dark" else _SHADES[int(name)]}"/>'
        for name, path in dots.items()
        if path
    )
    size = f'viewBox="0 0 {width} {height}" width="{min(2 * width, 1000)}"'
    plate = f'<rect width="{width}" height="{height}" fill="#101010"/>'
    lamps = f'<g fill="none" stroke-width="3" stroke-linecap="round">{paths}</g>'
    return f'<svg {size} xmlns="http://www.w3.org/2000/svg" role="img"><desc>{escape(said)}</desc>{plate}{lamps}</svg>'
