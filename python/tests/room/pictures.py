"""The pictures of docs/CONTROL.md: env -C python python3 -m tests.room.pictures [--keep docs/pictures]

Pages of a control room over three signs on loopback, as headless Chromium draws them, as PNG files.
"""

import argparse
import pathlib
import sys
import tempfile

from wisangub.process.places import TOP
from wisangub.refusal import status_of
from wisangub.room import start

MOST = 200_000  # octets of a picture
# whether all that is seen is drawn
DRAWN = """
return [...document.images].every((one) => one.getBoundingClientRect().top > innerHeight || one.naturalWidth > 0);
"""


def taken(folder: pathlib.Path) -> list[pathlib.Path]:
    """The wall, a text with a fault, publications on their way, and the wall on a small screen."""
    from .browser import Browser, until
    from .browsing import place

    made: list[pathlib.Path] = []

    def keep(one: Browser, name: str, width: int = 1180) -> None:
        height = int(one.driver.execute_script("return document.body.scrollHeight"))
        one.driver.set_window_size(width, min(height, 1000))
        one.script("document.activeElement.blur(); scrollTo(0, 0)")
        until(lambda: one.script(DRAWN), "the pictures of the page")
        made.append(folder / f"{name}.png")
        until(lambda: one.driver.save_screenshot(str(made[-1])), "a picture of the page")

    with tempfile.TemporaryDirectory() as held, place(pathlib.Path(held)) as at:
        gantry, east, west = (at.rows[name] for name in ("A9 gantry", "B300 east", "B300 west"))
        with at.browser("operator", 1180, 700) as one:
            one.publish("[fo3][cf9]RIGHT LANE[nl][fo2]CLOSED 800 m[nl3][fo1][cf7]MERGE LEFT", [gantry])
            one.publish("[fo2]ROAD WORK[nl]1 KM AHEAD", [east, west])
            until(lambda: len(one.all(".steps li.done")) >= 5, "steps")
            keep(one, "room-progress", 820)
            one.says("2 of 2 accepted", "#summary")
            one.get("/")
            until(lambda: len(one.all(".tag.lit")) == 3, "three signs are lit")
            keep(one, "room-wall", 820)
            one.write("[fo2]FOG AHEAD[nl][fo7]SLOW DOWN", [east])
            until(lambda: one.text("#looks mark") == "[fo7]", "the fault")
            keep(one, "room-compose", 1100)
        with at.browser("operator", 390, 800) as one:
            until(lambda: len(one.all(".tag.lit")) == 3, "three signs are lit")
            keep(one, "room-small", 390)
    return made


def main() -> int:
    parser = argparse.ArgumentParser(
        prog="env -C python python3 -m tests.room.pictures",
        description=__doc__,
        formatter_class=argparse.RawDescriptionHelpFormatter,
    )
    parser.add_argument(
        "--keep", default=str(TOP / "docs/pictures"), metavar="FOLDER", help="where the pictures are kept"
    )
    asked = parser.parse_args()
    start.needed("tests.room.pictures", "aiohttp", "jinja2", "selenium", "pytest")
    made = taken(pathlib.Path(asked.keep))
    for path in made:
        print(f"{path.name}: {path.stat().st_size} octets")
    return 0 if all(path.stat().st_size < MOST for path in made) else 1


if __name__ == "__main__":
    sys.exit(status_of(main))
