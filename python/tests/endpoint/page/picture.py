"""README's picture of a sign's page: env -C python python3 -m tests.endpoint.page.picture [--keep docs/pictures]

A sign on loopback, a manager that publishes and asks, and the page as headless Chromium draws it, as a PNG file.
"""

import argparse
import pathlib
import sys

from wisangub.process.places import TOP
from wisangub.refusal import status_of
from wisangub.room import start
from wisangub.snmp.names import Memory, cell, scalar

MOST = 200_000  # octets of a picture
WIDTH, HEIGHT = 1000, 1460
SCALE = "--force-device-scale-factor=0.7"
TEXT = b"[fo2]ROAD WORK[nl]1 KM AHEAD"


def taken(path: pathlib.Path) -> None:
    """Draws the page, with a message up and another one on its way."""
    from tests.room.browser import Browser

    from .bench import bench

    with bench() as one, Browser(f"http://127.0.0.1:{one.page}", WIDTH, HEIGHT, (SCALE,)) as browser:
        browser.get("/")
        one.publish(TEXT)
        one.get(scalar("dmsMsgSourceMode"))
        one.get(cell("dmsMessageMultiString", Memory.CURRENT, 1))
        browser.says("dmsMessageMultiString.5.1", "#datagrams")
        browser.shows("#lamps", "roadside", TEXT.decode())
        browser.script("document.activeElement.blur(); scrollTo(0, 0)")
        browser.driver.save_screenshot(str(path))


def main() -> int:
    parser = argparse.ArgumentParser(
        prog="env -C python python3 -m tests.endpoint.page.picture",
        description=__doc__,
        formatter_class=argparse.RawDescriptionHelpFormatter,
    )
    parser.add_argument(
        "--keep", default=str(TOP / "docs/pictures"), metavar="FOLDER", help="where the picture is kept"
    )
    asked = parser.parse_args()
    start.needed("tests.endpoint.page.picture", "selenium")
    path = pathlib.Path(asked.keep, "sign-page.png")
    taken(path)
    sys.stdout.write(f"{path.name}: {path.stat().st_size} octets\n")
    return 0 if path.stat().st_size < MOST else 1


if __name__ == "__main__":
    sys.exit(status_of(main))
