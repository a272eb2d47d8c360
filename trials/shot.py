"""A report as a picture: python3 -m trials.shot PICTURE.png [--html REPORT.html] [--size WIDTH HEIGHT]

The top of a page that `--html` of conform wrote, drawn by headless Chromium (Debian's package chromium). Where no page
is named, a report is made for it: of a sign that is wrong in two rules, beside the model under a clock of its own. So
docs/pictures/report.png is made: python3 -m trials.shot docs/pictures/report.png
"""

import argparse
import pathlib
import shutil
import subprocess
import sys
import tempfile

from trials.wrong_signs import bench
from trials.wrong_signs.load import sign_of
from trials.wrong_signs.table import MUTANTS
from wisangub.process.places import TOP
from wisangub.tester.chapters import ALL
from wisangub.tester.report.page import as_html
from wisangub.tester.report.picture import pictures
from wisangub.tester.report.words import About, not_tested

_WRONG = ("parts_may_not_touch", "minutes_are_rounded_down")
SIGN = "signs/roadside.sign"


def report() -> str:
    """The page of a sign that is wrong in two rules."""
    description = (TOP / SIGN).read_bytes()
    wrong = sign_of([mutant for mutant in MUTANTS if mutant.name in _WRONG], description)
    session = bench.session(description, wrong, requests=500)
    results = bench.run(session)
    for difference in results.differences():
        difference.pictures = pictures(difference, session.context)
    about = About("127.0.0.1:1161", SIGN, "model", None, 1, 500, False, "a simulated clock", "model")
    return as_html(results, about, not_tested(session.context, results, ALL))


def _draw(page: pathlib.Path, picture: pathlib.Path, width: int, height: int) -> None:
    """The top of a page, of this size."""
    with tempfile.TemporaryDirectory() as folder:
        options = ["--headless", "--no-sandbox", "--disable-gpu", "--hide-scrollbars", f"--user-data-dir={folder}"]
        size = [f"--window-size={width},{height}", "--force-device-scale-factor=0.75"]
        call = ["chromium", *options, *size, f"--screenshot={picture.resolve()}"]
        subprocess.run([*call, page.resolve().as_uri()], check=True, capture_output=True, timeout=120)


def main() -> int:
    parser = argparse.ArgumentParser(prog="python3 -m trials.shot", description="a report as a picture")
    parser.add_argument("picture", type=pathlib.Path, metavar="PICTURE.png", help="the file that is written")
    parser.add_argument("--html", type=pathlib.Path, metavar="REPORT.html", help="a page; else one is made")
    parser.add_argument(
        "--size", nargs=2, type=int, default=(1080, 1800), metavar=("WIDTH", "HEIGHT"), help="of the window, in pixels"
    )
    asked = parser.parse_args()
    if shutil.which("chromium") is None:
        print("chromium is not there: apt-get install chromium", file=sys.stderr)
        return 2
    with tempfile.TemporaryDirectory() as folder:
        page = asked.html or pathlib.Path(folder) / "report.html"
        if asked.html is None:
            page.write_text(report(), encoding="utf-8")
        try:
            _draw(page, asked.picture, *asked.size)
        except (OSError, subprocess.SubprocessError) as fault:
            print(fault, file=sys.stderr)
            return 2
    return 0


if __name__ == "__main__":
    sys.exit(main())
