"""The report as a PDF, for an acceptance that is signed: Chromium prints the page where it is there."""

import pathlib
import shutil
import subprocess
import tempfile

from wisangub.refusal import Refusal

_PROGRAMS = ("chromium", "chromium-browser", "google-chrome")
_SECONDS = 120


def printer() -> str:
    """The program that prints a page. Raises Refusal where there is none."""
    found = next((program for name in _PROGRAMS if (program := shutil.which(name))), None)
    if found is None:
        raise Refusal("--pdf needs Chromium, which is not there: apt-get install chromium")
    return found


def printed(program: str, page: str) -> bytes:
    """The page as a PDF. Raises Refusal where the program makes none."""
    with tempfile.TemporaryDirectory() as folder:
        html, made = pathlib.Path(folder) / "report.html", pathlib.Path(folder) / "report.pdf"
        html.write_text(page, encoding="utf-8")
        call = [program, "--headless", "--no-sandbox", "--disable-gpu", "--no-pdf-header-footer"]
        call += [f"--user-data-dir={folder}/profile", f"--print-to-pdf={made}", html.as_uri()]
        try:
            subprocess.run(call, check=True, capture_output=True, timeout=_SECONDS)
            return made.read_bytes()
        except (subprocess.SubprocessError, OSError) as fault:
            raise Refusal(f"Chromium printed no report: {fault}") from None
