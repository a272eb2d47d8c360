"""The files of a report: looked at before the first datagram, and written anew as the test goes on."""

import argparse
import pathlib
from contextlib import ExitStack, suppress
from typing import Callable

from wisangub.refusal import Refusal, reason
from wisangub.tester.findings.results import Results
from wisangub.whole import WholeFile

from . import files, page, pdf
from .words import About

_WRITTEN, _READ = ("html", "junit", "json", "pdf", "pcap"), ("sign", "claims")  # options of files
NotTested = Callable[[Results], list[str]]


class Outputs:
    """The files that a command names, each of which is a whole report from the first time that they are written.
    Raises Refusal where one cannot be written; no file is another then than it was."""

    def __init__(self, asked: argparse.Namespace, about: About, not_tested: NotTested) -> None:
        self._about, self._not_tested = about, not_tested
        self._closing = ExitStack()
        paths = (asked.html, asked.junit, asked.json, asked.pdf)
        self._html, self._junit, self._json, self._pdf = map(self._opened, paths)
        self._printer = pdf.printer() if asked.pdf else ""

    def _opened(self, path: pathlib.Path | None) -> WholeFile | None:
        if path is None:
            return None
        try:
            file = WholeFile(path)
        except OSError as fault:
            self.close()
            raise Refusal(f"the report cannot be written: {reason(fault)}") from None
        self._closing.callback(file.close)
        return file

    def write(self, results: Results) -> None:
        """What is known so far, in the place of what was written before."""
        left_out = self._not_tested(results)
        if self._html is not None:
            _put(self._html, page.as_html(results, self._about, left_out))
        if self._junit is not None:
            _put(self._junit, files.as_junit(results, self._about))
        if self._json is not None:
            _put(self._json, files.as_json(results, self._about, left_out))

    def go_on(self, results: Results) -> None:
        """The same while the test goes on, which no full disk ends: what stood there stands until there is room."""
        with suppress(Refusal):
            self.write(results)

    def end(self, results: Results) -> None:
        """The same at the end, and printed where that is asked for."""
        self.write(results)
        if self._pdf is not None:
            shown = page.as_html(results, self._about, self._not_tested(results))
            _put(self._pdf, pdf.printed(self._printer, shown))

    def close(self) -> None:
        self._closing.close()


def check_apart(asked: argparse.Namespace) -> None:
    """Raises Refusal where two reports are to be one file, or one is to be written over what the test is of."""
    written, read = ([path for word in words if (path := vars(asked)[word])] for words in (_WRITTEN, _READ))
    files = [path.resolve() for path in written if path.is_file() or not path.exists()]
    for at, path in enumerate(files):
        if path in files[:at]:
            raise Refusal(f"the report cannot be written: {path} is to be two reports")
        if path in [held.resolve() for held in read]:
            raise Refusal(f"the report cannot be written: {path} is what the test reads")


def _put(file: WholeFile, held: str | bytes) -> None:
    """This in a file. Raises Refusal where it cannot be written."""
    try:
        file.write(held)
    except OSError as fault:
        raise Refusal(f"the report cannot be written: {reason(fault)}") from None
