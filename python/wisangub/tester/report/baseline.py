"""What a test found that an earlier one had not, and what is gone since: `--baseline` and an earlier report as JSON."""

import json
import pathlib
from dataclasses import dataclass

from wisangub.refusal import Refusal, reason
from wisangub.tester.findings.results import Results

from .causes import cause


@dataclass(frozen=True)
class Baseline:
    """An earlier report: when it was made, its verdict, and the differences by rule and object."""

    when: str
    verdict: str
    found: dict[tuple[str, str], str]

    @staticmethod
    def read(path: pathlib.Path) -> "Baseline":
        """The report of this file. Raises Refusal where it is none."""
        try:
            held = json.loads(path.read_text(encoding="utf-8"))
            found = {(one["rule"]["key"], one["title"]): one["cause"] for one in held["differences"]}
            return Baseline(held["when"], held["verdict"], found)
        except OSError as fault:
            raise Refusal(f"the earlier report cannot be read: {reason(fault)}") from None
        except (ValueError, KeyError, TypeError, RecursionError):
            raise Refusal(f"{path} is no report that --json wrote") from None

    def lines(self, results: Results) -> list[str]:
        """How this test differs from the earlier one."""
        now = {(held.rule.key, held.title): cause(held) for held in results.differences()}
        found = [f"new: {words}" for key, words in now.items() if key not in self.found]
        found += [f"gone: {words}" for key, words in self.found.items() if key not in now]
        head = f"as on {self.when} ({self.verdict})"
        return [f"{head}, but for:", *[f"  {line}" for line in found]] if found else [head]
