"""Right signs through many random requests: wisangub-conform soak [--seeds N] [--requests N] [--faulty SHARE]

    [--both-ways] [--whole] [--under-test PATH] [--signtool PATH] [--sign FILE] [--first SEED] [--record FILE]
    [--jobs N]

The sign under test and the oracle are the model or a program. With --faulty that share of the replies is lost, late or
doubled, a third of it each, and with --both-ways of the requests too. A line a seed, in the order in which they end;
last how many sequences were told and how many could not be, and `N passed, N failed`. With --whole all chapters are run
as a test without options but `--lossy 30` does, which has to conform, and its minutes of the sign are said. With
--record each seed is a line
of JSON in that file, with the commit that was run; seeds that stand there for the same commit and the same options are
not run again.
"""

import argparse
import concurrent.futures
import datetime
import json
import pathlib
import subprocess
import sys
import time
from typing import Any

from wisangub.process.description import BENCH
from wisangub.process.places import TOP, add_version
from wisangub.tester.findings.compare import fields
from wisangub.tester.findings.results import Results, Verdict
from wisangub.tester.report import words
from wisangub.tester.report.words import sequence
from wisangub.tester.sign.judge import SignJudge
from wisangub.tester.sign.oracle import Oracle, made

from . import bench

_OPTIONS = ("under_test", "signtool", "sign", "faulty", "both_ways", "whole", "requests", "seed", "commit")
_OF_EARLIER = {"both_ways": False, "whole": False}  # what records of earlier had no word for
_LOSSY = 30.0  # percent that a whole test may lose
_USUAL = 500  # random requests of a whole test
_MOST_SECONDS = 40.0  # that it makes a difference smaller


class Program:
    """An oracle as the sign under test."""

    def __init__(self, oracle: Oracle) -> None:
        self.oracle = oracle

    def receive(self, datagram: bytes) -> tuple[bytes | None, object]:
        return self.oracle.datagram(datagram), None

    def tick(self) -> None:
        self.oracle.tick()


def _commit() -> str:
    """The commit that stands here, with an asterisk where a file that counts is another."""
    call = ["git", "-C", str(TOP)]
    try:
        head = subprocess.run([*call, "rev-parse", "--short", "HEAD"], capture_output=True, check=True).stdout
        status = [
            *call,
            "status",
            "--porcelain",
            "--",
            "python/wisangub",
            "model",
        ]
        return head.decode().strip() + ("*" if subprocess.run(status, capture_output=True, check=True).stdout else "")
    except (OSError, subprocess.CalledProcessError):
        return "unknown"


def _told(results: Results) -> list[str]:
    """What differed."""
    lines = []
    for found in [*results.differences(), *results.once()]:
        again = "" if found.is_repeated else ", and did not come again"
        lines.append(f"  {found.rule.chapter} ({found.rule.key}), {found.title}{again}")
        lines += [f"    {octets or 'tick'} {'; '.join(said)}" for octets, said in sequence(found)[-12:]]
        lines += [f"    ours {'; '.join(fields(found.ours))}", f"    theirs {'; '.join(fields(found.theirs))}"]
    return lines


def run(entry: dict[str, Any], description: bytes) -> dict[str, Any]:
    """One seed: what came of it is added to its options."""
    begun = time.monotonic()
    oracle, sign = made(entry["signtool"], description), made(entry["under_test"], description)
    judge = SignJudge(entry["signtool"], description)
    try:
        seed, faulty, requests = entry["seed"], entry["faulty"], _USUAL if entry["whole"] else entry["requests"]
        session = bench.session(
            description, Program(sign), oracle, judge, seed, faulty, requests, both_ways=entry["both_ways"]
        )
        if entry["whole"]:
            session.results.lossy, session.most_seconds = _LOSSY, _MOST_SECONDS
        results = bench.run(session, [] if entry["whole"] else ["random"])
    finally:
        oracle.end()
        sign.end()
        judge.end()
    port = session.pair.port
    return entry | {
        "when": datetime.datetime.now(datetime.timezone.utc).isoformat(timespec="seconds"),
        "asked": session.pair.requests,
        "told_requests": sum(held.told for held in results.chapters),
        "clean": results.verdict() is Verdict.CONFORMS if entry["whole"] else results.is_clean(),
        "verdict": words.verdict(results),
        "minutes": round(session.pair.clock.now() / 60, 1),
        "percent": round(port.way.percent(), 1),
        "asked_again": port.asked_again,
        "passed_over": port.passed_over,
        "not_told": sum(held.untold for held in results.chapters),
        "seen_once": len(results.once()),
        "cases": sum(held.blocks for held in results.chapters),
        "seconds": round(time.monotonic() - begun, 1),
        "told": _told(results),
    }


def _line(held: dict[str, Any]) -> str:
    if held["whole"]:
        way = f"{held['percent']} % lost, late or doubled"
        return f"seed {held['seed']}: {held['verdict']}, {held['minutes']} minutes of the sign, {way}"
    verdict = "nothing differs" if held["clean"] else "differs"
    lost = f"{held['asked_again']} asked again, {held['passed_over']} passed over"
    untold = f"{held['not_told']} of {held['cases']} sequences not told, {held['seen_once']} seen once"
    requests = f"{held['told_requests']} requests told"
    return f"seed {held['seed']}: {requests}, {verdict}, {lost}, {untold}, {held['seconds']:.0f} s"


def _recorded(record: pathlib.Path | None) -> dict[tuple[Any, ...], dict[str, Any]]:
    """What the record has, by its options."""
    if record is None or not record.exists():
        return {}
    found = [json.loads(text) for text in record.read_text(encoding="utf-8").splitlines()]
    return {tuple((_OF_EARLIER | held)[option] for option in _OPTIONS): held for held in found}


def _entries(asked: argparse.Namespace) -> list[dict[str, Any]]:
    """The options of each seed."""
    held = vars(asked) | {"commit": _commit(), "sign": str(asked.sign or "bench")}
    seeds = range(asked.first, asked.first + asked.seeds)
    return [{option: (held | {"seed": seed})[option] for option in _OPTIONS} for seed in seeds]


def _show(held: dict[str, Any], said: str = "") -> None:
    print("\n".join([_line(held) + said, *held["told"]]), flush=True)


def _soak(asked: argparse.Namespace, description: bytes) -> list[dict[str, Any]]:
    """What came of each seed, by the record where that has it."""
    before, wanted = _recorded(asked.record), _entries(asked)
    ends = [before[key] for entry in wanted if (key := tuple(entry.values())) in before]
    for held in ends:
        _show(held, " (of the record)")
    left = [entry for entry in wanted if tuple(entry.values()) not in before]
    with concurrent.futures.ProcessPoolExecutor(asked.jobs) as pool:
        for done in concurrent.futures.as_completed([pool.submit(run, entry, description) for entry in left]):
            held = done.result()
            if asked.record is not None:
                with asked.record.open("a", encoding="utf-8") as file:
                    file.write(json.dumps(held) + "\n")
            _show(held)
            ends.append(held)
    return ends


def main() -> int:
    """Runs the seeds and prints what came of each; the exit status is 1 where one differs."""
    parser = argparse.ArgumentParser(prog="wisangub-conform soak", description="right signs through random requests")
    add_version(parser, "wisangub-conform soak")
    parser.add_argument("--seeds", type=int, default=20, help="how many seeds")
    parser.add_argument("--first", type=int, default=1, metavar="SEED", help="the first of them")
    parser.add_argument("--requests", type=int, default=100_000, help="how many random requests of each seed")
    parser.add_argument(
        "--faulty", type=float, default=0.0, metavar="SHARE", help="the share of replies that are lost, late or doubled"
    )
    parser.add_argument("--both-ways", action="store_true", help="that share of the requests too")
    parser.add_argument("--whole", action="store_true", help="all chapters, which have to conform with --lossy 30")
    parser.add_argument(
        "--under-test",
        default="model",
        metavar="PATH",
        help="the program that is the sign under test; `model` is the model",
    )
    parser.add_argument(
        "--signtool",
        default="model",
        metavar="PATH",
        help="the program that replies are compared with; `model` is the model",
    )
    parser.add_argument("--sign", type=pathlib.Path, help="a description; else the bench sign")
    parser.add_argument(
        "--record",
        type=pathlib.Path,
        metavar="FILE",
        help="keeps what each seed came to, and goes on where it was stopped",
    )
    parser.add_argument("--jobs", type=int, default=1, metavar="N", help="seeds at a time")
    asked = parser.parse_args()
    ends = _soak(asked, asked.sign.read_bytes() if asked.sign else BENCH)
    clean, untold = sum(held["clean"] for held in ends), sum(held["not_told"] for held in ends)
    requests = sum(held["told_requests"] for held in ends)
    print(f"{requests} requests in {sum(held['cases'] for held in ends) - untold} sequences told, {untold} not told")
    print(f"{clean} passed, {len(ends) - clean} failed")
    return 0 if clean == len(ends) else 1


if __name__ == "__main__":
    sys.exit(main())
