"""The command line: wisangub-conform --to HOST:PORT --sign DESCRIPTION"""

import argparse
import datetime
import hashlib
import pathlib
import sys
from types import FrameType

from wisangub.process.places import SIGNTOOL, add_version, called
from wisangub.refusal import Refusal, reason
from wisangub.whole import alone

from .chapters import ALL, ASKED, NAMES
from .context import Context
from .ends import on_end, passed_over
from .findings.results import LOSSY, Quiet, Watcher
from .options import above_nothing, address, community, count, share, texts, whole
from .person.answers import Reader
from .report import terminal, words
from .report.baseline import Baseline
from .report.earlier import Earlier
from .report.outputs import Outputs, check_apart
from .report.picture import pictures
from .runs.repeat import repeat
from .session import Session, chapters_of
from .sign.capture import Capture
from .sign.claimed import ClaimedOracle
from .sign.claimed_device import DeviceOracle
from .sign.claims import claims_of
from .sign.clock import RealClock
from .sign.described import Bad, cause, described
from .sign.judge import Judge, SignJudge
from .sign.link import Link, UdpLink
from .sign.oracle import Oracle, made
from .sign.pair import Pair
from .sign.port import Port
from .sign.ticks import Ticks

_OF_A_TEST = ("html", "pdf", "junit", "json", "baseline", "resume", "rate")  # options that --repeat has no use for


def arguments() -> argparse.ArgumentParser:
    """The options of a test."""
    chapters = "\n".join(f"  {name:12} {words}" for name, words in ASKED.items())
    parser = argparse.ArgumentParser(
        prog=called("wisangub-conform"),
        description="compares a sign over UDP with the proved one, reply by reply",
        epilog=f"chapters, and what each asks:\n{chapters}",
        formatter_class=argparse.RawDescriptionHelpFormatter,
    )
    add_version(parser, "wisangub-conform")
    parser.add_argument("--to", required=True, metavar="HOST:PORT", help="where the sign under test answers")
    parser.add_argument(
        "--sign", required=True, type=pathlib.Path, metavar="DESCRIPTION", help="its description, as in signs/"
    )
    parser.add_argument(
        "--communities",
        nargs=2,
        type=community,
        metavar=("READER", "WRITER"),
        help="others than those of the description",
    )
    parser.add_argument("--seed", type=int, default=1, help="of the random requests")
    parser.add_argument("--requests", type=whole, default=500, help="how many random requests")
    parser.add_argument(
        "--only",
        action="append",
        default=[],
        choices=NAMES,
        metavar="CHAPTER",
        help="a chapter alone, by its name below; may be given again",
    )
    parser.add_argument(
        "--slow", action="store_true", help="whole minutes of durations and silence too: about forty minutes"
    )
    parser.add_argument(
        "--texts",
        type=texts,
        metavar="N|all",
        help="how many texts are validated; the report says how many of how many",
    )
    parser.add_argument("--html", type=pathlib.Path, metavar="FILE", help="the report as a page")
    parser.add_argument("--pdf", type=pathlib.Path, metavar="FILE", help="the same as a PDF, where Chromium is there")
    parser.add_argument(
        "--pcap", type=pathlib.Path, metavar="FILE", help="what was sent and what came, as tcpdump writes it"
    )
    parser.add_argument(
        "--junit", type=pathlib.Path, metavar="FILE", help="the report for a test bench, in JUnit's form"
    )
    parser.add_argument("--json", type=pathlib.Path, metavar="FILE", help="the report for programs")
    parser.add_argument(
        "--signtool",
        default=str(SIGNTOOL),
        metavar="PATH",
        help="the program that replies are compared with; `model` is the model in Python, without the kit",
    )
    parser.add_argument("--wait", type=above_nothing, default=1.0, metavar="SECONDS", help="how long a reply may take")
    parser.add_argument(
        "--lossy",
        type=share,
        default=LOSSY,
        metavar="PERCENT",
        help="replies that may be lost, late or doubled; where more are, the sign is not judged",
    )
    parser.add_argument(
        "--silent",
        type=count,
        metavar="N",
        help="the test ends after so many requests in a row without a reply; else after 30 seconds without one",
    )
    parser.add_argument(
        "--rate", type=count, metavar="N", help="load up to N requests a second: how many it holds, the longest reply"
    )
    parser.add_argument(
        "--hours", type=above_nothing, default=0.0, metavar="HOURS", help="random requests for so long after the rest"
    )
    parser.add_argument(
        "--person", action="store_true", help="asks a person what the sign shows, and to switch its power off and on"
    )
    parser.add_argument("--budget", type=above_nothing, metavar="MINUTES", help="the test ends after so many")
    parser.add_argument(
        "--anyway", action="store_true", help="goes on where the sign has another size or other rows than described"
    )
    parser.add_argument(
        "--baseline", type=pathlib.Path, metavar="FILE", help="says what is new and what is gone since this JSON report"
    )
    parser.add_argument(
        "--claims",
        type=pathlib.Path,
        metavar="FILE",
        help="what the sign claims: objects, ranges and tags, and objects besides, as TOML",
    )
    parser.add_argument(
        "--resume", type=pathlib.Path, metavar="FILE", help="goes on with the test whose JSON report this is, into it"
    )
    parser.add_argument("--repeat", metavar="SEQUENCE", help="a sequence that a report printed, alone")
    return parser


def _described_with(path: pathlib.Path, communities: list[str] | None) -> bytes:
    """The description's octets, with other communities where they are given."""
    octets = path.read_bytes()
    if communities is None:
        return octets
    if communities[0] == communities[1]:
        raise Refusal(f"--communities: the reader's and the writer's differ, and both are {communities[0]!r}")
    lines = [
        b" ".join([b"communities", *[word.encode() for word in communities]])
        if line.startswith(b"communities ")
        else line
        for line in octets.split(b"\n")
    ]
    return b"\n".join(lines)


def _about_of(asked: argparse.Namespace, description: bytes) -> words.About:
    oracle = "model" if asked.signtool == "model" else asked.signtool
    program = "" if asked.signtool == str(SIGNTOOL) else asked.signtool
    when = datetime.datetime.now().astimezone().isoformat(" ", "seconds")
    communities = (asked.communities[0], asked.communities[1]) if asked.communities else None
    claims = asked.claims.read_bytes() if asked.claims else b""
    digest = hashlib.sha256(description + claims).hexdigest()
    return words.About(
        asked.to,
        str(asked.sign),
        oracle,
        communities,
        asked.seed,
        asked.requests,
        asked.slow,
        when,
        program,
        digest,
        asked.texts,
    )


def _link(asked: argparse.Namespace, clock: RealClock) -> Link:
    """The socket to the sign, whose datagrams are captured where that is asked for. Raises OSError and Refusal."""
    link = UdpLink(*address(asked.to), clock)
    if asked.pcap is None:
        return link
    return Capture(link, alone(asked.pcap), *link.addresses())


def _session(asked: argparse.Namespace, description: bytes, oracle: Oracle, judge: Judge, watcher: Watcher) -> Session:
    """The test of the sign at its address."""
    sign, clock = described(description), RealClock()
    communities = (sign.reader, sign.writer)
    port = Port(_link(asked, clock), clock, asked.wait, patience=asked.silent)
    if asked.budget is not None:
        port.way.deadline = clock.now() + 60 * asked.budget
    claims = claims_of(asked.claims, sign)
    ours = DeviceOracle(ClaimedOracle(oracle, claims), sign.writer)
    pair = Pair(port, ours, clock, Ticks(clock), communities, device=ours)
    many = sys.maxsize if asked.texts is None and asked.slow else asked.texts
    context = Context(sign, communities, judge, asked.seed, asked.requests, asked.slow, claims, many)
    session = Session(pair, context, watcher)
    session.results.lossy, session.is_anyway = asked.lossy, asked.anyway
    session.rate, session.hours = asked.rate, asked.hours
    session.person = Reader() if asked.person else None
    return session


def _taken_up(asked: argparse.Namespace, about: words.About, session: Session) -> str:
    """What is said of the report that --resume names, whose test goes on; nothing where none is named."""
    if asked.resume is None:
        return ""
    asked.json = asked.json or asked.resume
    earlier = Earlier.read(asked.resume, about, session.context.communities)
    earlier.put_into(session.results, session.pair.port.way)
    return earlier.words()


def _tested(asked: argparse.Namespace, session: Session, watcher: terminal.Plain, about: words.About) -> int:
    """The whole test and its reports. Raises Refusal where one cannot be written, or an earlier one not be read."""
    context = session.context
    baseline = Baseline.read(asked.baseline) if asked.baseline else None
    taken_up = _taken_up(asked, about, session)
    outputs = Outputs(asked, about, lambda results: words.not_tested(context, results, ALL))
    try:
        chapters = session.prepare(chapters_of(asked.only, asked.slow))
        outputs.write(session.results)
        print("\n".join(line for line in (words.head(about), taken_up) if line), flush=True)
        watcher.after = lambda: outputs.go_on(session.results)
        try:
            results = session.run(chapters)
        finally:
            on_end(passed_over)  # the report is written, whatever comes now
            watcher.close()
        for difference in results.differences():
            difference.pictures = pictures(difference, context)
        try:
            print("\n".join(terminal.ending(results, about, words.not_tested(context, results, ALL))), flush=True)
            if baseline is not None:
                print("\n".join(baseline.lines(results)), flush=True)
        finally:
            outputs.end(results)
        session.pair.port.link.close()
    finally:
        outputs.close()
    return results.verdict().status


def _repeated(session: Session, sequence: str) -> int:
    """A sequence once more; then it is said what of the sign's own was set, and set back."""
    status = repeat(session, sequence)
    for line in words.set_back_words(session.results):
        print(line)
    session.pair.port.link.close()
    return status


def _check_repeat(asked: argparse.Namespace) -> None:
    """Raises Refusal where a sequence alone is to have what a test has: it is no test, and prints what it shows."""
    named = [name for name in _OF_A_TEST if getattr(asked, name) is not None]
    if asked.repeat is not None and named:
        raise Refusal(f"--repeat is no test, and --{named[0]} is of one: what it shows is printed")


def _interrupted(_number: int, _frame: FrameType | None) -> None:
    """The first signal ends the test; the sign is put back and the report written, whatever comes after it."""
    on_end(passed_over)
    raise KeyboardInterrupt


def main() -> int:
    """The whole command; its exit status is the verdict's, or 2 where it could not test."""
    asked = arguments().parse_args()
    oracle: Oracle | None = None
    judge: Judge | None = None
    on_end(_interrupted)
    try:
        _check_repeat(asked)
        check_apart(asked)
        description = _described_with(asked.sign, asked.communities)
        oracle = made(asked.signtool, description)
        judge = SignJudge(asked.signtool, description)
        if asked.repeat is not None:
            return _repeated(_session(asked, description, oracle, judge, Quiet()), asked.repeat)
        watcher = terminal.watcher()
        session = _session(asked, description, oracle, judge, watcher)
        return _tested(asked, session, watcher, _about_of(asked, description))
    except Bad as fault:
        print(f"{asked.sign}: {fault}{cause(asked.sign, fault)}", file=sys.stderr)
    except OSError as fault:
        print(reason(fault), file=sys.stderr)
    except (ValueError, Refusal) as fault:
        print(fault, file=sys.stderr)
    except KeyboardInterrupt:
        print("interrupted before the first datagram", file=sys.stderr)
    finally:
        for part in (oracle, judge):
            if part is not None:
                part.end()
    return 2
