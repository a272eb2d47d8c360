"""Want of memory at each allocation, mutated datagrams, and valgrind."""

from __future__ import annotations

import itertools

from .against_vectors import cases
from .trial import PLAIN, REFUSING, TOP, UNDER_VALGRIND, Trial, Way, described

_MOST_CALLS = 2000  # allocations of a talk
_MOST_START = 60  # seconds beside those that are asked for
_ROADSIDE = str(TOP / "signs" / "roadside.sign")
# lines that are answered by many
_MANY = ("show", "bits", "state", "save", "centre status", "centre save", "pages 415b6e705d42")


def _lines_of_a_talk() -> list[str]:
    """A line of each kind that takes memory, and some that take none."""
    requests = [case["request"] for case in cases("requests") if case["reply"]]
    return [
        "state",
        "show",
        "pages 415b6e705d42",
        "pages 5b",
        "check 41",
        *(
            f"why {what}"
            for what in ("text 415b", "text 41", f"command {b'blank'.hex()}", f"description {b'size'.hex()}")
        ),
        "bits",
        *(f"datagram {octets}" for octets in requests[:3]),
        "save",
        "object 1.3.6.1.2.1.1.1.0 OCTET STRING 4142",
        "object 1.3.6.1.2.1.1.4.0 OCTET STRING 41 octets 0 300",
        "object 1.3.6.1.2.1.1.4.0 OBJECT IDENTIFIER 1.3.6",
        "no-object 1.3.6.1.2.1.1.1.0",
        "objects",
        "centre blank 1 5 255 192.0.2.1",
        "centre tick",
        "centre restart",
        "centre publish 3 1 41 42 0 0 200 65535 255 192.0.2.1",
        "centre save",
        "centre restart",
        "centre status",
        "code 0 3 1 41 0 0 65535 255 192.0.2.1",
        "anew",
        "state",
    ]


def told(trial: Trial, call: int) -> tuple[int, list[str]]:
    """A talk whose allocation of this number is refused: how often memory was wanting, and all answers."""
    with trial.talk(described("roadside"), REFUSING, REFUSED_CALL=str(call)) as talk:
        found = [talk.first("check 41")]
        for line in _lines_of_a_talk():
            found += talk.ask_lines(line) if line in _MANY else [talk.ask(line)]
        status = talk.end()
    return talk.refused, [*found, f"exit {status}", talk.faults.decode("latin-1")]


def refusals(trial: Trial) -> None:
    """A talk with each of its allocations refused, in turn: what wants memory says so once, nothing has changed, and
    when it is asked again it is answered as ever. The first number at which none is refused ends it."""
    _, wanted = told(trial, 0)
    for call in itertools.count(1):
        refused, found = told(trial, call)
        if refused == 0 or call > _MOST_CALLS:
            break
        trial.same(f"allocation {call} is refused: how often memory is wanting", refused, 1)
        trial.same(f"allocation {call} is refused: the answers", found, wanted)
    trial.check("all allocations of a talk are refused", 20 < call < _MOST_CALLS and found == wanted, (call, found))
    print(f"allocations that were refused: {call - 1}")


def under_valgrind(trial: Trial) -> None:
    """What is not in the vectors: a talk that takes memory, and mutated datagrams."""
    status, said = trial.ran(
        trial.called(UNDER_VALGRIND, "talk"),
        described("roadside") + "".join(f"{line}\n" for line in _lines_of_a_talk()),
    )
    trial.check("valgrind: a talk", status == 0 and "==" not in said, said[-600:])
    mutated(trial, UNDER_VALGRIND, 3, 1)


def datagrams() -> str:
    """All datagrams of the vectors, a line each."""
    octets = [case["request"] for case in cases("requests")] + [case["octets"] for case in cases("datagrams")]
    octets += [case["reply"] for case in cases("requests") if case["reply"]]
    return "".join(f"{one}\n" for one in octets)


def mutated(trial: Trial, way: Way, seconds: int, seed: int) -> None:
    """Datagrams that are changed, for so many seconds."""
    words = trial.called(way, "mutated", _ROADSIDE, str(seconds), str(seed))
    status, said = trial.ran(words, datagrams(), seconds + _MOST_START)
    trial.check(f"{way.name}: mutated datagrams", status == 0 and said.endswith("replies\n"), said[-600:])
    print(f"mutated datagrams, {way.name}, {seconds} s: {said.strip()[-100:]}", flush=True)


def blinked(trial: Trial) -> None:
    """examples/blink.c publishes a text and draws its cells, and says why a text is refused, and where."""
    sign = described("roadside")
    for way in {PLAIN, trial.way}:
        status, said = trial.ran(trial.called(way, "blink", "[pt1o0]AB"), sign)
        matrix = [line for line in said.split("\n") if line]
        width, height = map(int, sign.split("\n")[0].split()[1:])
        cells = [line.count("m ") for line in matrix]
        trial.check(f"{way.name}: blink", status == 0 and cells == [width] * height, (status, cells))
        trial.check(f"{way.name}: blink draws", len(set(said.split("m ")[0:-1])) > 1, said[:200])
        status, said = trial.ran(trial.called(way, "blink", "A["), sign)
        is_told = status == 2 and "refused: unsupported tag at octet 1\n    A[\n     ^\n" in said
        trial.check(f"{way.name}: blink with a text at fault", is_told, (status, said[-200:]))
        status, said = trial.ran(trial.called(way, "blink", "A"), "size 1 x\n")
        is_told = status == 2 and "line 1 of the description is refused: word 3: a number from 0 to 65535" in said
        trial.check(f"{way.name}: blink without a description", is_told, (status, said))
