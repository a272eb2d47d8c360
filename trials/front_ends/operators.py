"""What an operator's commands end as, and what a centre takes for a reply."""

import re
import socket
import subprocess
import time

from model import wire

from .bench import FrontEnd, Trial, eventually
from .follower import lines_of
from .patience import PACE

_SHORT = "0.05"  # seconds from tick to tick where no sign answers


def tick() -> float:
    """Seconds from tick to tick, in which a sign answers on this machine."""
    return min(max(0.2, PACE.start() / 2), 1.0)


def _commanded(trial: Trial, port: int, lines: str, *words: str) -> tuple[int, list[str]]:
    """The status of a centre's front end that is given lines, and what it printed."""
    front_end, status = _given(trial, port, lines, *words)
    return status, front_end.output.decode().splitlines()


def _given(trial: Trial, port: int, lines: str, *words: str) -> tuple[FrontEnd, int]:
    """A centre's front end that is given lines, and its status."""
    call = ["--to", f"127.0.0.1:{port}", "--tick", f"{tick():.2f}", *words]
    front_end = trial.front_end("wisangub-centre", *call, stdin=subprocess.PIPE)
    assert front_end.process.stdin is not None
    front_end.process.stdin.write(lines.encode())
    front_end.process.stdin.close()
    status = front_end.ended()
    trial.holds(
        "a centre's front end prints no traceback", b"Traceback" not in front_end.errors, front_end.errors.decode()
    )
    return front_end, status


_COMMANDS = [  # what is commanded, the exit status, and what is told
    ("blank 5 65535 255 127.0.0.1", 0, "last accepted"),
    ("blank 5 65535 255 127.0.0.1\nnonsense", 1, "bad line"),
    ("# nothing\n\n", 0, ""),
    ("blank 0 65535 255 127.0.0.1", 1, "refused a value is out of its range: NUMBER"),
    ("status", 0, "last none"),
    ("tick", 1, "bad line"),
    ("blank x", 1, "bad line word 2: a number from 0 to 65535 is wanted"),
    ('publish-text 3 1 "\u20ac" - 0 0 9 65535 255 127.0.0.1', 1, "bad line: TEXT: character 1, U+20AC"),
    ('publish-text 3 1 "AB" "me" 0 0 9 65535 255 127.0.0.1', 0, "last accepted"),
    ("blank 5 65535 8 127.0.0.1", 1, "last failed at step 7: the sign refused the activation for cause 3, priority"),
]
_SOME = 5  # commands of which the sign answers one question at least within a second
_WIDE = 'publish-text 3 2 "ABABABABAB" - 0 0 9 65535 255 127.0.0.1\n'
_IN_ERROR = "last failed at step 5: the row has status 5, error"
_AT_FAULT = r"step 5 \(is the message valid\): the sign found fault 5 at octet 4: (wider than the matrix by|textTooBig)"
_GIVEN_UP = [  # what is said of two commands to a silent sign
    "given up after 0.3 seconds: the job is not done",
    "busy",
    "last none",
    "ledger 1 ffffff07000500007f000001 waiting",
    "idle",
    "last failed at step 7: no reply",
    "ledger 1 ffffff07000500007f000001 noreply",
    "given up after 0.3 seconds: the job is not done",
    "busy",
    "last failed at step 7: no reply",
    "ledger 2 ffffff07000600007f000001 waiting",
]


def _in_error(trial: Trial, port: int) -> None:
    """A text that does not fit: standard error says what the sign found, and standard output only how it ended. The
    question is no record."""
    path, is_told = trial.new_folder() / "centre", False
    for _ in range(_SOME):
        front_end, status = _given(trial, port, _WIDE, "--journal", str(path))
        lines = front_end.output.decode().splitlines()
        trial.holds("a text that does not fit", status == 1 and lines == ["idle", _IN_ERROR], (status, lines))
        is_told = re.search(_AT_FAULT, front_end.errors.decode()) is not None
        if is_told:
            break
    trial.holds("what the sign found", is_told, front_end.errors.decode())
    records = [line.split(b" ")[1] for line in lines_of(path.read_bytes()) if line.startswith(b"datagram ")]
    is_below = any(wire.read(bytes.fromhex(record.decode())).number < 0 for record in records)
    trial.holds("the question is no record", bool(records) and not is_below, records)


def _operated(trial: Trial) -> None:
    """Commands, what they end as, and the exit status."""
    sign = trial.sign("--log", "-")
    _in_error(trial, sign.port)
    for line, status, told in _COMMANDS:
        if trial.is_late():
            break
        found = _commanded(trial, sign.port, line + "\n")
        trial.holds(
            f"{line!r}: exit {status}, {told}",
            found[0] == status and any(told in line for line in found[1] or [""]),
            found,
        )
    else:
        last = [
            line for line in _commanded(trial, sign.port, "blank 5 65535 8 127.0.0.1\n")[1] if line.startswith("ledger")
        ]
        trial.holds("a ledger's status in words", bool(last) and last[0].endswith(" refused 5, genErr"), last)
    trial.holds("a sign ends at a SIGTERM", sign.stop() == 0, sign.errors.decode())
    asked = re.findall(rb" in Get community (\w+) request-id -\d+", sign.output)
    trial.holds("the reading community asks below 0", set(asked) == {b"public"}, sign.output)


def _unanswered(trial: Trial) -> None:
    """Commands to a sign that is silent, and to a port where there is none."""
    with socket.socket(socket.AF_INET, socket.SOCK_DGRAM) as silent:
        silent.bind(("127.0.0.1", 0))
        status, lines = _commanded(
            trial,
            silent.getsockname()[1],
            "blank 5 65535 255 127.0.0.1\nblank 6 65535 255 127.0.0.1\n",
            *("--wait", "0.3", "--tick", _SHORT),
        )
    trial.holds(
        "a silent sign is given up, and the next command waits for the job's end",
        status == 1 and lines == _GIVEN_UP,
        (status, lines),
    )
    front_end, status = _given(trial, _silent_port(), "blank 5 65535 255 127.0.0.1\n", "--tick", _SHORT)
    is_said = (
        b"\nlast failed at step 7: no reply\n" in front_end.output and b"nothing listens there" in front_end.errors
    )
    trial.holds("no sign there", status == 1 and is_said, (status, front_end.output, front_end.errors))


def _outsiders(trial: Trial) -> None:
    """A reply from another address than the sign's answers nothing, though it spells what is waited for."""
    with socket.socket(socket.AF_INET, socket.SOCK_DGRAM) as sign, socket.socket(
        socket.AF_INET, socket.SOCK_DGRAM
    ) as other:
        sign.bind(("127.0.0.1", 0))
        sign.settimeout(PACE.patience())
        call = ["--to", f"127.0.0.1:{sign.getsockname()[1]}", "--tick", f"{tick():.2f}"]
        front_end = trial.front_end("wisangub-centre", *call, stdin=subprocess.PIPE)
        assert front_end.process.stdin is not None
        front_end.process.stdin.write(b"blank 5 65535 255 127.0.0.1\n")
        front_end.process.stdin.close()
        octets, centre = sign.recvfrom(2048)
        reply = octets.replace(b"\xa3", b"\xa2", 1)
        other.sendto(reply, centre)
        sent_again = sign.recvfrom(2048)[0]
        trial.holds(
            "a reply from elsewhere answers nothing",
            sent_again == octets and front_end.process.poll() is None,
            front_end.output.decode(),
        )
        sign.sendto(reply, centre)
        trial.holds(
            "and the sign's does",
            front_end.ended() == 0 and b"last accepted" in front_end.output,
            front_end.output.decode(),
        )


def _idles(trial: Trial) -> None:
    """The ticks of a centre that has nothing to do leave no record: not between two commands, not at a start."""
    sign, path = trial.sign("--no-ticks"), trial.new_folder() / "centre"
    call = ["--to", f"127.0.0.1:{sign.port}", "--tick", f"{tick():.2f}", "--journal", str(path)]
    front_end = trial.front_end("wisangub-centre", *call, stdin=subprocess.PIPE)
    operator = front_end.process.stdin
    assert operator is not None
    for count in (1, 2):
        operator.write(b"blank %d 65535 255 127.0.0.1\n" % count)
        operator.flush()
        is_done = eventually(lambda: front_end.output.count(b"last accepted\n") == count)
        trial.holds(f"command {count} is accepted", is_done, (front_end.output, front_end.errors))
        before = path.read_bytes()
        time.sleep(2.5 * tick())
        trial.holds(f"idle after command {count}: no record", path.read_bytes() == before, path.read_bytes())
    operator.close()
    trial.holds("an idle centre ends", front_end.ended() == 0, front_end.errors.decode())
    status = _commanded(trial, sign.port, "status\n", "--journal", str(path))
    trial.holds("a start of an idle centre: no record", path.read_bytes() == before and status[0] == 0, status)
    words = [line.partition(b" ")[0] for line in lines_of(before)[1:]]
    is_so = words.count(b"blank") == 2 and set(words) <= {b"blank", b"datagram", b"tick"}
    trial.holds("the records are of commands, and of what came until each was done", is_so, words)
    trial.holds("the sign of an idle centre ends", sign.stop() == 0, sign.errors.decode())


def _silent_port() -> int:
    """A port where nobody is."""
    with socket.socket(socket.AF_INET, socket.SOCK_DGRAM) as one:
        one.bind(("127.0.0.1", 0))
        return int(one.getsockname()[1])


def run(trial: Trial) -> None:
    """Everything."""
    _operated(trial)
    _unanswered(trial)
    _outsiders(trial)
    _idles(trial)
