"""Logs of front ends, IPv6, and a co-process that is killed."""

import json
import os
import socket
import subprocess

from .bench import FrontEnd, Trial
from .manager import Manager
from .requests import Changes


def _logged(trial: Trial) -> None:
    """A log as lines and as JSON, and its mode; a co-process that is killed; an IPv6 address."""
    path = trial.new_folder() / "log"
    rows: list[tuple[list[str], bytes]] = [
        ([], b" in Get community admin request-id 1 dmsShortPowerLossTime.0"),
        (["--json"], b'"request-id": 1'),
    ]
    for words, told in rows:
        front_end = trial.sign("--log", str(path), *words)
        manager = Manager(front_end.port)
        manager.get([Changes.COUNTER])
        manager.close()
        trial.holds("a log tells of datagrams", told in path.read_bytes(), path.read_bytes())
        trial.holds("a log is its owner's", os.stat(path).st_mode & 0o777 == 0o600)
        front_end.kill("co-process")
        last = Manager(front_end.port)
        last.get([Changes.COUNTER], 0.1)
        last.close()
        _says_dead(trial, front_end)
    if _has_ipv6():
        front_end = trial.sign("--host", "::1")
        trial.holds("an IPv6 address", b"a sign at [::1]:" in front_end.output, front_end.errors.decode())
        centre = trial.front_end("wisangub-centre", "--to", f"[::1]:{front_end.port}", stdin=subprocess.PIPE)
        assert centre.process.stdin is not None
        centre.process.stdin.write(b"blank 5 65535 255 127.0.0.1\n")
        centre.process.stdin.close()
        trial.holds(
            "a centre over IPv6", centre.ended() == 0 and b"last accepted" in centre.output, centre.errors.decode()
        )
        trial.holds("a sign over IPv6 ends", front_end.stop() == 0)
    else:
        trial.skip("IPv6", "no address ::1 here")


def _of_a_centre(trial: Trial) -> None:
    """A centre's log tells what was asked for, what went out and what came in, in words; as JSON too, on its standard
    output."""
    sign = trial.sign("--log", "-", "--json")
    words = ["--to", f"127.0.0.1:{sign.port}", "--log", "-"]
    for is_json in (False, True):
        centre = trial.front_end("wisangub-centre", *words, *(["--json"] if is_json else []), stdin=subprocess.PIPE)
        assert centre.process.stdin is not None
        centre.process.stdin.write(b'publish-text 3 1 "AB" "me" 0 0 9 65535 255 127.0.0.1\n')
        centre.process.stdin.close()
        trial.holds("a centre with a log is accepted", centre.ended() == 0, centre.errors.decode())
        lines = centre.output.decode().splitlines()
        if is_json:
            told = [json.loads(line) for line in lines if line.startswith("{")]
            kinds = [(one["event"], one.get("kind", "")) for one in told]
            wanted = {("command", ""), ("out", "Set"), ("out", "Get"), ("in", "Response")}
            trial.holds("events as JSON", wanted <= set(kinds) and all(one["time"] for one in told), kinds)
        else:
            rows = [
                "command line publish 3 1 4142 6d65 0 0 9 65535 255 127.0.0.1",
                "out Set community admin request-id 1 dmsMessageStatus.3.1=modifyReq(6)",
                "in Response community admin request-id 1 error-status noError error-index 0",
            ]
            trial.holds("events in words", all(any(row in line for line in lines) for row in rows), lines)
    trial.holds("a sign with a log ends", sign.stop() == 0, sign.errors.decode())
    is_said = b"nothing is kept" in sign.errors and b"nothing is kept" in centre.errors
    trial.holds("without a journal both say that nothing is kept", is_said, (sign.errors, centre.errors))
    told = [json.loads(line) for line in sign.output.decode().splitlines() if line.startswith("{")]
    events = {one["event"] for one in told}
    trial.holds("a sign's events as JSON", {"start", "in", "out", "accepted", "end"} <= events, events)


def _says_dead(trial: Trial, front_end: FrontEnd) -> None:
    """A front end whose co-process was killed."""
    trial.holds(
        "a co-process that was killed",
        front_end.ended() == 1 and b"co-process ended by signal 9" in front_end.errors,
        front_end.errors.decode(),
    )


def _has_ipv6() -> bool:
    """Whether this machine has the address ::1."""
    try:
        with socket.socket(socket.AF_INET6, socket.SOCK_DGRAM) as one:
            one.bind(("::1", 0))
            return True
    except OSError:
        return False


def run(trial: Trial) -> None:
    """Everything."""
    _logged(trial)
    _of_a_centre(trial)
