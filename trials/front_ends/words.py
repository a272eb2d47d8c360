"""What a front end says to a user who is wrong: a line, a status, and never a traceback."""

import os
import pathlib
import re
import socket
import subprocess

from wisangub.process.places import TOP

from .bench import FrontEnd, Trial
from .patience import PACE

_AT_ONCE = 8  # front ends that are started together
_RESOLVER = {"RES_OPTIONS": "timeout:1 attempts:1", "LOCALDOMAIN": ""}  # no server of names is waited for long
Row = tuple[str, list[str], str]  # what is wrong, the options, and the words of the refusal


def _says(trial: Trial, name: str, front_end: FrontEnd, status: int, words: str) -> None:
    """A front end ends with this status and these words, and announces nothing."""
    found = front_end.ended()
    well = (
        found == status
        and words.encode() in front_end.errors
        and b"Traceback" not in front_end.errors
        and b"a sign at" not in front_end.output
    )
    trial.holds(f"{name}: said in words", well, (found, front_end.errors.decode(), front_end.output.decode()))


def refused(trial: Trial, tool: str, rows: list[Row]) -> None:
    """Each row's front end says so, with status 2."""
    for at in range(0, len(rows), _AT_ONCE):
        if trial.is_late():
            break
        some = rows[at : at + _AT_ONCE]
        front_ends = [trial.front_end(tool, *words, environment=_RESOLVER) for _, words, _ in some]
        for (name, _, told), front_end in zip(some, front_ends):
            _says(trial, name, front_end, 2, told)


def signs(trial: Trial) -> None:
    """The sign's front end."""
    folder = trial.new_folder()
    roadside = (TOP / "signs/roadside.sign").read_text(encoding="utf-8")
    (folder / "bad.sign").write_text("size 300 27\n" + "".join(roadside.splitlines(True)[1:]), encoding="utf-8")
    (folder / "short.sign").write_text("size 23 14\n", encoding="utf-8")
    (folder / "more.sign").write_bytes((TOP / "signs/roadside.sign").read_bytes() + b"tick\n")
    os.mkfifo(folder / "pipe")
    (folder / "ring").symlink_to(folder / "ring")
    with socket.socket(socket.AF_INET, socket.SOCK_DGRAM) as other:
        other.bind(("127.0.0.1", 0))
        port = str(other.getsockname()[1])
        rows = [*_of_descriptions(folder), *_of_addresses(port), *_of_options(folder), *_of_files(folder)]
        refused(trial, "wisangub-sign", [(name, ["--port", "0", *words], told) for name, words, told in rows])


def _of_descriptions(folder: pathlib.Path) -> list[Row]:
    return [
        ("a refused description", ["--sign", f"{folder}/bad.sign"], "line "),
        ("a description that breaks off", ["--sign", f"{folder}/short.sign"], "line "),
        ("a description with more after it", ["--sign", f"{folder}/more.sign"], "there is more"),
        ("no such description", ["--sign", f"{folder}/none"], "No such file or directory"),
        ("a folder for a description", ["--sign", str(folder)], "Is a directory"),
    ]


def _of_addresses(port: str) -> list[Row]:
    """Where this port is in use."""
    return [
        ("a port in use", ["--port", port], "in use"),
        ("a port that is none", ["--port", "70000"], "is no port"),
        ("no such host", ["--host", "no.such.host.invalid"], "no.such.host.invalid"),
        ("an address of another machine", ["--host", "192.0.2.1"], "192.0.2.1"),
    ]


def _of_options(folder: pathlib.Path) -> list[Row]:
    more = f"{folder}/more.sign"
    return [
        ("--fresh without a journal", ["--fresh"], "--journal"),
        ("--json without a log", ["--json"], "--log"),
        ("a log that is the journal", ["--log", more, "--journal", more], "cannot be the log and the journal"),
        ("a log that is beside it", ["--log", f"{more}.new", "--journal", more], "and the file beside the journal"),
        ("--down without a journal", ["--down", "power"], "--journal"),
        ("a log that is a folder", ["--log", str(folder)], "Is a directory"),
        ("no such program", ["--signtool", f"{folder}/none"], "No such file or directory"),
        ("a program that is none", ["--signtool", f"{folder}/bad.sign"], "Permission denied"),
        ("another program", ["--signtool", "/bin/true"], "co-process ended"),
        ("a program that answers otherwise", ["--signtool", "/usr/bin/yes"], "does not answer as signtool does"),
        ("a journal without a name", ["--journal", ""], "--journal has no name"),
        ("a log without a name", ["--log", ""], "--log has no name"),
        ("a host without a name", ["--host", ""], "--host has no name"),
        ("datagrams below none", ["--lose", "-1"], "--lose -1"),
        ("no datagram in a second", ["--journal", f"{folder}/none", "--most-recorded", "0"], "--most-recorded 0"),
        ("--accept-damage without a journal", ["--accept-damage"], "--accept-damage is of a --journal"),
        ("--need-journal without a journal", ["--need-journal"], "--need-journal is of a --journal"),
        ("a --listen without a port", ["--listen", "::1"], "no HOST:PORT"),
        ("a port in words", ["--port", "http"], "--port"),
        ("another word", ["more"], "unrecognized"),
    ]


def _of_files(folder: pathlib.Path) -> list[Row]:
    """Files that are no journal, no log or no description."""
    more = f"{folder}/more.sign"
    return [
        ("a journal that is a pipe", ["--journal", f"{folder}/pipe"], "is no plain file"),
        ("a journal that is a description", ["--journal", f"{folder}/bad.sign"], "is no journal"),
        ("a journal of links in a ring", ["--journal", f"{folder}/ring"], "symbolic links"),
        ("a journal whose name is too long", ["--journal", f"{folder}/{'a' * 300}"], "File name too long"),
        ("a log that is the description", ["--log", more, "--sign", more], "log and the description"),
        ("a description that is none", ["--sign", "/bin/sh"], "no line `end`"),
        ("a description without a line", ["--sign", "/dev/null"], "no line `end`"),
    ]


def described(trial: Trial) -> None:
    """A description that is refused: both front ends show its line, and what the program says of it."""
    text = (TOP / "signs/roadside.sign").read_text(encoding="utf-8")
    folder = trial.new_folder()
    for name, wrong, right in (
        ("a matrix that is too wide", "size 300 27", "size 96 27"),
        ("two spaces", "size 96  27", "size 96 27"),
        ("a text that is not hexadecimal", "permanent xy ", "permanent "),
        ("a line that is none", "nonsense\nend", "end"),
    ):
        path = folder / "wrong.sign"
        path.write_text(re.sub(f"^{right}", wrong, text, count=1, flags=re.MULTILINE), encoding="utf-8")
        with open(path, "rb") as file:
            call, most = [trial.program, "sign", "--sign"], PACE.patience()
            program = subprocess.run(call, stdin=file, capture_output=True, check=False, timeout=most)
        line = program.stdout.decode().strip()
        trial.holds(f"{name}: the program refuses it", re.fullmatch(r"line \d+", line) is not None, program)
        for tool, words in (("wisangub-sign", ["--port", "0"]), ("wisangub-centre", ["--to", "127.0.0.1:9"])):
            front_end = trial.front_end(tool, "--sign", str(path), *words)
            _says(trial, f"{name}, {tool}", front_end, 2, f"{path}: {line}: no description of a sign")
            is_told = all(said in front_end.errors for said in program.stderr.splitlines())
            trial.holds(f"{name}, {tool}: with the program's reason", is_told, (program.stderr, front_end.errors))


def centres(trial: Trial) -> None:
    """The centre's front end."""
    rows: list[Row] = [
        ("a bad --to", ["--to", "127.0.0.1"], "no HOST:PORT"),
        ("a port of 0", ["--to", "127.0.0.1:0"], "no HOST:PORT"),
        ("an IPv6 address without brackets", ["--to", "::1:1161"], "no HOST:PORT"),
        ("no such host", ["--to", "no.such.host.invalid:1161"], "no.such.host.invalid"),
        ("a bad --first", ["--to", "127.0.0.1:1161", "--first", "-1"], "--first"),
        ("a bad --tick", ["--to", "127.0.0.1:1161", "--tick", "0"], "--tick"),
        ("a --tick that is no number", ["--to", "127.0.0.1:1161", "--tick", "nan"], "--tick"),
        ("a bad --wait", ["--to", "127.0.0.1:1161", "--wait", "-1"], "--wait"),
        ("a --first above all numbers", ["--to", "127.0.0.1:1161", "--first", "2147483648"], "--first 2147483648"),
        ("no --to", [], "--to"),
        ("a host in brackets that is none", ["--to", "[zz]:1161"], "zz"),
        ("a label that is too long", ["--to", "a" * 70 + ".example:1161"], "no such host"),
        ("a broadcast", ["--to", "255.255.255.255:1161"], "Permission denied"),
        ("--fresh without a journal", ["--to", "127.0.0.1:1161", "--fresh"], "--journal"),
    ]
    refused(trial, "wisangub-centre", rows)


def run(trial: Trial) -> None:
    """Everything."""
    signs(trial)
    described(trial)
    centres(trial)
