"""nginx as the example nginx.conf has it, before a service, with a certificate of its own made by openssl."""

import base64
import contextlib
import hashlib
import os
import pathlib
import subprocess
from typing import Iterator

from trials.room.ports import free_port, until_answers
from wisangub.process.places import TOP

EXAMPLE = TOP / "python/wisangub/room/examples/nginx.conf"
NAME = "control.example.org"
TEMPORARY = ("client_body", "proxy", "fastcgi", "uwsgi", "scgi")


def openssl(*words: str, told: bytes = b"") -> bytes:
    """What a call of openssl prints."""
    return subprocess.run(["openssl", *words], input=told, capture_output=True, check=True).stdout


def certificate(folder: pathlib.Path, name: str = NAME) -> pathlib.Path:
    """A certificate of this name that nobody else has signed, and its key beside it."""
    made = folder / "certificate.pem"
    openssl(
        "req",
        "-x509",
        "-newkey",
        "ec",
        "-pkeyopt",
        "ec_paramgen_curve:prime256v1",
        "-nodes",
        "-days",
        "1",
        "-subj",
        f"/CN={name}",
        "-addext",
        f"subjectAltName=DNS:{name}",
        "-keyout",
        str(folder / "key.pem"),
        "-out",
        str(made),
    )
    return made


def words_of_browser(folder: pathlib.Path) -> tuple[str, ...]:
    """By which Chromium finds the example's name on this machine, and takes its certificate, and no other, for good."""
    key = openssl("x509", "-in", str(folder / "certificate.pem"), "-noout", "-pubkey")
    digest = base64.b64encode(hashlib.sha256(openssl("pkey", "-pubin", "-outform", "der", told=key)).digest()).decode()
    return f"--host-resolver-rules=MAP {NAME} 127.0.0.1", f"--ignore-certificate-errors-spki-list={digest}"


def example(folder: pathlib.Path, port: int, service: int) -> str:
    """The example's words with other ports and places, each of which stands in it once."""
    text = EXAMPLE.read_text(encoding="utf-8")
    for old, new in (
        ("listen 443 ", f"listen 127.0.0.1:{port} "),
        (f"/etc/ssl/{NAME}.pem", f"{folder}/certificate.pem"),
        (f"/etc/ssl/private/{NAME}.key", f"{folder}/key.pem"),
        ("http://127.0.0.1:8080", f"http://127.0.0.1:{service}"),
    ):
        assert text.count(old) == 1, old
        text = text.replace(old, new)
    return text


def settings(folder: pathlib.Path, port: int, service: int) -> str:
    """A whole file of nginx around the example."""
    places = "\n".join(f"    {one}_temp_path {folder}/{one};" for one in TEMPORARY)
    who = "user root;\n" if os.geteuid() == 0 else ""
    return (
        f"{who}daemon off;\npid {folder}/pid;\nevents {{}}\nhttp {{\n    access_log {folder}/access;\n{places}\n"
        f"{example(folder, port, service)}}}\n"
    )


@contextlib.contextmanager
def nginx(folder: pathlib.Path, service: int) -> Iterator[int]:
    """The proxy before a service's port: its own port."""
    certificate(folder)
    port, log = free_port(), folder / "nginx.log"
    (folder / "nginx.conf").write_text(settings(folder, port, service))
    running = subprocess.Popen(
        ["setpriv", "--pdeathsig=TERM", "nginx", "-e", str(log), "-p", str(folder), "-c", str(folder / "nginx.conf")],
        stdin=subprocess.DEVNULL,
    )
    try:
        until_answers(port)
        yield port
    finally:
        running.terminate()
        status = running.wait(30)
    assert status == 0, log.read_text(errors="replace")
