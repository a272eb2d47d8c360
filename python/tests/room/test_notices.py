"""Who is told of alarms: a server of mail and webhooks on loopback, quiet times, tries, and limits."""

import contextlib
import datetime
import errno
import http.server
import json
import pathlib
import socket
import socketserver
import ssl
import threading
import time
from dataclasses import replace
from typing import Any, Callable, Iterator

import pytest

from wisangub.refusal import Refusal
from wisangub.room import notices
from wisangub.room.notices import Mail, Notices, Quiet, Settings, Webhook
from wisangub.room.store import alarms, database
from wisangub.room.store.alarms import Alarm
from wisangub.room.store.readings import Said

from . import needs
from .people import person
from .test_database import two_stores
from .tls import certificate

SIGN = "one"
TOLD = "one: no reply"


class Server(socketserver.ThreadingTCPServer):
    """A server on loopback, with what it was told."""

    allow_reuse_address = daemon_threads = True
    heard: list[Any]
    answer: Any = None
    refused = ""  # a word of the addresses of mail that it answers so; of all for none
    is_curt = False  # it closes the connection where a client takes its leave
    folder = pathlib.Path()  # of its certificate

    @property
    def port(self) -> int:
        return int(self.server_address[1])


class Smtp(socketserver.StreamRequestHandler):
    """As much of SMTP (RFC 5321) as a message needs."""

    server: Server

    def handle(self) -> None:
        self.wfile.write(b"220 here\r\n")
        self.hear()

    def hear(self) -> None:
        """A message, after the first word."""
        said: list[str] = []
        while line := self.rfile.readline().decode().strip():
            verb = line[:4].upper()
            if verb == "DATA":
                self.wfile.write(b"354 go on\r\n")
                while (text := self.rfile.readline().decode().rstrip("\r\n")) != ".":
                    said.append(text)
                self.server.heard.append(said)
            elif verb in ("MAIL", "RCPT"):
                said.append(line.partition(":")[2])
            elif verb == "QUIT" and self.server.is_curt:
                return
            is_refused = verb == "RCPT" and self.server.refused in line
            self.wfile.write(self.server.answer if is_refused and self.server.answer else b"250 well\r\n")


class StartTls(Smtp):
    """The same, over TLS as soon as that is asked for."""

    def handle(self) -> None:
        self.wfile.write(b"220 here\r\n")
        while self.rfile.readline().strip().upper() not in (b"STARTTLS", b""):
            self.wfile.write(b"250-here\r\n250 STARTTLS\r\n")
        self.wfile.write(b"220 go on\r\n")
        self.go_on_over_tls(self.hear)

    def go_on_over_tls(self, hear: Callable[[], None]) -> None:
        """Hears the rest from who takes the server's certificate."""
        context = ssl.SSLContext(ssl.PROTOCOL_TLS_SERVER)
        context.load_cert_chain(self.server.folder / "certificate.pem", self.server.folder / "key.pem")
        with contextlib.suppress(OSError), context.wrap_socket(self.request, server_side=True) as private:
            self.rfile, self.wfile = private.makefile("rb"), private.makefile("wb", buffering=0)  # type: ignore
            hear()


class OverTls(StartTls):
    """The same, over TLS from the beginning."""

    def handle(self) -> None:
        self.go_on_over_tls(super(StartTls, self).handle)


class Hook(http.server.BaseHTTPRequestHandler):
    """Takes a POST, and answers as the server is to."""

    server: Server

    def do_POST(self) -> None:
        self.server.heard.append((self.path, json.loads(self.rfile.read(int(self.headers["Content-Length"])))))
        self.send_response(self.server.answer or 204)
        self.send_header("Location", f"http://127.0.0.1:{self.server.port}/elsewhere")
        self.end_headers()

    def log_message(self, *_: Any) -> None:
        pass


class Slow(socketserver.BaseRequestHandler):
    """Says an octet now and then, and never ends."""

    def handle(self) -> None:
        with contextlib.suppress(OSError):
            while True:
                self.request.sendall(b"1")
                time.sleep(0.1)


@contextlib.contextmanager
def standing(kind: Any) -> Iterator[Server]:
    with Server(("127.0.0.1", 0), kind) as made:
        made.heard = []
        threading.Thread(target=made.serve_forever, args=(0.05,), daemon=True).start()
        try:
            yield made
        finally:
            made.shutdown()


def mail(server: Server) -> Mail:
    return Mail("127.0.0.1", server.port, "none", "control@example.org", ("duty@example.org",))


def hook(server: Server) -> Webhook:
    return Webhook(f"http://127.0.0.1:{server.port}/hook?key=1")


def later(held: Any) -> None:
    held.run("UPDATE notices SET next_try = next_try - 1000")


def test_an_alarm_is_told_once_to_each(where: str) -> None:
    store, other, sign = two_stores(where)
    store.readings.keep([Said(sign, -1, fault="no reply")])
    store.alarms.look()
    with standing(Smtp) as smtp, standing(Hook) as web:
        tellers = [Notices(where, Settings((mail(smtp), hook(web)))) for _ in range(2)]
        for teller, held in zip(tellers, (store.database, other.database)):
            teller.tell(held)
            later(held)
            teller.tell(held)
        (said,) = smtp.heard
        assert said[:2] == ["<control@example.org>", "<duty@example.org>"]
        assert f"Subject: {TOLD}" in said and said[-1] == TOLD and "To: duty@example.org" in said
        ((path, body),) = web.heard
        assert path == "/hook?key=1" and [one["what"] for one in body["alarms"]] == ["no reply"]
        assert body["alarms"][0].keys() == {"sign", "kind", "what", "since"} and body["alarms"][0]["sign"] == SIGN
        assert "key" not in str(store.database.run("SELECT * FROM notices"))


def test_what_failed_is_tried_again_and_not_for_ever(where: str, capsys: pytest.CaptureFixture[str]) -> None:
    store, _, sign = two_stores(where)
    store.readings.keep([Said(sign, -1, fault="no reply")])
    store.alarms.look()
    with standing(Smtp) as smtp, standing(Hook) as web:
        smtp.answer, web.answer = b"550 no\r\n", 302
        teller = Notices(where, Settings((mail(smtp), hook(web))))
        teller.tell(store.database)
        teller.tell(store.database)
        assert len(web.heard) == 1, "a while passes, and nothing leads elsewhere"
        later(store.database)
        web.answer = None
        teller.tell(store.database)
        later(store.database)
        teller.tell(store.database)
        assert [path for path, _ in web.heard] == ["/hook?key=1"] * 2 and smtp.heard == []
        said = capsys.readouterr().err
        assert said.count("alarms are not told (mail)") == 1 and "it answers with 302" in said
        for _ in range(2 * alarms.TRIES):
            later(store.database)
            teller.tell(store.database)
        assert store.database.run("SELECT tries FROM notices WHERE target = 'mail'") == [(alarms.TRIES,)]


def test_a_mail_that_was_taken_is_told(where: str) -> None:
    store, _, sign = two_stores(where)
    store.readings.keep([Said(sign, -1, fault="no reply")])
    store.alarms.look()
    with standing(Smtp) as smtp:
        smtp.is_curt = True
        teller = Notices(where, Settings((mail(smtp),)))
        for _ in range(3):
            teller.tell(store.database)
            later(store.database)
        assert len(smtp.heard) == 1, "whatever the server says, or does not, as the connection ends"


def test_who_alone_is_not_told_is_said(where: str, capsys: pytest.CaptureFixture[str]) -> None:
    store, _, sign = two_stores(where)
    with standing(Smtp) as smtp:
        smtp.answer, smtp.refused = b"550 who is that\r\n", "gone@"
        teller = Notices(where, Settings((replace(mail(smtp), to=("duty@example.org", "gone@example.org")),)))
        for number in range(1, 4):
            store.readings.keep([Said(sign, -number, fault=f"no reply {number}")])
            store.database.run("UPDATE alarm_looks SET at = 0")
            store.alarms.look()
            teller.tell(store.database)
            later(store.database)
            teller.tell(store.database)
        assert len(smtp.heard) == 3, "the others are told once"
    said = capsys.readouterr().err
    assert said.count("gone@example.org") == 1 and "550" in said and "duty@" not in said


@pytest.mark.parametrize("address", ("duty@", "duty@[", "duty <"))
def test_who_has_no_address_keeps_no_other_from_being_told(
    where: str, capsys: pytest.CaptureFixture[str], address: str
) -> None:
    store, _, sign = two_stores(where)
    store.readings.keep([Said(sign, -1, fault="no reply")])
    store.alarms.look()
    with standing(Smtp) as smtp, standing(Hook) as web:
        teller = Notices(where, Settings((replace(mail(smtp), to=(address,)), hook(web))))
        teller.tell(store.database)
        assert smtp.heard == [] and len(web.heard) == 1
    assert capsys.readouterr().err.count("alarms are not told (mail)") == 1


@pytest.mark.parametrize(("security", "kind"), [("starttls", StartTls), ("tls", OverTls)])
def test_mail_goes_where_the_certificate_is_of_the_name(
    tmp_path: pathlib.Path, monkeypatch: pytest.MonkeyPatch, security: str, kind: type[StartTls]
) -> None:
    needs.programs("openssl")
    alarm = Alarm(1, 1, SIGN, "silent", "no reply", 0.0, None, None, None)
    with standing(kind) as smtp:
        smtp.folder = tmp_path

        def tell(name: str, host: str) -> None:
            """A server with a certificate of this name, which is trusted, is asked for by another one."""
            monkeypatch.setenv("SSL_CERT_FILE", str(certificate(tmp_path, name)))
            Mail(host, smtp.port, security, "control@example.org", ("duty@example.org",)).tell([alarm])

        for name, host in (("localhost", "127.0.0.1"), ("elsewhere.example.org", "localhost")):
            with pytest.raises(ssl.SSLCertVerificationError):
                tell(name, host)
        assert smtp.heard == []
        tell("localhost", "localhost")
        assert len(smtp.heard) == 1 and smtp.heard[0][-1] == TOLD


def test_what_is_over_or_seen_is_not_told(where: str) -> None:
    store, _, sign = two_stores(where)
    with standing(Hook) as web:
        teller = Notices(where, Settings((hook(web),)))
        store.readings.keep([Said(sign, -1, fault="no reply")])
        store.alarms.look()
        (number,) = store.database.run("SELECT id FROM alarms")[0]
        person(store.database, "me")
        assert alarms.see(store.database, int(number or 0), "me")
        teller.tell(store.database)
        store.database.run("UPDATE alarms SET seen_by = NULL, ended = {clock}")
        teller.tell(store.database)
        assert web.heard == []


def test_nothing_is_told_in_quiet_times(where: str) -> None:
    at = [datetime.time(hour) for hour in (0, 5, 6, 12, 21, 22, 23)]
    night, day = Quiet(datetime.time(22), datetime.time(6)), Quiet(datetime.time(6), datetime.time(22), ("failed",))
    assert [night.is_now(one) for one in at] == [True, True, False, False, False, True, True]
    assert [day.is_now(one) for one in at] == [not night.is_now(one) for one in at]
    assert Settings((), night).kinds(at[0]) == [] and Settings((), night).kinds(at[3]) == list(alarms.KINDS)
    assert Settings((), day).kinds(at[3]) == ["silent", "error", "other", "device"]
    store, _, sign = two_stores(where)
    store.readings.keep([Said(sign, -1, fault="no reply")])
    store.alarms.look()
    with standing(Hook) as web:
        always = Quiet(datetime.time(0), datetime.time.max)
        Notices(where, Settings((hook(web),), always)).tell(store.database)
        assert web.heard == []
        Notices(where, Settings((hook(web),))).tell(store.database)
        assert len(web.heard) == 1, "it stands still"


def test_a_server_that_never_ends_is_cut_off(where: str) -> None:
    store, _, sign = two_stores(where)
    store.readings.keep([Said(sign, -1, fault="no reply")])
    store.alarms.look()
    with standing(Slow) as slow:
        slow_mail = Mail("127.0.0.1", slow.port, "none", "a@example.org", ("b@example.org",), limit=0.5)
        slow_hook = Webhook(f"http://127.0.0.1:{slow.port}/", limit=0.5)
        begun = time.monotonic()
        Notices(where, Settings((slow_hook, slow_mail))).tell(store.database)
        assert time.monotonic() - begun < 60
        assert store.database.run("SELECT count(*), count(told) FROM notices") == [(2, 0)]


def test_a_thread_tells(where: str) -> None:
    store, _, sign = two_stores(where)
    store.readings.keep([Said(sign, -1, fault="no reply")])
    store.alarms.look()
    with standing(Hook) as web:
        teller = Notices(where, Settings((hook(web),)))
        teller.start()
        ends = time.monotonic() + 30
        while not web.heard and time.monotonic() < ends:
            time.sleep(0.05)
        teller.stop()
        teller.thread.join(30)
        assert len(web.heard) == 1 and not teller.thread.is_alive()


def test_a_thread_goes_on_to_tell_whatever_went_wrong(where: str, monkeypatch: pytest.MonkeyPatch) -> None:
    """As a machine that has no file left: of a thread that ended nobody would hear, and nothing would say so."""
    monkeypatch.setattr(notices, "EVERY", 0.05)
    faults, opened = [OSError(errno.EMFILE, "too many open files"), MemoryError()], database.opened

    def failing(*words: Any, **more: Any) -> Any:
        if faults:
            raise faults.pop()
        return opened(*words, **more)

    store, _, sign = two_stores(where)
    store.readings.keep([Said(sign, -1, fault="no reply")])
    store.alarms.look()
    monkeypatch.setattr(database, "opened", failing)
    with standing(Hook) as web:
        teller = Notices(where, Settings((hook(web),)))
        teller.start()
        ends = time.monotonic() + 30
        while not web.heard and time.monotonic() < ends:
            time.sleep(0.05)
        teller.stop()
        teller.thread.join(30)
        assert len(web.heard) == 1 and not faults


def test_the_file_of_who_is_told(tmp_path: pathlib.Path) -> None:
    path = tmp_path / "alarms.toml"
    assert notices.__doc__ is not None
    path.write_text("\n".join(line[4:] for line in notices.__doc__.splitlines()[2:]))
    with pytest.raises(Refusal, match="mail.password"):
        notices.read(str(path))
    (tmp_path / "mail.password").write_text("a secret\n")
    found = notices.read(str(path))
    made, web = found.targets
    assert isinstance(made, Mail) and (made.host, made.port, made.password) == ("mail.example.org", 587, "a secret")
    assert isinstance(web, Webhook) and found.quiet == Quiet(datetime.time(22), datetime.time(6), ("failed",))
    for text, why in (
        ("[post]", "there is no 'post'"),
        ("[mail]\nserver = 'a:25'\nto = []\nfrom = 'a'", "a list of addresses"),
        ("[mail]\nserver = 'a'\nto = ['a']", "no HOST:PORT"),
        ("[mail]\nto = ['a']", "server is missing"),
        ("[[webhook]]\nurl = 'file:///etc/passwd'", "http or https"),
        ("[[webhook]]\nurl = 'http://a@b/'", "no user"),
        ("[quiet]\nfrom = '25:00'\nuntil = '06:00'", "hour must be"),
        ("[[webhook]]\nurl = 'https://a:65536/'", "Port out of range"),
        ("[[webhook]]\nurl = 'https://a:b/'", "Port could not be cast"),
        ("[quiet]\nfrom = '22:00Z'\nuntil = '06:00'", "without a zone"),
        ("[quiet]\nfrom = '22:00'\nuntil = '06:00+01:00'", "without a zone"),
        ("[quiet]\nfrom = '22:00'\nuntil = '22:00:00'", "until another one"),
        ("[quiet]\nfrom = '22:00'\nuntil = '06:00'\nkinds = ['x']", "no kind 'x'"),
        ("[quiet", "at end of document"),
    ):
        path.write_text(text)
        with pytest.raises(Refusal, match=why):
            notices.read(str(path))
    with pytest.raises(Refusal, match="No such file"):
        notices.read(str(tmp_path / "none"))


def test_nothing_of_this_machine_is_asked_for_by_a_name_alone() -> None:
    """A port that nobody listens at is a fault like others."""
    with socket.create_server(("127.0.0.1", 0)) as connection:
        port = connection.getsockname()[1]
    with pytest.raises(OSError):
        Webhook(f"http://127.0.0.1:{port}/").tell([])
