"""Tells people of alarms: by e-mail and by webhooks, to the addresses of a file alone, outside of quiet times.

    [mail]
    server = "mail.example.org:587"
    security = "starttls"                        # or "tls", or "none"
    user = "control"                             # with its password in a file of its own; neither is needed
    password_file = "mail.password"
    from = "control@example.org"
    to = ["duty@example.org"]

    [[webhook]]
    url = "https://alarms.example.org/control"   # gets a POST of JSON

    [quiet]
    from = "22:00"                               # by the clock of the machine
    until = "06:00"
    kinds = ["failed"]                           # else all: silent, error, other, failed, device
"""

import contextlib
import datetime
import email.message
import hashlib
import http.client
import json
import pathlib
import smtplib
import socket
import ssl
import threading
import tomllib
from dataclasses import dataclass, field
from typing import Any, Callable, Iterator, Protocol
from urllib.parse import urlsplit

from wisangub.endpoint.sockets import host_and_port
from wisangub.refusal import Refusal, reason

from .output import LOG
from .store import alarms, database
from .store.alarms import EVERY, KINDS, Alarm
from .store.database import Database

_PATIENCE = 10.0  # seconds that a server is waited for
_LIMIT = 20.0  # seconds that telling one takes at most, whatever its server does
_SECURITY = ("starttls", "tls", "none")


class Target(Protocol):
    """Somebody who is told. `name` is what the database calls it."""

    @property
    def name(self) -> str:
        ...

    def tell(self, found: list[Alarm]) -> str:
        """Which of many do not know it, and why; empty where none. Raises where it was not done: OSError,
        smtplib.SMTPException, http.client.HTTPException, or else."""


@contextlib.contextmanager
def _limited(end: Callable[[], None], seconds: float) -> Iterator[None]:
    """Ends what is under way where it takes longer, by closing what it waits for."""
    timer = threading.Timer(seconds, end)
    timer.daemon = True
    timer.start()
    try:
        yield
    finally:
        timer.cancel()


def _line(one: Alarm) -> str:
    return f"{one.sign_name}: {one.what}"


@dataclass(frozen=True)
class Mail:
    """E-mail by a server."""

    host: str
    port: int
    security: str
    sender: str
    to: tuple[str, ...]
    user: str = ""
    password: str = ""
    name: str = "mail"
    limit: float = _LIMIT

    def tell(self, found: list[Alarm]) -> str:
        made = email.message.EmailMessage()
        made["From"], made["To"] = self.sender, ", ".join(self.to)
        made["Subject"] = _line(found[0])[:120] if len(found) == 1 else f"{len(found)} alarms of signs"
        made.set_content("\n".join(map(_line, found)) + "\n")
        context, server = ssl.create_default_context(), smtplib.SMTP(timeout=_PATIENCE)
        if self.security == "tls":
            server = smtplib.SMTP_SSL(timeout=_PATIENCE, context=context)  # which looks at no certificate by itself
        setattr(server, "_host", self.host)  # whose certificate it has to be: `connect` by itself says nobody's
        try:
            with _limited(lambda: _cut(server), self.limit):
                refused = self._send(server, context, made)
        finally:
            server.close()
        words = {to: f"{code} {' '.join(why.decode(errors='replace').split())}" for to, (code, why) in refused.items()}
        return ", ".join(f"{to}: {why}" for to, why in sorted(words.items()))

    def _send(
        self, server: smtplib.SMTP, context: ssl.SSLContext, made: email.message.EmailMessage
    ) -> dict[str, tuple[int, bytes]]:
        """Hands it to the server: which addresses that one refused, where it took others."""
        server.connect(self.host, self.port)
        if self.security == "starttls":
            server.starttls(context=context)
        if self.user:
            server.login(self.user, self.password)
        refused = server.send_message(made)
        with contextlib.suppress(OSError):  # it has the mail, and would get it again
            server.quit()
        return refused


@dataclass(frozen=True)
class Webhook:
    """A POST of JSON. Its answer is not read beyond its status, and leads nowhere else."""

    url: str
    limit: float = _LIMIT

    @property
    def name(self) -> str:
        return f"webhook {hashlib.sha256(self.url.encode()).hexdigest()[:16]}"  # a secret may stand in the address

    def tell(self, found: list[Alarm]) -> str:
        parts = urlsplit(self.url)
        kind = http.client.HTTPSConnection if parts.scheme == "https" else http.client.HTTPConnection
        server = kind(parts.hostname or "", parts.port, timeout=_PATIENCE)
        path = (parts.path or "/") + (f"?{parts.query}" if parts.query else "")
        body = json.dumps({"alarms": [_entry(one) for one in found]})
        try:
            with _limited(lambda: _cut(server), self.limit):
                server.request("POST", path, body, {"Content-Type": "application/json", "Connection": "close"})
                status = server.getresponse().status
            if not 200 <= status < 300:
                raise http.client.HTTPException(f"it answers with {status}")
        finally:
            server.close()
        return ""


def _cut(server: http.client.HTTPConnection | smtplib.SMTP) -> None:
    """Ends a connection that another thread waits for."""
    with contextlib.suppress(OSError):
        if server.sock is not None:
            server.sock.shutdown(socket.SHUT_RDWR)


def _entry(one: Alarm) -> dict[str, str]:
    begun = datetime.datetime.fromtimestamp(one.begun, datetime.timezone.utc).isoformat(timespec="seconds")
    return {"sign": one.sign_name, "kind": one.kind, "what": one.what, "since": begun}


@dataclass(frozen=True)
class Quiet:
    """Times of the day between which alarms of some kinds are held back; those that stand later are told then."""

    begin: datetime.time
    end: datetime.time
    kinds: tuple[str, ...] = KINDS

    def is_now(self, at: datetime.time) -> bool:
        if self.begin <= self.end:
            return self.begin <= at < self.end
        return at >= self.begin or at < self.end


@dataclass(frozen=True)
class Settings:
    """Who is told, and when not."""

    targets: tuple[Target, ...]
    quiet: Quiet | None = None

    def kinds(self, at: datetime.time) -> list[str]:
        """The kinds of alarms that are told of at this time of the day."""
        held = self.quiet.kinds if self.quiet is not None and self.quiet.is_now(at) else ()
        return [kind for kind in KINDS if kind not in held]


def read(path: str) -> Settings:
    """The settings of a file; a fault is told with the file and the reason."""
    try:
        held = tomllib.loads(pathlib.Path(path).read_text(encoding="utf-8"))
        return _settings(held, pathlib.Path(path).parent)
    except OSError as fault:
        raise Refusal(reason(fault)) from fault
    except (UnicodeDecodeError, tomllib.TOMLDecodeError, KeyError, TypeError, ValueError, Refusal) as fault:
        words = f"{fault.args[0]} is missing" if isinstance(fault, KeyError) else str(fault)
        raise Refusal(f"{path}: {words}") from fault


def _settings(held: dict[str, Any], folder: pathlib.Path) -> Settings:
    if unknown := set(held) - {"mail", "webhook", "quiet"}:
        raise ValueError(f"there is no {sorted(unknown)[0]!r}: there are [mail], [[webhook]] and [quiet]")
    targets: list[Target] = [_mail(held["mail"], folder)] if "mail" in held else []
    targets += [_webhook(str(one["url"])) for one in held.get("webhook", [])]
    return Settings(tuple(targets), _quiet(held["quiet"]) if "quiet" in held else None)


def _mail(held: dict[str, Any], folder: pathlib.Path) -> Mail:
    host, port = host_and_port(str(held["server"]))
    security, to = str(held.get("security", "starttls")), held["to"]
    if security not in _SECURITY or not isinstance(to, list) or not to:
        raise ValueError(f"[mail] has a security of {', '.join(_SECURITY)}, and a list of addresses `to`")
    password = (folder / held["password_file"]).read_text().rstrip("\r\n") if "password_file" in held else ""
    return Mail(host, port, security, str(held["from"]), tuple(map(str, to)), str(held.get("user", "")), password)


def _webhook(url: str) -> Webhook:
    parts = urlsplit(url)
    if parts.scheme not in ("http", "https") or not parts.hostname or parts.username is not None or parts.port == 0:
        raise ValueError("a webhook has a url of http or https, with a host and no user")
    return Webhook(url)


def _quiet(held: dict[str, Any]) -> Quiet:
    kinds = tuple(map(str, held.get("kinds", KINDS)))
    if unknown := set(kinds) - set(KINDS):
        raise ValueError(f"there is no kind {sorted(unknown)[0]!r}: there are {', '.join(KINDS)}")
    begin, end = (datetime.time.fromisoformat(str(held[word])) for word in ("from", "until"))
    if begin.tzinfo is not None or end.tzinfo is not None:
        raise ValueError("quiet times are by the clock of the machine, without a zone")
    if begin == end:
        raise ValueError("quiet times are from a time of the day until another one")
    return Quiet(begin, end, kinds)


@dataclass
class Notices:
    """Tells of alarms in a thread of its own, with a connection of its own: no worker waits for a server of mail."""

    where: str
    settings: Settings
    is_done: threading.Event = field(default_factory=threading.Event)
    faults: dict[str, str] = field(default_factory=dict)  # what was said last of each target

    def start(self) -> None:
        self.thread = threading.Thread(target=self._run, name="notices", daemon=True)
        self.thread.start()

    def stop(self) -> None:
        """Ends it; what is under way is tried again by the next one."""
        self.is_done.set()

    def _run(self) -> None:
        while not self.is_done.wait(EVERY):
            try:
                held = database.opened(self.where, may_create=False)
                try:
                    self.tell(held)
                finally:
                    held.close()
            except Exception as fault:  # whatever it is, the next alarm is told
                self._say("database", str(fault) or type(fault).__name__)

    def tell(self, database: Database) -> None:
        """Tells each target of what it was not told of."""
        for target in self.settings.targets:
            found = alarms.to_tell(database, target.name, self.settings.kinds(datetime.datetime.now().time()))
            if not found:
                continue
            try:
                left = target.tell(found)
            except Exception as fault:  # also an IndexError, of what is no address: others are told all the same
                self._say(target.name, str(fault) or type(fault).__name__)
            else:
                alarms.told(database, target.name, found)
                self._say(target.name, left)

    def _say(self, of: str, words: str) -> None:
        """Says a fault once; none, where there is none any more."""
        if words and self.faults.get(of) != words:
            LOG.warning(f"alarms are not told ({of}): {words}")
        self.faults[of] = words
