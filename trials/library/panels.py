"""A panel of lamps: each bit at each tenth of a second with a simulated clock, and examples/panel.c as it runs."""

from __future__ import annotations

import configparser
import contextlib
import os
import pathlib
import shutil
import signal
import socket
import subprocess
import sys
import threading
import time
from collections.abc import Callable

from model import layout, text
from trials.picture import is_lit, up

from .against_vectors import cases
from .trial import PLAIN, TOP, UNDER_VALGRIND, Late, Trial, Way, described

TENTHS = 120
FEW_TENTHS = 25  # where each takes long
TURNS = "[pt6o4][flt3o2]A[/fl]B[np][pt4o0][flo2t2]C"  # two pages whose lamps change every few tenths
TEXTS = {
    "roadside": (
        "[pt20o5][fo2][flt5o5]FOG[/fl] AHEAD[np][fo1]SLOW DOWN[nl]MAX 60",
        TURNS,
        "[pt0o0][flt0o0]NOW [flt9]A",
    ),
    "gantry": (
        "[pt0o0][fl][cf3]FOG AHEAD[np][cf9]SLOW [flt2o3]DOWN[/fl] [flo1t0]NOW",
        "[pt0o5]FOG[np][pt0o0]SLOW",
        TURNS,
    ),
}
UNIT = TOP / "examples/panel.service"
MOST_WAIT = 30.0  # seconds
LATE = 3  # tenths that a frame may be late on a busy machine


class Face:
    """The lamps of a sign's texts, by the model."""

    def __init__(self, sign: str) -> None:
        self.face = text.World(text.described(described(sign).encode("latin-1"))).sign.state.face
        self.stride = (self.face.width + 7) // 8

    def frame(self, shown: str, tenth: int) -> bytes:
        """The rows of bits of a text that has been up for so long."""
        pages, _ = layout.laid_out(self.face, self.face.defaults, shown.encode())
        assert pages is not None
        page, since = up(pages, tenth)
        if page is None:
            return bytes(self.stride * self.face.height)
        found = b""
        for row in layout.cells(self.face, page):
            bits = "".join("1" if cell is not None and is_lit(cell[1], since) else "0" for cell in row)
            found += int(bits.ljust(8 * self.stride, "0"), 2).to_bytes(self.stride, "big")
        return found


def simulated(trial: Trial, way: Way, tenths: int) -> None:
    """Each lamp of two panels at each tenth of a second, and what is asserted in examples/panel_test.c."""
    for sign, texts in TEXTS.items():
        face, path = Face(sign), str(TOP / "signs" / f"{sign}.sign")
        digits = "".join(f"{one.encode('latin-1').hex()}\n" for one in texts)
        status, said = trial.ran(trial.called(way, "panel_test", path, str(tenths)), digits)
        wanted = [face.frame(one, tenth).hex() for one in texts for tenth in range(tenths)]
        trial.check(f"{way.name}: panel_test, {sign}", status == 0 and len(wanted) > 0, said[-600:])
        trial.same(f"{way.name}: the lamps of {sign}", said.splitlines(), wanted)


class Panel:
    """examples/panel.c with an SPI panel, a watchdog, a power input and systemd that are files of ours."""

    def __init__(self, trial: Trial, sign: str) -> None:
        self.folder = trial.folder / "panel"
        self.folder.mkdir()
        self.face, self.frames = Face(sign), list[tuple[float, bytes]]()
        self.spi, self.power, self.dog = (self.folder / name for name in ("spi", "power", "watchdog"))
        os.mkfifo(self.spi)
        self.power.write_text("1\n")
        self.dog.write_text("")
        self.told = socket.socket(socket.AF_UNIX, socket.SOCK_DGRAM)
        self.told.bind(str(self.folder / "notify"))
        self.told.setblocking(False)
        self.states = list[str]()
        self.reads = os.open(self.spi, os.O_RDONLY | os.O_NONBLOCK)
        words = trial.called(trial.way, "panel", "--port", "0", "--power", str(self.power), "--watchdog", str(self.dog))
        self.process = subprocess.Popen(
            [*words, str(TOP / "signs" / f"{sign}.sign"), str(self.spi)],
            stderr=subprocess.PIPE,
            text=True,
            env={**os.environ, "NOTIFY_SOCKET": str(self.folder / "notify")},
        )
        self.is_read = True
        self.reader = threading.Thread(target=self.read, daemon=True)
        self.reader.start()
        assert self.process.stderr is not None
        self.said = [self.process.stderr.readline().strip() for _ in range(2)]
        self.socket = socket.socket(socket.AF_INET, socket.SOCK_DGRAM)
        self.socket.settimeout(2)
        if self.said[1]:
            self.socket.connect(("127.0.0.1", int(self.said[1].split()[-1])))

    def read(self) -> None:
        """Collects frames, with the moments at which they came."""
        size, left = self.face.stride * self.face.face.height, b""
        while self.is_read:
            try:
                left += os.read(self.reads, 65536)
            except BlockingIOError:
                pass
            while len(left) >= size:
                self.frames.append((time.monotonic(), left[:size]))
                left = left[size:]
            time.sleep(0.005)

    def deafen(self) -> None:
        """The panel is gone."""
        self.is_read = False
        self.reader.join()
        os.close(self.reads)

    def last(self) -> bytes:
        return self.frames[-1][1] if self.frames else b""

    def is_dark(self) -> bool:
        return self.last() != b"" and not any(self.last())

    def feeds(self) -> int:
        """How often systemd's watchdog was fed."""
        try:
            while True:
                self.states.append(self.told.recv(100).decode())
        except BlockingIOError:
            return self.states.count("WATCHDOG=1")

    def ask(self, octets: str) -> str:
        """The reply to a datagram; nothing where none comes."""
        self.socket.send(bytes.fromhex(octets))
        try:
            return self.socket.recv(65536).hex()
        except TimeoutError:
            return ""

    def end(self) -> tuple[int, str]:
        if self.process.poll() is None:
            self.process.send_signal(signal.SIGTERM)
        try:
            _, said = self.process.communicate(timeout=MOST_WAIT)
        except subprocess.TimeoutExpired:
            self.process.kill()
            _, said = self.process.communicate()
        return self.process.returncode, said

    def close(self) -> None:
        if self.is_read:
            self.deafen()
        self.socket.close()
        self.told.close()


def becomes(is_so: Callable[[], bool]) -> bool:
    last = time.monotonic() + MOST_WAIT
    while time.monotonic() < last and not is_so():
        time.sleep(0.02)
    return is_so()


def published(trial: Trial, panel: Panel, sign: str, shown: str) -> bool:
    """Has a text published at the panel's port, by a central system."""
    line = f"centre publish 3 1 {shown.encode().hex()} - 0 0 200 65535 255 127.0.0.1"
    with trial.talk(described(sign), PLAIN) as talk:
        for _ in range(int(MOST_WAIT)):
            word, _, octets = talk.ask(line).partition(" ")
            while word == "send":
                word, _, octets = talk.ask(f"centre datagram {panel.ask(octets) or '-'}").partition(" ")
            status = talk.ask_lines("centre status")
            if status[0] != "busy":
                return "last accepted" in status
            time.sleep(1)
            line = "centre tick"
    return False


def times(panel: Panel, shown: str, begun: float) -> list[str]:
    """The frames that no moment near their own has, and the moments of a round whose frame never came."""
    at = [(int((moment - begun) * 10), frame) for moment, frame in panel.frames if moment >= begun]
    wrong = [
        f"at {tenth}"
        for tenth, frame in at
        if all(panel.face.frame(shown, near) != frame for near in range(max(0, tenth - LATE), tenth + 2))
    ]
    came = {frame for _, frame in at}
    return wrong + [f"none at {tenth}" for tenth in range(14) if panel.face.frame(shown, tenth) not in came]


def begin_of(panel: Panel, shown: str) -> float:
    """When the picture of a text was up for the first time."""
    first = panel.face.frame(shown, 0)
    return next((moment for moment, frame in panel.frames if frame == first), 0.0)


def lives(trial: Trial, panel: Panel, sign: str) -> None:
    trial.same("panel: the lamps come first", panel.said[0], "panel: the lamps show the sign")
    trial.check(
        "panel: then the network", panel.said[1].startswith("panel: the sign is at 127.0.0.1 port "), panel.said
    )
    trial.check("panel: a new sign is dark", becomes(panel.is_dark))
    trial.check(
        "panel: it is ready", becomes(lambda: panel.feeds() >= 1) and panel.states[0] == "READY=1", panel.states
    )
    trial.check("panel: a text is published", published(trial, panel, sign, TURNS))
    trial.check("panel: the text is up", becomes(lambda: begin_of(panel, TURNS) > 0))
    time.sleep(3.2)
    trial.same("panel: pages and flashes have their times", times(panel, TURNS, begin_of(panel, TURNS)), [])


def stops(trial: Trial, panel: Panel) -> None:
    """A process that is stopped feeds no watchdog, and what it missed is passed."""
    panel.process.send_signal(signal.SIGSTOP)
    time.sleep(0.3)
    fed, size = panel.feeds(), panel.dog.stat().st_size
    time.sleep(2)
    trial.same("panel: who stands still feeds no watchdog", (panel.feeds(), panel.dog.stat().st_size), (fed, size))
    panel.process.send_signal(signal.SIGCONT)
    trial.check("panel: who goes on does", becomes(lambda: panel.feeds() > fed and panel.dog.stat().st_size > size))


def loses_power(trial: Trial, panel: Panel) -> None:
    get = next(case["request"] for case in cases("requests") if case["reply"] and not case["changes"])
    panel.power.write_text("0\n")
    trial.check("panel: without power the lamps are dark", becomes(panel.is_dark))
    time.sleep(1.5)
    trial.check("panel: and stay so", panel.is_dark())
    trial.same("panel: without power none is answered", panel.ask(get), "")
    panel.power.write_text("1\n")
    time.sleep(0.5)
    trial.check("panel: with power it is answered", becomes(lambda: panel.ask(get) != ""))


def ends(trial: Trial, panel: Panel) -> None:
    status, said = panel.end()
    time.sleep(0.1)
    panel.feeds()
    trial.same("panel: its end", (status, said, panel.states[-1]), (0, "", "STOPPING=1"))
    trial.check("panel: its lamps are dark then", panel.is_dark())
    octets = panel.dog.read_text()
    trial.check("panel: the watchdog is let go", octets.endswith("V") and set(octets[:-1]) == {"1"}, octets)


def deaf(trial: Trial) -> None:
    """A panel that takes no frame lets the watchdog bite, and without a panel nothing is opened."""
    panel = Panel(trial, "roadside")
    becomes(lambda: panel.feeds() >= 1)
    panel.deafen()
    time.sleep(0.3)
    fed = panel.feeds()
    time.sleep(2.2)
    trial.check("panel: without lamps no watchdog is fed", panel.feeds() <= fed + 1, (fed, panel.feeds()))
    panel.end()
    panel.close()
    words = trial.called(trial.way, "panel", str(TOP / "signs/roadside.sign"), str(trial.folder / "none" / "spi"))
    status, said = trial.ran(words)
    trial.check("panel: there is no panel", status == 1 and "spi" in said and "port" not in said, said)
    status, said = trial.ran(trial.called(trial.way, "panel"))
    trial.check("panel: its use", status == 2 and said.startswith("usage: panel"), said)


def live(trial: Trial) -> None:
    panel = Panel(trial, "roadside")
    try:
        lives(trial, panel, "roadside")
        stops(trial, panel)
        loses_power(trial, panel)
        ends(trial, panel)
    finally:
        panel.process.kill()
        panel.close()
    shutil.rmtree(panel.folder)
    deaf(trial)


def unit(trial: Trial) -> None:
    """The unit says what it should, and systemd reads it."""
    read = configparser.ConfigParser(strict=False, interpolation=None)
    read.optionxform = str  # type: ignore[assignment]
    read.read_string(UNIT.read_text(encoding="utf-8"))
    service = read["Service"]
    wanted = {"Type": "notify", "Restart": "always", "WatchdogSec": "5", "AmbientCapabilities": "CAP_NET_BIND_SERVICE"}
    trial.same("panel.service", {name: service[name] for name in wanted}, wanted)
    if not trial.has("panel.service", "systemd-analyze"):
        return
    made = trial.folder / "panel.service"
    made.write_text(UNIT.read_text(encoding="utf-8").replace("/usr/bin/panel", "/bin/true"), encoding="utf-8")
    status, said = trial.ran(["systemd-analyze", "verify", str(made)])
    trial.check("panel.service: systemd reads it", status == 0 and "panel.service" not in said, said)


def _opened(path: pathlib.Path, process: subprocess.Popen[str]) -> int:
    """A pipe that a process waits at, open to be written; -1 where it is gone."""
    last = time.monotonic() + MOST_WAIT
    while process.poll() is None and time.monotonic() < last:
        with contextlib.suppress(OSError):  # nobody reads it yet
            return os.open(path, os.O_WRONLY | os.O_NONBLOCK)
    return -1


def ended_at_start(trial: Trial) -> None:
    """A SIGTERM once the lamps are lit darkens them, also before the sign is on the network."""
    folder = trial.folder / "starting"
    folder.mkdir()
    spi, power = folder / "spi", folder / "power"
    os.mkfifo(spi)
    os.mkfifo(power)  # it is waited for
    reads = os.open(spi, os.O_RDONLY | os.O_NONBLOCK)
    words = ("--port", "0", "--power", str(power), str(TOP / "signs/roadside.sign"), str(spi))
    with subprocess.Popen(trial.called(trial.way, "panel", *words), stderr=subprocess.PIPE, text=True) as process:
        assert process.stderr is not None
        trial.same("a start: the lamps", process.stderr.readline(), "panel: the lamps show the sign\n")
        process.send_signal(signal.SIGTERM)
        time.sleep(0.2)
        if (file := _opened(power, process)) >= 0:
            os.close(file)
        status = process.wait(MOST_WAIT)
    face = Face("roadside")
    dark = bytes(face.stride * face.face.height)
    trial.check("a start that is ended: dark", status == 0 and os.read(reads, 1 << 20).endswith(dark), status)
    os.close(reads)


def unread(trial: Trial) -> None:
    """A systemd that reads nothing holds no lamps up: what it does not take is left out."""
    library, path = trial.folder / "watchdogs.so", trial.folder / "unread"
    status, said = trial.ran(["cc", "-shared", "-fPIC", "-o", str(library), str(TOP / "examples/watchdogs.c")])
    if not trial.check("compile watchdogs.c", status == 0, said):
        return
    most = int(pathlib.Path("/proc/sys/net/unix/max_dgram_qlen").read_text(encoding="ascii"))
    tells = f"to = ctypes.CDLL({str(library)!r}); [to.watchdogs_feed(-1) for _ in range({2 * most + 9})]"
    with socket.socket(socket.AF_UNIX, socket.SOCK_DGRAM) as told:
        told.bind(str(path))
        try:
            words = [sys.executable, "-c", f"import ctypes; {tells}"]
            status, said = trial.ran(words, "", MOST_WAIT, NOTIFY_SOCKET=str(path))
        except Late as late:
            status, said = -1, str(late)
        trial.check("a systemd that reads nothing", status == 0, said)
        trial.same("what it was told", told.recv(20), b"WATCHDOG=1")


def run(trial: Trial) -> None:
    for way in {PLAIN, trial.way}:
        simulated(trial, way, TENTHS if way == PLAIN else FEW_TENTHS)
    live(trial)
    ended_at_start(trial)
    unit(trial)
    unread(trial)


def under_valgrind(trial: Trial) -> None:
    simulated(trial, UNDER_VALGRIND, FEW_TENTHS)
