"""Net-SNMP's commands as a manager of a sign with objects and fonts beside its own, over the model and the program."""

import pathlib
import re
import shutil
import subprocess
import sys
from collections.abc import Iterator

import pytest

from model import text
from model.font_objects import bitmap
from wisangub.process.places import TOP

from .asked_names import ASKED, EIGHT
from .waiting import PATIENCE, PROGRAMS, until
from .with_objects import Served, served

LACKING = [name for name in ("snmpwalk", "snmpget", "snmpset", "snmptable") if shutil.which(name) is None]
pytestmark = pytest.mark.skipif(bool(LACKING), reason=f"{', '.join(LACKING)} of Net-SNMP not here")
SIGN, FILE = TOP / "signs/roadside.sign", TOP / "signs/roadside.objects"
READER, WRITER = "public", "administrator"


@pytest.fixture(name="sign", scope="module", params=PROGRAMS)
def sign_of(request: pytest.FixtureRequest) -> Iterator[Served]:
    words = ("--signtool", request.param, "--sign", str(SIGN), "--objects", str(FILE), "--no-ticks")
    with served(*words) as front_end:
        yield front_end


def manager(front_end: Served, call: str, *words: str, community: str = READER, names: bool = True) -> str:
    """What a command of Net-SNMP prints; it has to end well."""
    mibs = ["-M", str(TOP / "mibs"), "-m", "DMS-DEVICE-MIB"] if names else ["-M", "/none", "-m", ""]
    host, port = front_end.manager.getpeername()
    before = [word for word in words if word.startswith("-")] + ([","] if call == "snmptable" else [])
    after = [word for word in words if not word.startswith("-")]
    ended = subprocess.run(
        [call, "-v1", "-c", community, "-t", "20", "-r", "0", *mibs, *before, f"{host}:{port}", *after],
        capture_output=True,
        text=True,
        timeout=4 * PATIENCE,
        check=False,
    )
    assert ended.returncode == 0, ended.stderr
    return ended.stdout


def walked(front_end: Served, root: str, mibs: tuple[str, str] = ("/none", "")) -> dict[tuple[int, ...], str]:
    """All below a name, in the order of the walk."""
    host, port = front_end.manager.getpeername()
    call = ["snmpwalk", "-v1", "-c", READER, "-t", "20", "-r", "0", "-M", mibs[0], "-m", mibs[1], "-On", "-Ox"]
    ended = subprocess.run(
        [*call, f"{host}:{port}", root], capture_output=True, text=True, timeout=4 * PATIENCE, check=False
    )
    assert ended.returncode == 0, ended.stderr
    found = re.findall(r"(?m)^\.([0-9.]+) = ((?:.|\n(?!\.))*)", ended.stdout.replace("End of MIB\n", ""))
    return {tuple(map(int, name.split("."))): value.strip() for name, value in found}


def test_the_whole_tree_is_walked_in_order_and_to_its_end(sign: Served) -> None:
    found = list(walked(sign, "1.3", (str(TOP / "mibs"), "DMS-DEVICE-MIB")))
    described = text.described(SIGN.read_bytes())
    characters = sum(len(font.glyphs) for font in described.face.fonts)
    assert found == sorted(found) and len(set(found)) == len(found)
    published = FILE.read_text(encoding="ascii").count("\nobject ") + 2
    fonts = 3 + 8 * len(described.face.fonts) + 3 * characters
    rows = 9 * (len(described.permanent) + described.changeable + described.volatile + 1 + 255)
    assert len(found) == published + fonts + rows + 36
    assert found[0] == (1, 3, 6, 1, 2, 1, 1, 1, 0) and found[-1] == (1, 3, 6, 1, 4, 1, 1206, 4, 2, 6, 3, 2, 0)


def test_each_name_that_is_asked_for_is_answered(sign: Served) -> None:
    asked = [number for number, _, _ in ASKED]
    for at in range(0, len(asked), 8):
        printed = manager(sign, "snmpget", "-On", *asked[at : at + 8], names=False)
        assert re.findall(r"(?m)^\.([0-9.]+) =", printed) == asked[at : at + 8]


def test_the_names_are_those_of_the_mib(sign: Served) -> None:
    words = [f"{name}.{number.rsplit('.', 1)[1]}" for number, name, _ in ASKED if "character" not in name.lower()]
    for at in range(0, len(words), 8):
        printed = manager(sign, "snmpget", "-Os", *words[at : at + 8])
        assert re.findall(r"(?m)^(\w+\.[0-9]+) =", printed) == words[at : at + 8]


def test_a_managers_start_is_one_get_of_eight_names(sign: Served) -> None:
    printed = manager(sign, "snmpget", "-Oqv", *EIGHT).replace('"', "").splitlines()
    assert printed[0] == "Example Signs RS 96 1.0, a message sign of 96 by 27 lamps"
    assert printed[1:5] == ["vmsFull", "0", "27", "96"] and printed[6:] == ["0", "central"]


def test_a_brightness_is_set_and_seen_by_firmware(sign: Served) -> None:
    assert manager(sign, "snmpset", "-Oqv", "dmsIllumManLevel.0", "i", "3", community=WRITER) == "3\n"
    assert manager(sign, "snmpget", "-Oqv", "dmsIllumManLevel.0") == "3\n"
    line = "set 1.3.6.1.4.1.1206.4.2.3.7.6.0 INTEGER 3"
    until(lambda: line in sign.printed, "firmware is told")


def test_tables_are_printed(sign: Served) -> None:
    modules = manager(sign, "snmptable", "-Cf", "globalModuleTable").replace('"', "").splitlines()
    assert modules[2].split(",")[2:5] == ["moduleMake", "moduleModel", "moduleVersion"]
    assert modules[3].split(",")[2:] == ["Example Signs", "RS 96", "1.0", "hardware"] and len(modules) == 5
    fonts = manager(sign, "snmptable", "-Cf", "fontTable").splitlines()
    assert fonts[2].startswith("fontIndex,fontNumber,fontName,fontHeight")
    assert [line.split(",")[0] for line in fonts[3:]] == ["1", "2"]


def test_the_fonts_are_put_together_again(sign: Served, tmp_path: pathlib.Path) -> None:
    found = walked(sign, "1.3.6.1.4.1.1206.4.2.3.3")
    below = {name[11:]: value for name, value in found.items()}

    def number(*name: int) -> int:
        return int(below[name].removeprefix("INTEGER: "))

    lines = []
    for i in range(1, number(1, 0) + 1):
        height = number(2, 1, 4, i)
        words = f"space {number(2, 1, 5, i)} line {number(2, 1, 6, i)} version {number(2, 1, 7, i):04x}"
        lines.append(f"font {number(2, 1, 2, i)} height {height} {words}")
        for *_, n in (name for name in below if name[:4] == (4, 1, 1, i)):
            octets = re.sub(r"Hex-STRING:|\s", "", below[(4, 1, 3, i, n)]).lower()
            lines.append(f"glyph {n} {number(4, 1, 2, i, n)} {octets or '-'}")
    head, _, _ = SIGN.read_text(encoding="ascii").partition("\n# font ")
    path = tmp_path / "again.sign"
    path.write_text("\n".join([head, *lines, "end", ""]), encoding="ascii")
    again, described = text.described(path.read_bytes()), text.described(SIGN.read_bytes())
    assert again == described
    assert sum(len(bitmap(glyph)) > 0 for font in again.face.fonts for glyph in font.glyphs.values()) > 90


def test_the_tester_describes_the_sign_by_its_fonts() -> None:
    with served("--sign", str(SIGN), "--objects", str(FILE)) as front_end:
        host, port = front_end.manager.getpeername()
        call = [sys.executable, str(TOP / "bin/wisangub-conform"), "describe", "--to", f"{host}:{port}"]
        ended = subprocess.run([*call, "--wait", "20"], capture_output=True, timeout=4 * PATIENCE, check=False)
    assert ended.returncode == 0 and b"its fonts by the sign's font table" in ended.stdout, ended.stderr
    assert text.described(ended.stdout) == text.described(SIGN.read_bytes())
