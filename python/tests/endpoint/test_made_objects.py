"""Files that wisangub-objects makes: what they have, that the program's rules take them, and what is refused."""

import functools
import pathlib
import subprocess
import sys

import pytest

from model import coprocess, text
from model.agent import Agent
from wisangub import __version__
from wisangub.objects import listed
from wisangub.objects.known import KNOWN, By
from wisangub.objects.made import Machine, Sign, file_of
from wisangub.process.places import TOP
from wisangub.refusal import Refusal
from wisangub.snmp import wire
from wisangub.snmp.names import DMS, OBJECTS

from .asked_names import ASKED

COMMAND = [sys.executable, str(TOP / "bin/wisangub-objects")]
ROADSIDE = TOP / "signs/roadside.sign"
MAKER = ("--make", "Example Signs", "--model", "RS 96", "--version", "1.0")
CALLS = {
    "roadside": [*MAKER, "--name", "roadside", "--location", "beside the road"],
    "gantry": [
        *("--make", "Example Signs", "--model", "GS 256", "--version", "1.0", "--name", "gantry"),
        *("--location", "over the motorway", "--pitch", "25", "--border", "150", "--access", "walk-in"),
        *("--levels", "16"),
    ],
}


def called(*words: str) -> subprocess.CompletedProcess[str]:
    return subprocess.run([*COMMAND, *words], capture_output=True, text=True, timeout=60, check=False)


def numbers(dotted: str) -> wire.Name:
    return tuple(map(int, dotted.split(".")))


@pytest.mark.parametrize("name", CALLS)
def test_the_files_of_signs_are_what_is_made(name: str) -> None:
    sign = f"signs/{name}.sign"
    made = subprocess.run(
        [*COMMAND, sign, *CALLS[name]], cwd=TOP, capture_output=True, text=True, timeout=60, check=True
    ).stdout
    words = " ".join(f'"{word}"' if " " in word else word for word in CALLS[name])
    kept = (TOP / f"signs/{name}.objects").read_text(encoding="ascii")
    assert kept == made, f"bin/wisangub-objects {sign} {words} --into signs/{name}.objects"


@pytest.mark.parametrize("name", CALLS)
def test_a_sign_takes_each_object(name: str) -> None:
    found = listed.read(str(TOP / f"signs/{name}.objects"))
    agent = Agent(text.described((TOP / f"signs/{name}.sign").read_bytes()))
    answer = functools.partial(coprocess.sign_answer, agent)
    lines = [b"fonts", *(one.line() for one in found.published(0, 0).values())]
    assert [coprocess.answered(answer, line) for line in lines] == [["ok"]] * len(lines)
    for number, word, _ in ASKED:
        assert agent.objects.value(numbers(number)) is not None, word


def test_what_a_manager_asks_for_is_in_the_table_by_the_same_name() -> None:
    of = {one.numbers: one for one in KNOWN}
    assert len(of) == len(KNOWN) == len({one.name for one in KNOWN}) == len({name for _, name, _ in ASKED})
    for number, word, source in ASKED:
        one = next(of[name] for name in (numbers(number)[:-1], numbers(number)[:-2]) if name in of)
        assert (one.name, one.source) == (word, source)
    assert not {one.name for one in KNOWN} & set(OBJECTS)


def test_what_a_manager_may_write() -> None:
    def written(*acts: str) -> set[str]:
        sign = Sign.of(ROADSIDE.read_bytes())
        found = listed.of_text("x", file_of(sign, Machine("a", "b", "c", acts=frozenset(acts)), "x").encode())
        of = {one.numbers: one.name for one in KNOWN}
        return {of[name[:-1]] for name, one in found.objects.items() if one.access}

    always = {"sysContact", "sysName", "sysLocation", "dmsIllumControl", "dmsIllumManLevel"}
    assert written() == always == {one.name for one in KNOWN if one.by is By.MANAGER}
    assert written("dmsSWReset", "dmsMemoryMgmt") == always | {"dmsSWReset", "dmsMemoryMgmt"}


def test_the_values_follow_the_description_and_the_options() -> None:
    gantry = listed.read(str(TOP / "signs/gantry.objects"))
    values = {name[len(DMS) : -1]: one.value[1] for name, one in gantry.objects.items() if name[: len(DMS)] == DMS}
    assert (values[(1, 3)], values[(1, 4)], values[(1, 5)]) == (64 * 25 + 300, 256 * 25 + 300, 150)
    assert (values[(1, 1)], values[(1, 2)], values[(1, 8)], values[(1, 9)]) == (2, 6, 1, 2)
    assert values[(4, 14)] == bytes.fromhex("20001cef") and (values[(4, 15)], values[(4, 16)]) == (6, 512)
    assert values[(7, 4)] == 16 and len(values[(7, 7)]) == 1 + 16 * 6 and values[(7, 7)][-6:-4] == b"\xff\xff"
    level = gantry.objects[DMS + (7, 6, 0)]
    assert level.access is not None and (level.access.least, level.access.most) == (0, 16)
    roadside = listed.read(str(TOP / "signs/roadside.objects")).objects
    assert roadside[DMS + (1, 8, 0)].value == (wire.INTEGER, 2)
    assert roadside[(1, 3, 6, 1, 2, 1, 1, 1, 0)].value[1].startswith(b"Example Signs RS 96 1.0, ")


@pytest.mark.parametrize(
    "words, why",
    [
        (["--make", "x"], "the following arguments are required: DESCRIPTION, --model, --version"),
        ([str(ROADSIDE), *MAKER[:4]], "the following arguments are required: --version"),
        (["no/such", *MAKER], "no/such: No such file or directory"),
        ([str(ROADSIDE), *MAKER, "--levels", "65"], "--levels 65 is no number from 1 to 64"),
        ([str(ROADSIDE), *MAKER, "--pitch", "0"], "--pitch 0 is no number from 1 to 255"),
        ([str(ROADSIDE), *MAKER, "--acts", "sysName"], "--acts sysName is none of dmsControlMode, dmsMemoryMgmt,"),
        ([str(ROADSIDE), *MAKER, "--object-id", "x"], "--object-id x is no name: numbers with dots between them"),
        ([str(ROADSIDE), *MAKER, "--name", "x" * 81], "--name has more than 80 octets, or what is not printed"),
        ([str(ROADSIDE), *MAKER, "--name", "a\nobject"], "--name has more than 80 octets, or what is not printed"),
    ],
)
def test_what_is_not_in_order_is_refused(words: list[str], why: str) -> None:
    ended = called(*words)
    assert ended.returncode == 2 and why in ended.stderr and ended.stdout == ""


def test_a_file_is_written_whole_or_not_at_all(tmp_path: pathlib.Path) -> None:
    path = tmp_path / "some.objects"
    assert called(str(ROADSIDE), *MAKER, "--into", str(path)).returncode == 0
    assert listed.read(str(path)).fonts and [one.name for one in tmp_path.iterdir()] == ["some.objects"]
    ended = called(str(ROADSIDE), *MAKER, "--into", str(tmp_path / "no/such"))
    assert ended.returncode == 1 and "No such file or directory" in ended.stderr


def test_words_that_are_not_ascii_are_octets_of_utf_8() -> None:
    with pytest.raises(Refusal):
        Sign.of(b"size 1\n")
    sign = Sign.of(ROADSIDE.read_bytes())
    made = file_of(sign, Machine("Straße", "b", "c", has_fonts=False), "x")
    assert made.isascii() and "Straße".encode().hex() in made and "\nfonts\n" not in made


def test_alone_the_option_version_says_the_commands_own() -> None:
    assert called("--version").stdout == f"wisangub-objects {__version__}\n"
