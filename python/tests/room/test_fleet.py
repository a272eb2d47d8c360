"""A fleet's file: what it says, and each fault with its line."""

import dataclasses
import pathlib
import tempfile

import pytest

from wisangub.process.places import TOP
from wisangub.refusal import Refusal
from wisangub.room import fleet

GOOD = """# two signs
[[sign]]
name = "one"
address = "127.0.0.1:1161"
description = "a.sign"

[[sign]]
name = "two"
place = "a place"
address = "[::1]:1161"
description = "a.sign"
order = "swapped"
poll = 2.5
first = 70
"""
SIGN = "size 1 1\ncommunities all some\norder high\nfirst 5\nend\n"
FAULTS = [
    ("no TOML", 'name = "two"', "name = ", 8, "Invalid value"),
    ("an unknown key", 'place = "a place"', 'plaice = "a place"', 9, "a sign has no 'plaice'"),
    ("an unknown table", "# two signs", "[[signs]]", 1, "a fleet has no 'signs'"),
    ("another type", "poll = 2.5", "poll = true", 13, "poll wants a number"),
    ("no name", 'name = "two"', "", 7, "this sign has no name"),
    ("an empty name", 'name = "two"', 'name = ""', 8, "a name has 1 to 64 printable characters"),
    ("a name twice", 'name = "two"', 'name = "one"', 8, "'one' is the name of an earlier sign"),
    ("no port", '"[::1]:1161"', '"[::1]"', 10, "is no HOST:PORT"),
    ("an address twice", '"[::1]:1161"', '"127.0.0.1:1161"', 10, "127.0.0.1:1161 is the address of 'one'"),
    ("an address by its short form", '"[::1]:1161"', '"127.1:1161"', 10, "127.1:1161 is the address of 'one'"),
    ("an address by its name", '"[::1]:1161"', '"localhost:1161"', 10, "localhost:1161 is the address of 'one'"),
    ("an address within one of IPv6", '"[::1]:1161"', '"[::ffff:127.0.0.1]:1161"', 10, "is the address of 'one'"),
    ("the address of no machine", '"[::1]:1161"', '"0.0.0.0:1161"', 10, "0.0.0.0:1161 is the address of 'one'"),
    ("an address of IPv6 spelled out", '"127.0.0.1:1161"', '"[0:0::1]:1161"', 10, "is the address of 'one'"),
    ("no such description", 'description = "a.sign"\norder', 'description = "b.sign"\norder', 11, "No such file"),
    ("another order", '"swapped"', '"low"', 12, "'low' is no order of checksums"),
    ("no time between polls", "poll = 2.5", "poll = 0", 13, "0 is no time between polls"),
    ("no number of a request", "first = 70", "first = -1", 14, "-1 is no number of a request"),
]


def written(folder: pathlib.Path, text: str) -> pathlib.Path:
    """The file of a fleet, beside its description."""
    (folder / "a.sign").write_text(SIGN)
    (folder / "fleet.toml").write_text(text)
    return folder / "fleet.toml"


def test_a_fleet_is_read(tmp_path: pathlib.Path) -> None:
    one, two = fleet.read(written(tmp_path, GOOD))
    assert (one.name, one.place, one.host, one.port, one.poll, one.first) == ("one", "", "127.0.0.1", 1161, 10.0, 5)
    assert (two.name, two.place, two.host, two.port, two.poll, two.first) == ("two", "a place", "::1", 1161, 2.5, 70)
    assert one.text == SIGN.encode() and one.reader == b"all"
    assert two.text == SIGN.replace("high", "swapped").encode() and two.digest != one.digest


@pytest.mark.parametrize("name, old, new, line, words", FAULTS, ids=[row[0] for row in FAULTS])
def test_a_fault_is_told_with_its_line(
    tmp_path: pathlib.Path, name: str, old: str, new: str, line: int, words: str
) -> None:
    path = written(tmp_path, GOOD.replace(old, new))
    with pytest.raises(Refusal) as refused:
        fleet.read(path)
    assert str(refused.value).startswith(f"{path}: line {line}: ")
    assert words in str(refused.value)


def test_no_signs_are_no_fleet(tmp_path: pathlib.Path) -> None:
    with pytest.raises(Refusal, match="line 1: a fleet has tables"):
        fleet.read(written(tmp_path, "# nothing\n"))
    with pytest.raises(Refusal, match="No such file"):
        fleet.read(tmp_path / "none.toml")


def test_descriptions_that_others_can_read_are_named(capfd: pytest.CaptureFixture[str]) -> None:
    above = pathlib.Path(tempfile.gettempdir()).resolve()
    if not all(one.stat().st_mode & 0o001 for one in (above, *above.parents)):
        pytest.skip("no other one reaches the folder of temporary files")
    with tempfile.TemporaryDirectory() as folder:
        place = pathlib.Path(folder)
        path = written(place, GOOD)
        for mode, of_folder, is_named in ((0o644, 0o755, True), (0o640, 0o755, False), (0o644, 0o750, False)):
            (place / "a.sign").chmod(mode)
            place.chmod(of_folder)
            fleet.tell_open(fleet.read(path))
            said = capfd.readouterr().err
            assert said == (
                f"others on this machine can read {place}/a.sign, where communities stand: chmod o-r\n"
                if is_named
                else ""
            ), (mode, of_folder)
        for at in range(7):
            (place / f"{at}.sign").write_text(SIGN)
            (place / f"{at}.sign").chmod(0o604)
        place.chmod(0o711)
        signs = [dataclasses.replace(fleet.read(path)[0], path=f"{place}/{at}.sign") for at in range(7)]
        fleet.tell_open(signs)
        assert f"{place}/4.sign and 2 more, where" in capfd.readouterr().err


def test_the_fleet_of_signs() -> None:
    assert [sign.port for sign in fleet.read(TOP / "signs/fleet.toml")] == [1161, 1162, 1163]
