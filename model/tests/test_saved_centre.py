"""The state of a central system as text: what the model writes is what the program's test wants."""

import pytest

from model import text
from model.centre import Centre
from model.saved_centre import saved

from .program_texts import lists, texts

CASES = "dms_centre_state_tests/src/tests/cases.rt"
SCRIPTS = dict(lists(CASES, texts(CASES)))
TEXTS = texts("dms_centre_state_tests/src/tests/states.rt")
COMMANDS = {
    "publish": b"publish 3 1 41 6f70 0 0 200 3 255 192.0.2.7",
    "publish-late": b"publish 4 2 5b6e6c395d - 1 0 7 65535 6 10.0.0.255",
    "blank": b"blank 255 1 2 0.0.0.0",
    "activate": b"activate ffff0503000121214000020a",
}


def play(centre: Centre, script: str) -> None:
    """What the lines of a script do to a central system."""
    for line in script.splitlines():
        word, _, rest = line.partition(" ")
        if word == ">":
            centre.receive(bytes.fromhex(rest))
        elif word == "tick":
            for _ in range(int(rest)):
                centre.tick()
        elif word == "restart":
            centre.restart()
        elif word != "#":
            centre.command(text.event(COMMANDS[word].split(b" "), centre.swapped))


@pytest.mark.parametrize("script", SCRIPTS)
def test_states_are_those_of_the_program(script: str) -> None:
    late = script in ("LATE", "USED_UP")
    centre = Centre(b"admin", late, 2_147_483_645 if late else 7)
    for part in SCRIPTS[script]:
        play(centre, part)
    assert "\n".join([*saved(centre), ""]) == TEXTS[f"{script}_STATE"]
