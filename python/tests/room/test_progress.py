"""The eight steps of a publication: what the page says of each."""

import pathlib

import pytest

from . import needs

needs.modules("aiohttp", "jinja2")

from wisangub.endpoint.endings import STEPS
from wisangub.room.store.queries import CommandView
from wisangub.room.web.progress import states

from .test_pages import filled
from .visits import Bench, Visitors, run

PUBLISH = f"publish 3 1 {b'FOG'.hex()} - 0 0 100 65535 255 192.0.2.1"
BLANK = "blank 1 65535 255 192.0.2.1"
LETTERS = {"done": "d", "now": "n", "failed": "f", "left": "l", "none": "-"}
ROWS = [
    ("one that waits for its turn", PUBLISH, None, None, None, "lllllll-"),
    ("one that has begun", PUBLISH, 3, 1, None, "nllllll-"),
    ("one whose text is validated", PUBLISH, 3, 5, None, "ddddnll-"),
    ("one that is activated", PUBLISH, 3, 7, None, "ddddddn-"),
    ("one that asks why it was refused", PUBLISH, 3, 8, None, "ddddddfn"),
    ("one that was accepted", PUBLISH, 3, 7, "accepted", "ddddddd-"),
    ("a text that does not fit", PUBLISH, 3, 5, "failed at step 5: the row has status 5, error", "ddddfll-"),
    ("an activation without an answer", PUBLISH, 3, 7, "failed at step 7: no reply", "ddddddf-"),
    (
        "a refused activation",
        PUBLISH,
        3,
        8,
        "failed at step 7: the sign refused the activation for cause 5, x",
        "ddddddfd",
    ),
    ("a blank that is activated", BLANK, 3, 7, None, "------n-"),
    ("a blank that was accepted", BLANK, 3, 7, "accepted", "------d-"),
]


@pytest.mark.parametrize(("name", "line", "number", "step", "how", "letters"), ROWS, ids=[row[0] for row in ROWS])
def test_the_steps_of_a_command(
    name: str, line: str, number: int | None, step: int | None, how: str | None, letters: str
) -> None:
    command = CommandView(1, 1, "one", "me", 0.0, line, number, None, how, step)
    found = states(command)
    assert "".join(LETTERS[one.state] for one in found) == letters
    assert [one.number for one in found] == list(range(1, 9)) and tuple(one.word for one in found) == STEPS


def test_the_page_of_what_was_asked_follows_the_steps(tmp_path: pathlib.Path) -> None:
    async def act(bench: Bench, visitor: Visitors) -> None:
        filled(bench)
        one = await bench.logged_in(visitor, "reader")
        for step, words in (
            (1, "Step 1 of 8: open the row"),
            (5, "Step 5 of 8: is the message valid"),
            (8, "Step 8 of 8: ask why it was refused"),
        ):
            bench.store.database.run("UPDATE commands SET step = ?", step)
            for path in ("/batches/1", f"/signs/{bench.one}"):
                assert words in (await one.get(path))[1], path
        bench.store.database.run("UPDATE commands SET outcome = 'failed at step 5: the row has status 5, error'")
        page = (await one.get("/batches/1"))[1]
        assert "Failed at step 5: is the message valid" in page and "the row has status 5, error" in page

    run(tmp_path, str(tmp_path / "database"), act)


def test_a_command_that_failed_says_what_the_sign_found(tmp_path: pathlib.Path) -> None:
    async def act(bench: Bench, visitor: Visitors) -> None:
        filled(bench)
        one = await bench.logged_in(visitor, "reader")
        found = "the sign found fault 5 at octet 12: wider than the matrix by 1 column"
        address = bench.service.signs[bench.one].address
        another = "the row may be another system&#39;s"
        for how, why, named, words in (
            (
                "failed at step 5: the row has status 5, error",
                found,
                "failed at step 5 (is the message valid): the row",
                found,
            ),
            ("failed at step 5: the row has status 5, error", "<u>", "failed at step 5 (is the", "&lt;u&gt;"),
            ("failed at step 3: error-status 5, genErr", None, "failed at step 3 (write the message): error", another),
            (
                "failed at step 7: no reply",
                None,
                "failed at step 7 (activate): no reply",
                f"three times to {address}, and no reply came: it may be that nothing listens there",
            ),
        ):
            bench.store.database.run("UPDATE commands SET line_number = 1, outcome = ?, why = ?", how, why)
            for path in ("/batches/1", f"/signs/{bench.one}", "/history"):
                page = (await one.get(path))[1]
                assert named in page and words in page and "<u>" not in page, (path, how)
        bench.store.database.run("UPDATE commands SET outcome = 'accepted', why = NULL")
        assert "it may be" not in (await one.get("/history"))[1]

    run(tmp_path, str(tmp_path / "database"), act)
