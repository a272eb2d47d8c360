"""The wall of many signs: in pages, each of which is small, and finds among all."""

import json
import pathlib
import re

from . import needs

needs.modules("aiohttp", "jinja2")

from wisangub.process.places import TOP
from wisangub.room.store.readings import Said
from wisangub.room.web import wall

from . import visits
from .visits import SHOWN, Bench, Visitors, run

SIGNS = 250
CARD = re.compile(r'<li class="card')
MOST = 100_000  # octets of a page of signs
TEXT = b"ROAD WORK[nl]EXPECT DELAYS"


def entered(folder: pathlib.Path) -> pathlib.Path:
    """A fleet of many signs; nothing answers at their ports."""
    (folder / "roadside.sign").write_text((TOP / "signs/roadside.sign").read_text())
    (folder / "fleet.toml").write_text(
        "".join(
            f'[[sign]]\nname = "A{at} at kilometre {at}"\nplace = "motorway A{at}, northbound, behind the bridge"\n'
            f'address = "127.0.0.1:{20_000 + at}"\ndescription = "roadside.sign"\n'
            for at in range(SIGNS)
        )
        + "".join(
            f'[[sign]]\nname = "{name}"\naddress = "127.0.0.1:{port}"\ndescription = "roadside.sign"\n'
            for port, name in enumerate(visits.NAMES, 19_161)
        )
    )
    return folder / "fleet.toml"


def test_a_wall_of_many_signs_comes_in_pages(tmp_path: pathlib.Path) -> None:
    async def act(bench: Bench, visitor: Visitors) -> None:
        rows = list(bench.service.signs)
        bench.store.readings.keep(
            [Said(row, -1, 65535, json.dumps({**SHOWN, "text": TEXT.hex()})) for row in rows[:SIGNS]]
        )
        bench.read(bench.gantry)
        one = await bench.logged_in(visitor, "operator")
        counts = []
        for page in (1, 2, 3):
            text = (await one.get(f"/?page={page}"))[1]
            assert len(text.encode()) < MOST and f"{len(rows)} signs, page {page} of 3" in text
            counts.append(len(CARD.findall(text)))
            assert f"{len(rows)} signs, {SIGNS + 1} lit" in text, "all are counted"
        assert counts == [wall.PAGE, wall.PAGE, len(rows) - 2 * wall.PAGE]
        for query, found in (("find=fog", 1), ("find=a17", 11), ("find=DELAYS&show=silent", 0), ("show=silent", 2)):
            text = (await one.get(f"/?{query}"))[1]
            assert len(CARD.findall(text)) == found, query
        assert len(CARD.findall((await one.get("/?find=delays&page=99"))[1])) == SIGNS - 2 * wall.PAGE
        assert (await one.get("/?page=x"))[0] == 400 and "&lt;b&gt;" in (await one.get("/?find=<b>"))[1]
        view = re.search(r'data-view="(wall/[0-9,]+)"', (await one.get("/?page=3"))[1])
        assert view is not None and view[1].count(",") == counts[-1] - 1
        async with one.client.get(f"/events?view={view[1]}") as answer:
            assert answer.status == 200
            await answer.content.readline()
            told = b""
            while not told.startswith(b"data: "):
                told = await answer.content.readline()
            parts = json.loads(told[6:])
        assert set(parts) == {f"sign-{row}" for row in rows[2 * wall.PAGE :]} | {"counts"}
        assert (await one.get("/events?view=wall/" + ",".join(["1"] * 101)))[0] == 404

    before, visits.entered = visits.entered, entered
    try:
        run(tmp_path, str(tmp_path / "database"), act)
    finally:
        visits.entered = before
