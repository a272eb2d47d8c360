"""Pages of archives: what was in the database once, for administrators."""

import csv
import gzip
import html
import io
import os
import pathlib
import re

from . import needs

needs.modules("aiohttp", "jinja2")

from wisangub.room.store import retention

from .test_pages import MARKUP, filled
from .visits import READER, WRITER, Bench, Visitors, run

AGO = 500.0 * 86_400


def archived(bench: Bench, folder: pathlib.Path) -> None:
    """An archive of a room in which much has happened, with markup wherever it may be."""
    filled(bench)
    held = bench.store.database
    held.run("UPDATE commands SET outcome = 'accepted', ended = {clock}")
    bench.store.commands.end(bench.store.commands.ask(bench.one, "operator", "blank 1 65535 255 192.0.2.1"), "accepted")
    bench.read(bench.one, -7, text=b"LATER".hex())
    for table, column in (("audit", "at"), ("commands", "ended"), ("readings", "heard"), ("readings", "at")):
        held.run(f"UPDATE {table} SET {column} = {column} - ?", AGO)
    folder.mkdir()
    retention.write(held, folder / "old.gz", 400 * 86_400)
    retention.take_out(held, folder / "old.gz", "a test")
    (folder / "none.gz").write_bytes(b"nothing")
    (folder / "other.txt").write_text("other")


def test_what_an_archive_has(tmp_path: pathlib.Path, where: str) -> None:
    folder = tmp_path / "archives"

    async def act(bench: Bench, visitor: Visitors) -> None:
        archived(bench, folder)
        one = await bench.logged_in(visitor, "administrator")
        text = (await one.get("/archives"))[1]
        assert 'href="/archives/old.gz"' in text and "none.gz is damaged, or no archive" in text and "other" not in text
        pages = {kind: (await one.get(f"/archives/old.gz?kind={kind}"))[1] for kind in ("command", "audit", "reading")}
        for text in pages.values():
            assert "<script>alert" not in text and "<b>two" not in text
            assert not any(word in text for word in (READER, WRITER, READER.encode().hex(), WRITER.encode().hex()))
        assert "&lt;script&gt;" in pages["command"] and "accepted" in pages["command"]
        assert "is added" in pages["audit"] and "&lt;script&gt;" in pages["reading"]
        for query, is_there in (
            (f"kind=command&sign={bench.one}", True),
            (f"kind=command&sign={bench.two}", False),
            ("kind=command&find=ALERT", True),
            ("kind=reading&find=alert", True),
            ("kind=command&find=nowhere", False),
            ("kind=command&after=1", False),
        ):
            text = (await one.get(f"/archives/old.gz?{query}"))[1]
            assert ("&lt;script&gt;" in text) == is_there and ("Nothing is like this" in text) != is_there, query
        for wrong in ("old.gz?kind=line", "other", "..%2fdatabase", ".hidden", "other.txt?kind=x"):
            assert (await one.get(f"/archives/{wrong}"))[0] == 404, wrong
        assert (await one.get("/archives/none.gz"))[0] == 422
        assert "archives</a>" in (await one.get("/history"))[1] and "taken out" in (await one.get("/audit"))[1]
        reader = await bench.logged_in(visitor, "operator")
        assert (await reader.get("/archives/old.gz"))[0] == 403 and MARKUP not in (await reader.get("/history"))[1]

    run(tmp_path, where, act, archives=str(folder))


def test_one_file_that_is_none_hides_no_other(tmp_path: pathlib.Path) -> None:
    """Whatever it is called, and whatever stands in it."""
    folder = tmp_path / os.fsdecode(b"of \xe4ll")
    head = b'{"archive": 1, "database": "a", "made": %b, "older_than": 1, "signs": {}}\n'

    async def act(bench: Bench, visitor: Visitors) -> None:
        archived(bench, folder)
        (folder / os.fsdecode(b"\xff.gz")).write_bytes((folder / "old.gz").read_bytes())
        (folder / "deep.gz").write_bytes(gzip.compress(b"[" * 100_000 + b"\n"))
        for name, made in (("great", b"1" * 400), ("endless", b"1e999"), ("late", b"1e13"), ("nowhere", b"NaN")):
            (folder / f"{name}.gz").write_bytes(gzip.compress(head % made))
        one = await bench.logged_in(visitor, "administrator")
        status, text = await one.get("/archives")
        assert status == 200 and 'href="/archives/old.gz"' in text and "\\udcff.gz" in text
        for name in ("deep", "great", "endless", "late", "nowhere"):
            assert f'<th scope="row">{name}.gz</th>' in text and (await one.get(f"/archives/{name}.gz"))[0] == 422, name

    run(tmp_path, str(tmp_path / "database"), act, archives=str(folder))


def test_each_archive_that_is_listed_has_a_page(tmp_path: pathlib.Path) -> None:
    """Whatever it is called: with blanks, in another script, hidden, long, as a way elsewhere, or no UTF-8."""
    folder = tmp_path / "archives"
    names = ["until November 2026.gz", "b\u00fcro.gz", ".hidden.gz", 200 * "a" + ".gz"]
    names += ["..%2Fold.gz", "a?b#c&d;.gz", "~\\.gz"]

    async def act(bench: Bench, visitor: Visitors) -> None:
        archived(bench, folder)
        for name in (*names, os.fsdecode(b"\xff.gz")):
            (folder / name).write_bytes((folder / "old.gz").read_bytes())
        one = await bench.logged_in(visitor, "administrator")
        ways = re.findall('href="(/archives/[^"]+)"', (await one.get("/archives"))[1])
        assert len(ways) == len(names) + 2
        for way in ways:
            status, text = await one.get(html.unescape(way))
            assert status == 200 and "&lt;script&gt;" in text, way
        for wrong in ("..%2Farchives%2Fold.gz", "until"):
            assert (await one.get(f"/archives/{wrong}"))[0] == 404, wrong

    run(tmp_path, str(tmp_path / "database"), act, archives=str(folder))


def test_without_a_folder(tmp_path: pathlib.Path) -> None:
    async def act(bench: Bench, visitor: Visitors) -> None:
        one = await bench.logged_in(visitor, "administrator")
        assert "without --archives" in (await one.get("/archives"))[1]
        assert (await one.get("/archives/old.gz"))[0] == 404 and "archives" not in (await one.get("/history"))[1]

    run(tmp_path, str(tmp_path / "database"), act)


def test_what_an_archive_took_is_not_said_never_to_have_been(tmp_path: pathlib.Path, where: str) -> None:
    """Lists that end say that there may be more of them, to everybody, and files of them do."""

    async def act(bench: Bench, visitor: Visitors) -> None:
        one, boss = [await bench.logged_in(visitor, name) for name in ("operator", "administrator")]
        lists = {"/history": one, f"/signs/{bench.one}/shown": one, "/audit": boss}
        words = "An archive took out what was old, old.gz on 20"
        for path, who in lists.items():
            assert words not in (await who.get(path))[1] and words not in (await who.get(f"{path}.csv"))[1], path
        archived(bench, tmp_path / "archives")
        for path, who in lists.items():
            assert words in (await who.get(path))[1], path
            *_, last = csv.reader(io.StringIO((await who.get(f"{path}.csv"))[1]))
            assert last[0] == "" and [cell for cell in last if cell] == [cell for cell in last if words in cell], path
        for path in ("/history", "/audit"):
            assert words not in (await boss.get(f"{path}?first=2199-01-01"))[1], "nothing of it was then"
            assert words not in (await boss.get(f"{path}.csv?first=2199-01-01"))[1]

    run(tmp_path, where, act)
