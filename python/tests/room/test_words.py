"""The indexes of the words of commands and of the audit: they find all that a look at each finds, in either engine."""

import random
from dataclasses import replace

import pytest

from wisangub.room.store import database, ends, history, queries, search, words
from wisangub.room.store.connection import Database, Value
from wisangub.room.store.history import AuditWanted, Entry
from wisangub.room.store.queries import CommandView, Wanted
from wisangub.room.store.sqlite import Sqlite

from . import needs

needs.modules("aiohttp", "jinja2")

from wisangub.room.web.record_pages import Asked

BEFORE = 38  # the last migration without the indexes
NAMES = ("B300 east", "A9 gantry", "Stra\xdfe 7", "Fogelweide")
OUTCOMES = ("accepted", "accepted", "refused 5", "failed at step 5: no reply", "withdrawn by zoe", None)
PIECES = (
    *("FOG", "fog", "\xdcBER", "\xfcber", "Stra\xdfe", "2", "12", "KM", "x\xd7y", "ABCDEFGHIJKLMNOPQRSTUVWXYZ"),
    *(
        "[nl]",
        "[np2]",
        "[fo2]",
        "[hc4f]",
        "[hcdc]",
        "[hc0]",
        "[hc5b]",
        "[hc2013]",
        "[hc00414]",
        "[hc4x]",
        "[hc]",
        "[hcD800]",
    ),
    *("[[", "]]", "[", "]", " ", "-", "\x01", "%", "'", '"'),
)
FINDS = (
    *("fog", "FO", "og", "\xdcb", "stra\xdfe", "2 km", "12", "opqrstuvwxyz", "ghijklmnopqrstuvwxyzab", "zoe", "step 5"),
    *("gantry fog", "fogelweide", "east refused", "zebra", "'", "publish", "blank 255", "show", "7", "", "b300 zebra"),
)


# of the audit: lines of all kinds, and commands that are none of a centre, or have more words than an index takes
SAID = (
    *("logged in, from 127.0.0.1", "library: Fog is written: 'FOG[nl]2 KM'", "command 12 is withdrawn", "", ": blank "),
    *("one: publish 3 1 zz", "one: publish 3 1_2 464f47 - 0 0 1 65535 255 192.0.2.1", "one: blank 1 65535 255"),
    *("one: blank 1 2 3 4: publish 3 1 464f47 - 0 0 1 65535 255 192.0.2.1", "one: activate 00: blank 12 2 3 192.0.2.1"),
    *("user \u212aXY is \u0178\u1e9e", "user \u212bST\u0130N", "\u0160\u2014fog", "x" * 30, f"{'a ' * 5000}ZEBRA"),
)
AUDIT_FINDS = (
    *(
        *FINDS,
        "kx",
        "kxy",
        "\xffs",
        "\xff\xdf",
        "\xe5s",
        "st\u0130",
        "from 127",
        "withdrawn",
        "priority",
        "without end",
    ),
    *("activation 255", "12 h", "464f47", "is written", "1_2", "zz", "\u201cfog", "fog\u201d, w", "xxxx", "memory 7"),
)


def a_text(chance: random.Random) -> bytes:
    if chance.random() < 0.2:
        return chance.randbytes(chance.randrange(20))
    return "".join(chance.choices(PIECES, k=chance.randrange(9))).encode("latin-1")


def a_line(chance: random.Random) -> str:
    kind = chance.random()
    if kind < 0.1:
        return f"blank {chance.choice((1, 12, 255))} 65535 255 192.0.2.1"
    if kind < 0.2:
        return f"activate {chance.randbytes(12).hex()}"
    if kind < 0.25:
        return chance.choice(("status last", "", "publish", "publish 3 1 zz", "activate 00", "blank", "publish  - -"))
    return f"publish 3 {chance.randrange(300)} {a_text(chance).hex() or '-'} 6d65 0 0 100 65535 255 192.0.2.1"


def fill(held: Database, chance: random.Random, count: int) -> None:
    """Commands of all kinds over a few signs."""
    with held.transaction():
        signs: list[tuple[Value, ...]] = [(name, f"127.0.0.1:{at}") for at, name in enumerate(NAMES)]
        held.run_all("INSERT INTO signs (name, place, address, poll) VALUES (?, '', ?, 10)", signs)
        rows: list[tuple[Value, ...]] = []
        for at in range(count):
            outcome = chance.choice(OUTCOMES)
            sign, who = chance.randint(1, len(NAMES)), chance.choice(("ann", "ben"))
            rows.append((sign, who, at, a_line(chance), at, outcome))
        held.run_all("INSERT INTO commands (sign, who, asked_at, line, ended, outcome) VALUES (?, ?, ?, ?, ?, ?)", rows)


def an_entry(chance: random.Random) -> str:
    """What a line of the audit says."""
    if chance.random() < 0.5:
        return chance.choice(SAID)
    name, line = chance.choice(NAMES), a_line(chance)
    parts = line.split(" ")
    if len(parts) > 4:  # of each the minutes stand third from the end
        parts[-3] = str(chance.choice((0, 7, 119, 120, 725, 3000, 65535)))
    return f"{name}: {' '.join(parts)}"


def fill_audit(held: Database, chance: random.Random, count: int) -> None:
    """Lines of the audit of all kinds."""
    rows: list[tuple[Value, ...]] = [(at, chance.choice(("ann", "ben")), an_entry(chance)) for at in range(count)]
    with held.transaction():
        held.run_all("INSERT INTO audit (at, who, what) VALUES (?, ?, ?)", rows)


def place(entry: Entry) -> int:
    return entry[0]


def entries(held: Database, wanted: AuditWanted, find: str) -> list[Entry]:
    """All pages of the audit of what is looked for."""
    found: list[Entry] = []
    before: int | None = None
    while True:
        rows, before = search.search(
            lambda below, most: history.audited(held, replace(wanted, before=below, most=most)),
            place,
            Asked(find, "", "", "", None, None).takes_entry,
            before,
            5,
            lambda below: words.audit_slices(held, wanted, find, below),
        )
        found += rows
        if before is None:
            return found


def number(one: CommandView) -> int:
    return one.id


def pages(held: Database, wanted: Wanted, find: str) -> list[CommandView]:
    """All pages of what is looked for."""
    found: list[CommandView] = []
    before: int | None = None
    while True:
        rows, before = search.search(
            lambda below, most: queries.commands(held, replace(wanted, before=below, most=most)),
            number,
            Asked(find, "", "", "", None, None).takes_command,
            before,
            5,
            lambda below: words.slices(held, wanted, find, below),
        )
        found += rows
        if before is None:
            return found


def test_all_is_found(where: str, monkeypatch: pytest.MonkeyPatch) -> None:
    """Whatever is looked for, of whichever signs and people, the pages have it, each once and the newest first."""
    monkeypatch.setattr(search, "FEW", 3)
    monkeypatch.setattr(search, "MOST_SEEN", 40)
    monkeypatch.setattr(words, "_FIRST", 10)
    monkeypatch.setattr(words, "_AT_ONCE", 7)
    held, chance = database.opened(where), random.Random(11)
    fill(held, chance, 120)
    every = queries.commands(held, Wanted(most=1000))
    for find in FINDS:
        asked = Asked(find, "", "", "", None, None)
        who, signs = chance.choice(("", "ann")), chance.choice((None, frozenset((1, 2))))
        found = [one for one in every if asked.takes_command(one) and who in ("", one.who)]
        found = [one for one in found if signs is None or one.sign in signs]
        assert pages(held, Wanted(who=who, signs=signs), find) == found, (find, who, signs)
    held.close()


def test_all_of_the_audit_is_found(where: str, monkeypatch: pytest.MonkeyPatch) -> None:
    monkeypatch.setattr(search, "FEW", 3)
    monkeypatch.setattr(search, "MOST_SEEN", 40)
    monkeypatch.setattr(words, "_FIRST", 10)
    monkeypatch.setattr(words, "_AT_ONCE", 7)
    held, chance = database.opened(where), random.Random(16)
    fill_audit(held, chance, 200)
    every = history.audited(held, AuditWanted(most=1000))
    assert len(every) == 200
    for find in AUDIT_FINDS:
        asked, who = Asked(find, "", "", "", None, None), chance.choice(("", "ann"))
        found = [one for one in every if asked.takes_entry(one) and who in ("", one[2])]
        assert entries(held, AuditWanted(who), find) == found, (find, who)
    held.close()


def test_the_index_of_the_audit_is_asked(where: str) -> None:
    """Only what may say any word is found beside what has the words."""
    held, chance = database.opened(where), random.Random(17)
    fill_audit(held, chance, 300)
    assert all(words.audit_candidates(held, find, 1000, 100) is None for find in ("'", "without end", "priority", "7"))
    every = {entry[0]: entry[3] for entry in history.audited(held, AuditWanted(most=1000))}
    none = words.audit_candidates(held, "quagga", 1000, 1000)
    assert none and {ends.audit_words(every[number]) for number in none} == {ends.ANY}
    some = words.audit_candidates(held, "withdrawn", 1000, 1000)
    assert some and {every[number] for number in set(some) - set(none)} == {"command 12 is withdrawn"}
    below = words.audit_candidates(held, "withdrawn", 100, 1000)
    assert below and max(below) < 100 and below == [number for number in some if number < 100]
    assert words.audit_candidates(held, "withdrawn", 1000, 7) == some[:7]
    held.close()


def test_both_engines_take_the_same_words_of_the_audit(where: str) -> None:
    held, chance = database.opened(where), random.Random(18)
    fill_audit(held, chance, 300)
    sql = "SELECT what, audit_words(what) FROM audit"
    if held.has_months:
        sql = "SELECT what, array_to_string(tsvector_to_array(audit_words(what)), ' ') FROM audit"
    for what, said in held.run(sql):
        if "\u0130" not in str(what) and "\u0160" not in str(what):  # whose small letters are not looked for
            assert set(str(said).split(" ")) == set(ends.audit_words(str(what)).split(" ")), what
    held.close()


def test_the_index_is_asked(where: str) -> None:
    """And does not say of most commands that they may have it."""
    held = database.opened(where)
    fill(held, random.Random(12), 240)
    found = {find: words.candidates(held, find, 1000, 100) for find in FINDS}
    assert all(found[find] is None for find in ("'", "publish", "show", "7", ""))
    few = len(held.run("SELECT id FROM commands WHERE outcome IS NULL")) if held.has_months else 0
    assert all(len(found[find] or ()) == few for find in ("zebra", "b300 zebra"))
    below = words.candidates(held, "12", 100, 1000)
    assert below and max(below) < 100 and len(words.candidates(held, "12", 1000, 7) or ()) == 7
    held.close()


def test_both_engines_take_the_same_words(where: str) -> None:
    """Of PostgreSQL a function has them, of SQLite Python's own."""
    held, chance = database.opened(where), random.Random(13)
    fill(held, chance, 400)
    sql = "SELECT line, command_words(line) FROM commands"
    if held.has_months:
        sql = "SELECT line, array_to_string(tsvector_to_array(command_words(line)), ' ') FROM commands"
    for line, said in held.run(sql):
        assert set(str(said).split(" ")) == set(ends.command_words(str(line)).split(" ")), line
    held.close()


def test_a_database_of_before_is_carried_over(nowhere: str) -> None:
    held = database.connected(nowhere)
    database.migrate(held, [one for one in database.migrations() if one[0] <= BEFORE])
    fill(held, random.Random(14), 60)
    fill_audit(held, random.Random(19), 60)
    database.migrate(held, database.migrations())
    every = queries.commands(held, Wanted(most=1000))
    assert [one.id for one in every if Asked("fog", "", "", "", None, None).takes_command(one)]
    for find in FINDS:
        found = words.candidates(held, find, 1000, 1000)
        asked = Asked(find, "", "", "", None, None)
        assert found is None or {one.id for one in every if asked.takes_command(one)} <= set(found), find
    entries_of_before = history.audited(held, AuditWanted(most=1000))
    assert entries(held, AuditWanted(), "fog") == [
        one for one in entries_of_before if Asked("fog", "", "", "", None, None).takes_entry(one)
    ]
    held.run("DELETE FROM commands WHERE id <= 30")
    held.run("DELETE FROM audit WHERE id <= 30")
    for found in (words.candidates(held, "og", 1000, 1000), words.audit_candidates(held, "og", 1000, 1000)):
        assert found and min(found) > 30, "what an archive took is in no index"
    held.close()


def test_without_fts5_each_command_is_looked_at(where: str, monkeypatch: pytest.MonkeyPatch) -> None:
    monkeypatch.setattr(Sqlite, "has_fts5", lambda self: False)
    held = database.opened(where)
    fill(held, random.Random(15), 60)
    every = queries.commands(held, Wanted(most=1000))
    found = [one for one in every if Asked("fog", "", "", "", None, None).takes_command(one)]
    assert found and pages(held, Wanted(), "fog") == found
    assert held.has_months or words.candidates(held, "fog", 1000, 10) is None
    fill_audit(held, random.Random(20), 60)
    lines = history.audited(held, AuditWanted(most=1000))
    said = [one for one in lines if Asked("fog", "", "", "", None, None).takes_entry(one)]
    assert said and entries(held, AuditWanted(), "fog") == said
    assert held.has_months or words.audit_candidates(held, "fog", 1000, 10) is None
    held.close()
