"""Each request, text, code, datagram and script of vectors/ through the library."""

from __future__ import annotations

import json
from typing import Any, Iterator

from model import text
from model.sign import Sign

from .trial import SIGNS, TOP, Talk, Trial, Way

DESCRIPTION = text.BENCH.decode("latin-1")


def cases(name: str) -> list[dict[str, Any]]:
    return [json.loads(line) for line in (TOP / "vectors" / f"{name}.jsonl").read_text(encoding="utf-8").splitlines()]


class _Named:
    """Trials of one way, which their names begin with."""

    def __init__(self, trial: Trial, way: Way) -> None:
        self.trial, self.way = trial, way

    def same(self, name: str, found: object, wanted: object) -> None:
        self.trial.same(f"{self.way.name}: {name}", found, wanted)

    def check(self, name: str, is_so: bool, told: object = "") -> None:
        self.trial.check(f"{self.way.name}: {name}", is_so, told)

    def talk(self, description: str = DESCRIPTION) -> Talk:
        return self.trial.talk(description, self.way)

    def over(self, name: str, talk: Talk) -> None:
        """A talk ended well: nothing was said of memory, leaks or undefined behaviour."""
        status = talk.end()
        self.check(f"{name}: its end", status == 0 and not talk.faults, f"exit {status}: {talk.faults!r}")


def _headers(named: _Named) -> None:
    """Null, zero and short buffers at each function of the header."""
    for sign in SIGNS:
        words = named.trial.called(named.way, "header_test", str(TOP / "signs" / f"{sign}.sign"))
        status, said = named.trial.ran(words)
        named.check(f"header_test, {sign}", (status, said) == (0, "ok\n"), said)
    status, said = named.trial.ran(named.trial.called(named.way, "header_test"))
    named.check("header_test's use", status == 2 and "usage: header_test DESCRIPTION\n" in said, said)


def requests(named: _Named) -> None:
    """Each request to the bench sign as it starts."""
    with named.talk() as talk:
        for case in cases("requests"):
            wanted = "dropped" if case["reply"] is None else f"reply {case['reply']}"
            named.same(f"request: {case['name']}", talk.ask(f"datagram {case['request'] or '-'}"), wanted)
            if case["changes"]:
                named.same("a sign that is made anew", talk.ask("anew"), "ok")
        named.over("requests", talk)


def datagrams(named: _Named) -> None:
    """Each datagram to both ends as they start: the sign's reply is the model's, and the central system sends
    nothing."""
    with named.talk() as talk:
        for case in cases("datagrams"):
            octets = case["octets"] or "-"
            reply, _ = Sign(text.bench()).receive(bytes.fromhex(case["octets"]))
            wanted = "dropped" if reply is None else f"reply {reply.hex()}"
            named.same(f"datagram to a sign: {case['name']}", talk.ask(f"datagram {octets}"), wanted)
            named.same(f"datagram to a central system: {case['name']}", talk.ask(f"centre datagram {octets}"), "ok")
            talk.ask("anew")
        named.over("datagrams", talk)


def texts(named: _Named) -> None:
    """The pages of each text on the bench sign, or its fault."""
    with named.talk() as talk:
        for case in cases("texts"):
            octets = case["text"].encode("latin-1").hex() or "-"
            if "pages" in case:
                count = sum(line.startswith("page ") for line in case["pages"])
                named.same(f"check: {case['name']}", talk.ask(f"check {octets}"), f"ok pages {count}")
                named.same(f"pages: {case['name']}", talk.ask_lines(f"pages {octets}")[:-1], case["pages"])
            else:
                wanted = f"fault {case['fault']['code']} at {case['fault']['offset']}"
                named.same(f"check: {case['name']}", talk.ask(f"check {octets}"), wanted)
                named.same(f"pages: {case['name']}", talk.ask(f"pages {octets}"), wanted)
        named.over("texts", talk)


def codes(named: _Named) -> None:
    """The checksum and both codes of each message."""
    with named.talk() as talk:
        for case in cases("codes"):
            octets = case["text"].encode("latin-1").hex() or "-"
            words = [int(case["swapped"]), case["type"], case["number"], octets, case["beacon"], case["pixel"]]
            words += [case["duration"], case["priority"], case["address"]]
            wanted = f"crc {case['checksum']} id {case['code'][6:16]} code {case['code']}"
            named.same(f"code: {case['name']}", talk.ask("code " + " ".join(map(str, words))), wanted)
        named.over("codes", talk)


def _events_of(script: str) -> tuple[str, list[str]]:
    """The description of a script and its events."""
    lines = [line for line in script.split("\n") if line.strip() and not line.startswith("#")]
    if lines[:1] == ["bench"]:
        return DESCRIPTION, lines[1:]
    end = lines.index("end") + 1
    return "\n".join(lines[:end]) + "\n", lines[end:]


class _World:
    """Both ends of a script, and all that they ever sent."""

    def __init__(self, talk: Talk) -> None:
        self.talk = talk
        self.to_sign: list[str] = []
        self.to_centre: list[str] = []

    def centre(self, line: str) -> None:
        word, _, octets = self.talk.ask(f"centre {line}").partition(" ")
        if word == "send":
            self.to_sign.append(octets)

    def sign(self, octets: str) -> None:
        word, _, reply = self.talk.ask(f"datagram {octets}").partition(" ")
        if word == "reply":
            self.to_centre.append(reply)

    def happen(self, event: str) -> None:
        word, _, rest = event.partition(" ")
        if word in ("publish", "blank", "activate"):
            self.centre(event)
        elif word == "to-sign":
            if int(rest) < len(self.to_sign):
                self.sign(self.to_sign[int(rest)])
        elif word == "to-centre":
            if int(rest) < len(self.to_centre):
                self.centre(f"datagram {self.to_centre[int(rest)]}")
        elif word == "forge-sign":
            self.sign(rest)
        elif word == "forge-centre":
            self.centre(f"datagram {rest}")
        elif word in ("centre-tick", "centre-restart"):
            self.centre(word.removeprefix("centre-"))
        else:
            self.talk.ask({"sign-tick": "tick"}.get(word, event))

    def report(self) -> Iterator[str]:
        """The lines of a report but for what the sign accepted, which the library does not tell."""
        yield f"sent {len(self.to_sign)} {len(self.to_centre)}"
        yield from self.talk.ask_lines("state")[:-1]
        yield from (line for line in self.talk.ask_lines("centre status") if line.startswith("ledger "))


def scripts(named: _Named) -> None:
    """Each script that is read, with both ends in one process; scripts of one description one after the other."""
    by_description: dict[str, list[tuple[dict[str, Any], list[str]]]] = {}
    for case in cases("scripts"):
        if "report" in case:
            description, events = _events_of(case["script"])
            by_description.setdefault(description, []).append((case, events))
    for description, some in by_description.items():
        with named.talk(description) as talk:
            for case, events in some:
                world = _World(talk)
                for event in events:
                    world.happen(event)
                wanted = [line for line in case["report"] if not line.startswith(("events ", "accepted "))]
                named.same(f"script: {case['name']}", list(world.report()), wanted)
                talk.ask("anew")
            named.over("scripts", talk)


_PARTS = (_headers, requests, datagrams, texts, codes, scripts)


def run(trial: Trial, way: Way) -> None:
    """All vectors by one way; in the short form those parts for which there is time."""
    for part in _PARTS:
        if trial.left() > 0:
            part(_Named(trial, way))
        else:
            trial.skip(f"{way.name}, {part.__name__}", "there was no time left for it")
