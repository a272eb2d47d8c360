"""libFuzzer over the library for C: datagrams and other calls of both ends, descriptions, states, and texts."""

from __future__ import annotations

import pathlib
import re
from functools import partial

from model import coprocess, text, wire
from model.objects import DMS
from model.saved import saved
from model.saved_centre import saved as saved_centre
from model.sign import Sign
from wisangub.snmp.wire import name_content

from .against_vectors import cases
from .trial import PLAIN, TOP, Trial, described

KINDS = {"datagrams": 20000, "descriptions": 60000, "states": 20000, "texts": 600}  # the most octets of an input
FUZZER = ["-std=c11", "-Wall", "-Wextra", "-Werror", "-O1", "-g", "-fsanitize=fuzzer,address,undefined"]
FUZZER += ["-fno-sanitize-recover=all"]
TO_SIGN, TO_CENTRE, SIGN_TICK, CENTRE_TICK, POWER_LOST, POWER_BACK, COMMAND, PAGES, HEARD, RESTART = range(10)
PUBLISH, WITHDRAW, OBJECT, TAKEN, FONTS = range(10, 15)
DONE = re.compile(r"Done (\d+) runs in (\d+) second")
MOST_START = 60  # seconds beside those that are asked for


def call(kind: int, octets: bytes = b"") -> bytes:
    """A call as trials/library/fuzz.c reads it."""
    return bytes([kind]) + len(octets).to_bytes(2, "big") + octets


def event(line: str) -> bytes:
    """What an event of a script is; what a central system would have sent before is not known here."""
    word, _, rest = line.partition(" ")
    kinds = {
        "sign-tick": call(SIGN_TICK),
        "centre-tick": call(CENTRE_TICK),
        "centre-restart": call(RESTART),
        "power-lost": call(POWER_LOST),
        "power-back": call(POWER_BACK, b"..."[: int(rest) if rest.isdigit() and len(rest) < 2 else 3]),
    }
    if word in ("publish", "blank", "activate"):
        return call(COMMAND, line.encode("latin-1"))
    if word in ("forge-sign", "forge-centre"):
        return call(TO_SIGN if word == "forge-sign" else TO_CENTRE, bytes.fromhex(rest.replace("-", "")))
    return kinds.get(word, b"")


def descriptions() -> list[bytes]:
    """Those of scripts, of signs/ and of the vectors' sign."""
    found = [case["script"].split("\nend\n")[0] + "\nend\n" for case in cases("scripts")]
    return [text.BENCH, *(described(sign).encode("latin-1") for sign in ("roadside", "gantry"))] + [
        one.encode("latin-1") for one in found
    ]


def besides() -> list[bytes]:
    """Objects of each type that are published, read, set, told and withdrawn, and fonts that are read."""
    found, community = [], text.bench().writer
    for number, (tag, writes, held) in enumerate(
        ((2, 1, b""), (4, 2, b"AB"), (5, 0, b""), (6, 0, b"\x2b\x06"), (64, 0, b"1234"), (65, 0, b""), (68, 0, b"C"))
    ):
        name: wire.Name = (1, 3, 6, 1, 2, 1, 1, number, 0)
        content = name_content(name)
        numbers = b"".join(one.to_bytes(8, "little") for one in (3, 0, 9))
        value: wire.Tagged = (wire.OCTETS, b"D") if tag == wire.OCTETS else (wire.INTEGER, 4)
        setting = wire.written(wire.Message(wire.SET, community, number, 0, 0, [(name, value)]))
        found.append(
            call(PUBLISH, bytes([tag, writes, len(content)]) + numbers + content + held)
            + call(OBJECT, content)
            + call(TO_SIGN, setting)
            + call(TAKEN)
            + call(WITHDRAW, content)
        )
    node: wire.Binding = ((*DMS, 3), (wire.NULL, b""))
    first = wire.written(wire.Message(wire.GET_NEXT, text.bench().reader, 9, 0, 0, [node]))
    return [*found, call(FONTS) + call(OBJECT, name_content((*DMS, 3, 1, 0))) + call(TO_SIGN, first)]


def centre_states() -> list[bytes]:
    """Those that a central system is in while nobody answers."""
    found = []
    for command in ("publish 3 1 41 6d65 0 0 200 5 255 192.0.2.1", "blank 1 60 255 192.0.2.1"):
        world = text.World(text.bench())
        for line in (command, *["tick"] * 5, "restart", command):
            coprocess.answered(partial(coprocess.centre_answer, world), line.encode("ascii"))
            found.append("\n".join([*saved_centre(world.centre), ""]).encode("ascii"))
    return found


def states() -> list[bytes]:
    """Those that a sign is in after each of the vectors' requests, and without power, then with a value of an object;
    those of a central system."""
    sign, found = Sign(text.bench()), centre_states()
    for case in cases("requests"):
        sign.receive(bytes.fromhex(case["request"]))
        sign.tick()
        found.append("\n".join([*saved(sign.state), ""]).encode("ascii"))
    sign.showing.power_lost()
    last = "\n".join([*saved(sign.state), ""])
    return [*found, *(one.encode("ascii") for one in (last, f"{last}set 1.3.6.1.2.1.1.4.0 OCTET STRING 6e6f63\n"))]


def inputs(kind: str) -> list[bytes]:
    """What the fuzzer begins with: all that the vectors have."""
    if kind == "states":
        return states()
    if kind == "texts":
        return [case["text"].encode("latin-1") for case in cases("texts")]
    if kind == "descriptions":
        return descriptions()
    requests = [bytes.fromhex(case["request"]) for case in cases("requests")]
    datagrams = [bytes.fromhex(case["octets"]) for case in cases("datagrams")]
    scripts = [b"".join(map(event, case["script"].split("\n"))) for case in cases("scripts") if "report" in case]
    both = [call(TO_SIGN, octets) + call(SIGN_TICK) + call(PAGES) for octets in requests]
    both += [call(TO_SIGN, octets) + call(TO_CENTRE, octets) for octets in datagrams]
    return both + scripts + besides()


def corpus(trial: Trial, kind: str) -> pathlib.Path:
    folder = trial.folder / "corpus" / kind
    folder.mkdir(parents=True)
    for number, octets in enumerate(dict.fromkeys(inputs(kind))):
        (folder / f"{number:05}").write_bytes(octets)
    return folder


def compiled(trial: Trial) -> pathlib.Path | None:
    """The fuzzer, where clang and its runtime are here; else it is skipped by name."""
    if not trial.has("fuzzing", "clang"):
        return None
    empty, made = trial.folder / "fuzzer.c", trial.folder / "fuzz"
    empty.write_text(
        "int LLVMFuzzerTestOneInput(const char *at, unsigned long size) { return at && size > 9 ? 0 : 0; }"
    )
    if trial.ran(["clang", "-fsanitize=fuzzer,address,undefined", "-o", str(made), str(empty)])[0]:
        trial.skip("fuzzing", "this clang has no runtime of the fuzzer (Debian: libclang-rt-14-dev)")
        return None
    library = str(trial.folder / PLAIN.folder)
    words = ["clang", *FUZZER, f"-I{TOP / 'include'}", "-o", str(made), str(TOP / "trials/library/fuzz.c")]
    status, said = trial.ran([*words, f"-L{library}", "-lwisangub", "-lwisangub_heap"])
    return made if trial.check("fuzzing: compile", status == 0, said) else None


def fuzz(trial: Trial, made: pathlib.Path, kind: str, seconds: int, seed: int) -> None:
    """Fuzzes one kind of input for so many seconds."""
    bench = trial.folder / "fuzz.sign"
    bench.write_bytes(text.BENCH)
    words = [str(made), f"-max_total_time={seconds}", f"-max_len={KINDS[kind]}", f"-seed={seed}", "-timeout=20"]
    words += ["-rss_limit_mb=4096", f"-artifact_prefix={trial.folder}/{kind}-", "-print_final_stats=0", "-verbosity=1"]
    status, said = trial.ran(
        [*words, str(corpus(trial, kind))], "", seconds + MOST_START, FUZZED=kind, FUZZ_SIGN=str(bench)
    )
    done = DONE.search(said)
    trial.check(f"fuzzing {kind}", status == 0 and done is not None, said[-2000:])
    features = re.findall(r" ft: (\d+) ", said)
    count, outcomes = (done[1] if done else "no"), (features[-1] if features else "0")
    print(f"fuzzing {kind}, {seconds} s: {count} inputs, {outcomes} outcomes", flush=True)


def run(trial: Trial, seconds: int, seed: int) -> None:
    """All kinds, a share of the seconds each."""
    made = compiled(trial)
    for kind in KINDS if made else ():
        assert made is not None
        fuzz(trial, made, kind, max(1, seconds // len(KINDS)), seed)
