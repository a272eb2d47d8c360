"""Our sign: what the program and the model in its place say of texts, checksums and descriptions."""

import subprocess

from model import text
from trials.wrong_signs.bench import ModelJudge
from wisangub.process.places import SIGNTOOL, TOP
from wisangub.tester.requests.checksum import checksum
from wisangub.tester.sign.described import Bad, described
from wisangub.tester.sign.judge import SignJudge
from wisangub.tester.sign.oracle import made

from .skipping import skip

TEXTS = [b"", b"A", b"A" * 4, b"[zz]", b"A[nl]B", b"[fo9]A", b"[jl4]A[jl2]B", b"\0", b"\xe4", b"A[np]B", b"A" * 513]
DEFAULTS = [(0, 9, 5, 5, 1, 3, 2, 30, 0), (0, 9, 5, 5, 2, 4, 4, 30, 0)]


def programs() -> list[str]:
    """The model as a co-process, and the program where it is built."""
    return ["model", *([str(SIGNTOOL)] if SIGNTOOL.exists() else [])]


def test_texts_are_judged_as_the_model_judges_them() -> None:
    for description in (
        text.BENCH,
        (TOP / "signs/roadside.sign").read_bytes().replace(b"\norder high", b"\norder swapped"),
    ):
        for program in programs():
            judge, model = SignJudge(program, description), ModelJudge(description)
            own = described(description).face.defaults
            for message in TEXTS:
                for defaults in (own, *(DEFAULTS if description == text.BENCH else ()), own):
                    assert judge.fault(message, defaults) == model.fault(message, defaults), (message, defaults)
                assert judge.pages(message) == model.pages(message), message
            judge.end()


def test_a_checksum_is_that_of_the_program() -> None:
    if not SIGNTOOL.exists():
        skip(f"no program at {SIGNTOOL}")
    for message in (b"", b"A", b"[zz]", b"[nl]" * 100):
        for beacon, pixel in ((0, 0), (1, 0), (0, 1), (1, 1)):
            options = ["--beacon"] * beacon + ["--pixel"] * pixel
            call = ["code", *options, "--", "3", "1", message.decode()]
            said = subprocess.run([str(SIGNTOOL), *call], capture_output=True, check=True).stdout.split()
            assert said[1].decode() == f"{checksum(message, beacon, pixel):04x}"


def test_a_description_is_refused_by_its_line() -> None:
    table = [
        (text.BENCH.replace(b"size 23 14", b"size 23"), "line 1"),
        (text.BENCH.replace(b"size 23 14", b"size 23").removesuffix(b"end\n"), "line 1"),
        (text.BENCH.removesuffix(b"end\n"), "line 17"),
        (text.BENCH + b"\n# words\nmore\n", "line 20"),
        (b"", "line 1"),
    ]
    for description, words in table:
        for program in programs():
            try:
                made(program, description)
            except Bad as refused:
                assert str(refused) == words, (description, refused)
            else:
                raise AssertionError(description)
        try:
            text.described(description)
        except text.Bad as refused:
            assert f"line {refused.line}" == words
