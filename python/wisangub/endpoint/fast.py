"""The sign's front end in C, examples/signd.c, in the place of this one: what `--fast` asks for."""

import argparse
import os
import subprocess

from wisangub import __version__
from wisangub.output import LOG
from wisangub.process import description
from wisangub.process.stands import file_of, signtool

MOST_RECORDED = 1_000_000  # of a second, that signd takes
_PATIENCE = 10.0  # seconds that signd may take to say its version
# options with a word, as signd has them
_NAMED = ("host", "port", "objects", "journal", "keep", "archive", "down", "most_recorded")
_BARE = ("accept_damage", "need_journal", "no_ticks", "quiet")


def lacks(asked: argparse.Namespace) -> str:
    """What is asked for that signd has not, in words; nothing where it has all."""
    others = {
        "--signtool": asked.signtool != signtool(),
        "--fresh": asked.fresh,
        "--page": asked.page is not None,
        "--lose": asked.lose,
        "--log that has words": asked.log,
        "--journal of a sign without a description": asked.journal and not asked.sign,
        f"--most-recorded above {MOST_RECORDED}": asked.most_recorded > MOST_RECORDED,
    }
    return next((f"signd has no {words}" for words, is_asked in others.items() if is_asked), "")


def is_built(path: str) -> str:
    """Why there is no signd of this version at a path, in words; nothing where one is there."""
    try:
        said = subprocess.run([path, "--version"], capture_output=True, timeout=_PATIENCE, check=False).stdout
    except (OSError, subprocess.TimeoutExpired):
        return f"there is no signd at {path}: make -C examples builds it"
    is_ours = said == f"signd {__version__}\n".encode()
    return "" if is_ours else f"{path} is no signd of version {__version__}: make -C examples builds one"


def call(asked: argparse.Namespace) -> list[str]:
    """The command line of signd, for what it has."""
    words = [asked.fast]
    for name in _NAMED:
        if (value := getattr(asked, name)) is not None:
            words += [f"--{name.replace('_', '-')}", str(value)]
    words += [f"--{name.replace('_', '-')}" for name in _BARE if getattr(asked, name)]
    return [*words, "--", asked.sign or file_of("signs/bench.sign")]


def hand_over(asked: argparse.Namespace) -> None:
    """Becomes signd. Where that cannot be it says why, and this front end goes on."""
    why = lacks(asked) or is_built(asked.fast)
    if not why:
        description.read(asked.sign)  # its faults are said here
        LOG.info(f"--fast: {asked.fast} goes on")
        try:
            os.execv(asked.fast, call(asked))
        except OSError as fault:
            why = f"{asked.fast}: {fault.strerror}"
    LOG.info(f"--fast: {why}; this front end goes on")
