"""Calls of the system at which a front end is killed, or that a disk refuses, for tests of its files."""

import contextlib
import os
import pathlib
from collections.abc import Iterator
from typing import Any
from unittest import mock

CALLS = ("open", "write", "fsync", "link", "rename", "unlink")  # by which a file takes the place of another


class Killed(BaseException):
    """The front end was killed at a call."""


@contextlib.contextmanager
def killed_in(name: str, at: int, folder: pathlib.Path) -> Iterator[list[int]]:
    """Of the calls of this kind the one of this number is where it is killed: how many there were. As a kill does, it
    closes what is open in the folder."""
    call, count = getattr(os, name), [0]

    def counted(*words: object, **more: object) -> object:
        count[0] += 1
        if count[0] == at:
            raise Killed
        return call(*words, **more)

    with contextlib.suppress(Killed), mock.patch(f"os.{name}", counted):
        yield count
    for file in map(int, os.listdir("/proc/self/fd")):
        if os.path.exists(f"/proc/self/fd/{file}") and os.readlink(f"/proc/self/fd/{file}").startswith(str(folder)):
            os.close(file)


class RefusingCall:
    """A call that fails from some time on."""

    def __init__(self, name: str, at: int, error: int) -> None:
        self.call, self.at, self.error = getattr(os, name), at, error

    def __call__(self, *words: Any, **more: Any) -> Any:
        self.at -= 1
        if self.at < 0:
            raise OSError(self.error, os.strerror(self.error))
        return self.call(*words, **more)


@contextlib.contextmanager
def without_syncs() -> Iterator[None]:
    """What is looked at goes by what is written, many times over, and not by when it is on the disk."""
    with mock.patch("os.fsync"), mock.patch("os.fdatasync"):
        yield


@contextlib.contextmanager
def without_syncs_but(name: str) -> Iterator[None]:
    """Only this call is looked at."""
    with contextlib.nullcontext() if name == "fsync" else without_syncs():
        yield
