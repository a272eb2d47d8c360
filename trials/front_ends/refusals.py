"""A disk that refuses calls, by trials/refuse_disk.c."""

import os
import pathlib
import subprocess

from wisangub.process.places import TOP

from .bench import Trial
from .patience import PACE


def built(trial: Trial) -> pathlib.Path | None:
    """The library that is loaded before others."""
    made = trial.folder / "refuse_disk.so"
    try:
        subprocess.run(
            [
                os.environ.get("CC", "cc"),
                "-O2",
                "-Wall",
                "-shared",
                "-fPIC",
                "-o",
                str(made),
                str(TOP / "trials/refuse_disk.c"),
                "-ldl",
            ],
            check=True,
            capture_output=True,
            timeout=PACE.patience(),
        )
    except (OSError, subprocess.SubprocessError) as fault:
        trial.skip("faults of the disk", f"refuse_disk.c is not built: {fault}")
        return None
    return made


def refusing(library: pathlib.Path, path: pathlib.Path, call: str, at: int, error: int, **more: int) -> dict[str, str]:
    """The environment in which the disk refuses a call on a file."""
    words = {
        "DISK_FILE": str(path),
        "DISK_FOLDER": str(path.parent),
        "DISK_CALL": call,
        "DISK_AT": str(at),
        "DISK_ERROR": str(error),
        "LD_PRELOAD": str(library),
    }
    return words | {f"DISK_{name.upper()}": str(value) for name, value in more.items()}
