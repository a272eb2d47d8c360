"""Programs of PostgreSQL that are installed here."""

import pathlib
import shutil

from wisangub.refusal import Refusal

_PLACES = "/usr/lib/postgresql"


def program(name: str) -> str:
    """A program of the newest PostgreSQL that is installed."""
    versions = [path for path in pathlib.Path(_PLACES).glob(f"*/bin/{name}") if path.parts[-3].isdecimal()]
    found = str(max(versions, key=lambda path: int(path.parts[-3]))) if versions else shutil.which(name)
    if found is None:
        raise Refusal(f"there is no {name}: apt-get install postgresql")
    return found
