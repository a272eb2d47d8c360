"""Which crates and files in Python changed, as git tells: by what is checked out, and by what it does not track yet."""

from __future__ import annotations

import pathlib
import re
import subprocess
from collections.abc import Iterable

_MAINS = ("origin/main", "main")
# wrong bodies are tried by tools/try_edits.py, and what a program is run with and prints by the gate
_READ = re.compile(r"crates/(\w+)/(?:src|specs|proofs)/")


def told(top: pathlib.Path, *words: str) -> str | None:
    """What git says, or nothing where there is no git, no repository, or no such name."""
    try:
        ended = subprocess.run(["git", "-C", str(top), *words], capture_output=True, text=True, check=False)
    except OSError:
        return None
    return ended.stdout if ended.returncode == 0 else None


def base(top: pathlib.Path) -> str | None:
    """The last commit that main has too: of the remote's main, or of the one here, or the last commit at all."""
    found = [told(top, "merge-base", "HEAD", name) for name in _MAINS]
    known = [commit.strip() for commit in [*found, told(top, "rev-parse", "HEAD")] if commit]
    return known[0] if known else None


def _not_as_main(top: pathlib.Path, pattern: str) -> set[str] | None:
    """What of a pattern is not as main has it, committed or not, or is not tracked; nothing where git does not tell."""
    since = base(top)
    if since is None:
        return None
    tracked = told(top, "diff", "--name-only", "--no-renames", "-z", since, "--", pattern)
    others = told(top, "ls-files", "--others", "--exclude-standard", "-z", "--", pattern)
    return None if tracked is None or others is None else {*tracked.split("\0"), *others.split("\0")}


def changed_python(top: pathlib.Path) -> list[str] | None:
    """The files in Python that are not as main has them; nothing where git does not tell."""
    names = _not_as_main(top, "*.py")
    return None if names is None else sorted(name for name in names if name and (top / name).is_file())


def _names_of(paths: Iterable[str]) -> set[str]:
    return {found[1] for path in paths if (found := _READ.match(path))}


def changed(top: pathlib.Path) -> list[str] | None:
    """The crates of which a file that a check reads is not as main has it; nothing where git does not tell."""
    paths = _not_as_main(top, "crates")
    if paths is None:
        return None
    return sorted(name for name in _names_of(paths) if (top / "crates" / name / "src").is_dir())
