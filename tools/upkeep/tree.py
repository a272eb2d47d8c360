"""The files of the repository, as git knows them or as they stand in a folder."""

import pathlib
import subprocess
from dataclasses import dataclass, field


def _listed(top: pathlib.Path) -> list[str]:
    """The files that git tracks or would; without git those of the folder, but for what is built."""
    call = ["git", "-C", str(top), "ls-files", "--cached", "--others", "--exclude-standard", "-z"]
    ended = subprocess.run(call, capture_output=True, text=True, check=False)
    if ended.returncode == 0:
        return sorted(name for name in set(ended.stdout.split("\0")) if name and (top / name).is_file())
    found = (path.relative_to(top) for path in top.rglob("*") if path.is_file())
    return sorted(str(path) for path in found if not {"out", "__pycache__", ".git"} & set(path.parts))


@dataclass
class Tree:
    """A folder, its files' names from there, and what was read of them."""

    top: pathlib.Path
    names: list[str] = field(default_factory=list)
    read: dict[str, str] = field(default_factory=dict)

    def __post_init__(self) -> None:
        self.names = self.names or _listed(self.top)

    def text(self, name: str) -> str:
        """A file's text; one that is no UTF-8 has none."""
        if name not in self.read:
            try:
                self.read[name] = (self.top / name).read_text(encoding="utf-8")
            except UnicodeDecodeError:
                self.read[name] = ""
        return self.read[name]

    def lines(self, name: str) -> list[tuple[int, str]]:
        """A file's lines with their numbers."""
        return list(enumerate(self.text(name).split("\n"), 1))

    def documents(self) -> list[str]:
        """The pages in Markdown."""
        return [name for name in self.names if name.endswith(".md")]

    def has(self, name: str) -> bool:
        """Whether there is such a file or folder."""
        return (self.top / name).exists()
