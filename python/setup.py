"""What a wheel has beside pyproject.toml: what the commands read of the repository around this folder."""

import pathlib
import shutil

from setuptools import setup
from setuptools.command.build_py import build_py

TOP = pathlib.Path(__file__).resolve().parent.parent
DATA = ("mibs", "signs", "vectors", "docs/PROFILE.md")


class WithData(build_py):  # type: ignore[misc]  # setuptools of Debian has no types
    """Puts it into the package, under data/, as it stands in the repository."""

    def run(self) -> None:
        super().run()
        folder = pathlib.Path(self.build_lib, "wisangub/data")
        for name in DATA:
            into = folder / name
            into.parent.mkdir(parents=True, exist_ok=True)
            if (TOP / name).is_dir():
                shutil.copytree(TOP / name, into, dirs_exist_ok=True)
            else:
                shutil.copy(TOP / name, into)


setup(cmdclass={"build_py": WithData})
