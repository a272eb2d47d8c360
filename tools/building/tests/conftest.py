"""The tests import the parts of `tools/build.py` as the tool does."""

import pathlib
import sys

sys.path.insert(0, str(pathlib.Path(__file__).resolve().parents[2]))
