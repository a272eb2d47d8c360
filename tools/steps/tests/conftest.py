"""The tests import the parts of `tools/after_gate.py` and `tools/test.py` as the tools do."""

import pathlib
import sys

sys.path.insert(0, str(pathlib.Path(__file__).resolve().parents[2]))
