"""Trials of the program, of both ends on UDP, of the tester and of the control room: never installed.

Each is run from the top, as in `python3 -m trials.lasting`. Programs that they start import the package and the model
from this checkout.
"""

import os
import pathlib
import sys

TOP = pathlib.Path(__file__).resolve().parent.parent
_FOLDERS = [str(TOP / "python"), str(TOP)]

sys.path[:0] = [folder for folder in _FOLDERS if folder not in sys.path]
_BEFORE = [folder for folder in os.environ.get("PYTHONPATH", "").split(os.pathsep) if folder and folder not in _FOLDERS]
os.environ["PYTHONPATH"] = os.pathsep.join([*_FOLDERS, *_BEFORE])
