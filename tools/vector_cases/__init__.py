"""The cases of vectors/: what a maker of another sign or centre may try, with the answers of the model."""

import pathlib
import sys

TOP = pathlib.Path(__file__).resolve().parents[2]
sys.path += [str(TOP), str(TOP / "python")]  # where the model is, and the package
