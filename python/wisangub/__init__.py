"""A dynamic message sign and its central system, and what tests and drives them, around the proved program."""

__version__ = "1.0.0"  # as the program's: a test compares them
