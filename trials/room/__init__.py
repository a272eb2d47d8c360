"""Trials of the control room: a fleet in trouble, and what it does in a second."""
