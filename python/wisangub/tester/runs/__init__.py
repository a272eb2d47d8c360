"""Sequences that are run from the known state, made shorter, or repeated by a report's command."""
