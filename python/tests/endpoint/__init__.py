"""Tests of the front ends' parts: `pytest python/tests/endpoint`, or `python3 -m trials.lasting --only parts`."""
