"""Tests of the page of a sign: `pytest python/tests/endpoint/page`."""
