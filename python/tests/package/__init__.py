"""Tests of the package as a whole: what it imports, and how it is installed."""
