"""A tester for any maker's sign, with the proved sign as its oracle: wisangub-conform --help

docs/CONFORMANCE.md says how it is used.
"""
