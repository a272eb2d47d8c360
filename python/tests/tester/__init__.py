"""Tests: python3 -m pytest python/tests/tester, or env -C python python3 -m tests.tester.short where there is no
pytest."""
