"""Tests of the control room: `pytest python/tests/room`. The program is that of SIGNTOOL, or the built one."""
