"""Trials of the library for C, of trials/c_library.py."""
