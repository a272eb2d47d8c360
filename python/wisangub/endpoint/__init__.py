"""A sign and a central system on UDP, each around a co-process of the program: a file a notion.

docs/JOURNAL.md has the form of a journal.
"""
