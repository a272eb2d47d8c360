"""A control room: many signs, a database, and workers that drive each sign by the proved centre.

docs/CONTROL.md says what is there and how it is run.
"""
