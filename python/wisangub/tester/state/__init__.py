"""The known state: what both signs are brought to, and what is read of a sign before that."""
