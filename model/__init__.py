"""An independent model of the profile, written from docs/PROFILE.md with nothing of the repository's code.

It is slow and plain on purpose: lists are walked, prefixes are laid out anew. tools/make_vectors.py takes its answers,
and trials/compare_model.py compares it with the program.
"""
