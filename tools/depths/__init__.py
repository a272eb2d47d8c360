"""How deep the calls of the program and of the library for C go: what calls itself, and what bounds it."""
