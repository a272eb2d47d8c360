"""Several signs, each tested beside its description in a process of its own."""
