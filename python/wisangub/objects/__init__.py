"""Objects beside those of a sign: files that have them, and what makes such a file."""
