"""The vectors of a right sign, asked of any sign over UDP."""
