"""A description made from the sign: what is read of it, and what texts tell that it validates."""
