"""Wrong bodies, tried many in one check."""
