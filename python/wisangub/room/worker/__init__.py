"""A worker: it drives the signs that have commands, and reads all."""
