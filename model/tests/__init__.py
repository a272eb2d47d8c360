"""Tests of what the model says of refused lines."""
