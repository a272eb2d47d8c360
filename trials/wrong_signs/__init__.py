"""Signs wrong in one rule each, made from model by one edit each, to see whether the tester finds them."""
