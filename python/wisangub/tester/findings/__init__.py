"""What is found: how replies differ, the rule that a difference breaks, and the results of a test."""
