"""Long runs of random requests against signs under a simulated clock."""
