"""The sign under test and ours: datagrams to both, their seconds, and what each of them answered."""
