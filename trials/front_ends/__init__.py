"""What trials/lasting.py tries: a file a kind of trial."""
