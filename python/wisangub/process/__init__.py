"""The program that answers lines: where it stands, how it is run, and the description that it is handed."""
