"""What is made of the table of objects, for tools/objects.py."""
