"""What tools/house.py looks at: a bar is a function of the tree that gives its findings, a line each."""
