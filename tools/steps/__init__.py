"""Steps of a test: commands side by side, their counts, and what each skipped.

tools/after_gate.py and tools/test.py run them.
"""
