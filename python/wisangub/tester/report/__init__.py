"""Reports: on the terminal, as a page, for benches as JUnit and JSON."""
