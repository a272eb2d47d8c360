"""A central system under test: what a sign sees it do wrong."""
