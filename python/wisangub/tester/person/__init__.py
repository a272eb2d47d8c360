"""What a person sees of a sign, and does to it: what no request tells."""
