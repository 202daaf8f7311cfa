"""Models of bridges and of a way, which run as programs."""
