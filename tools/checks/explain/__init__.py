"""Calls that are explained: made, held, and spoiled."""
