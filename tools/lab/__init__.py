"""Laboratories, which measure and hold calls with other programs."""
