"""Checks with programs of others."""
