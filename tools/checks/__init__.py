"""Checks of the tree, and what writes the parts that are made."""
