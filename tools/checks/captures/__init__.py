"""Captures that are written."""
