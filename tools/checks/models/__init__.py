"""Models that checks alone use."""
