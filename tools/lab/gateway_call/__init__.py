"""What `tools/bridge check gateway` is made of."""
