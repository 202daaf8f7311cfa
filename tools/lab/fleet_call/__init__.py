"""What `tools/bridge check fleet` is made of."""
