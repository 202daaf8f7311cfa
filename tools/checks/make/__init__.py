"""`tools/bridge make`: each module writes a file of the repository."""
