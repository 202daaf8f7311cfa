"""`tools/bridge check`: each module compares something with what it should be; the exit status is 0 where nothing
differs."""
