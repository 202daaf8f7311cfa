"""What `tools/bridge make package` puts into a package, and what `check package` looks at."""
