"""Plain, slow models of the bridge, written from the standards and docs/FORMATS.md."""
