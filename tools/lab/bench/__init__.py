"""`tools/bridge bench`: each module measures the release program."""
