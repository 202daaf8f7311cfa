"""Where the gateway's files are, and its settings where no file is named."""

import pathlib

FOLDER = pathlib.Path(__file__).resolve().parent
# Beside the programs; those of a package stand in etc/, as its programs do in usr/share/confbridge/examples/gateway/.
SETTINGS = FOLDER / "gateway.toml"
if not SETTINGS.is_file() and FOLDER.parts[-5:-2] == ("usr", "share", "confbridge"):
    SETTINGS = FOLDER.parents[4] / "etc/confbridge-gateway.toml"
