#!/bin/sh
# A call to look at: a bridge, its page at http://127.0.0.1:7080/ and two members that send tones and a test picture.
# Ctrl-C ends it.
exec "$(dirname "$0")/../tools/bridge" demo "$@"
