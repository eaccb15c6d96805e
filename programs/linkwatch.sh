#!/bin/sh
# Runs linkwatch of the tree in whose out/ this is, over the library there.
top=$(dirname "$(dirname "$(readlink -f "$0")")")
PYTHONPATH=$top/python${PYTHONPATH:+:$PYTHONPATH} LINKWIRE=${LINKWIRE:-$top/out/liblinkwire.so.0} \
    exec python3 -B -m linkwatch "$@"
