#!/bin/bash
# Times pages of 100 after and before long connections, connections that are fetched again, and edges that are put in front one by
# one. What makes and reads the connection is subtracted. tools/timing/run.sh says which arguments it takes.
set -eu
exec "$(dirname "$0")/../../tools/timing/run.sh" connections "$@"
