#!/bin/bash
# Times many watches of which one, none and all are touched, their beginnings and ends, many handles, layers below a watch, and a watch
# of a long list. What stands before the lines that are timed is subtracted. tools/timing/run.sh says which arguments it takes.
set -eu
exec "$(dirname "$0")/../../tools/timing/run.sh" watches "$@"
