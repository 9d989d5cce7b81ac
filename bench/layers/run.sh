#!/bin/bash
# Times layers that are reverted from the newest and from the oldest on, updates with and without a layer, an entry of many commands,
# records of many fields, and updates of many records, at 1, 2 and 4 times as many parts, without the reading of the lines, and beside a
# plain program of rustc that makes the same changes in a map with undo lists. tools/timing/run.sh says which arguments it takes.
set -eu
exec "$(dirname "$0")/../../tools/timing/run.sh" layers "$@"
