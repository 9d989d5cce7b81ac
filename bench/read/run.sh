#!/bin/bash
# Times reads of lists, of masked and of inline fragments in them, of wide records, and of a cycle of records 60 deep, at 1, 2 and 4 times
# as many parts, without what stands before the reads, and beside printing the same data as often by serde_json alone.
# tools/timing/run.sh says which arguments it takes.
set -eu
exec "$(dirname "$0")/../../tools/timing/run.sh" read "$@"
