#!/bin/bash
# Times the built program on the scripts of a bench: run.sh BENCH [PROGRAM [WORD..]] runs the rows of bench/BENCH/rows.py, in a folder of
# its own, and says of each script whether its last line is the expected one. With more arguments it runs only the rows whose names have one of
# them. ROUNDS=N takes N rounds in place of five; COUNT=1 counts instructions by valgrind in place of times. What bench/BENCH/make.sh
# makes, where there is one, stands in the folder too.
# Build the program first: cd crates/relay_run && rt run -- run 10 data/schema.graphql data/q.graphql < stdin
set -eu
here=$(cd "$(dirname "$0")" && pwd)
repository=$(cd "$here/../.." && pwd)
bench=$repository/bench/$1
shift
program=$(realpath "${1:-$repository/crates/relay_run/out/relay_run}")
shift || true
folder=$(mktemp -d)
trap 'rm -rf "$folder"' EXIT
cd "$folder"
if [ -e "$bench/make.sh" ]; then
    "$bench/make.sh"
fi
PYTHONDONTWRITEBYTECODE=1 PYTHONPATH="$here:$bench" python3 "$here/measure.py" "$program" "$@"
