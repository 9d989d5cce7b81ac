#!/bin/bash
# Prints for each crate how many processor minutes its proof, its tests and the mutants in must-fail/ take,
# each from nothing: tools/gate/run.sh [CRATE..]; without names every crate of crates.txt, with names
# these and those that they stand on, whose mutants are left out.
#
# What is committed is cloned into a folder outside the repository. `rt ci` runs there once, which takes
# nothing of what earlier runs kept, and watch.py notes what each of its provers used.
set -eu
here=$(cd "$(dirname "$0")" && pwd)
folder=$(mktemp -d)
trap 'rm -rf "$folder"' EXIT
git clone -q "$here/../.." "$folder/repo"
cd "$folder/repo"
if [ $# -gt 0 ]; then
  python3 "$here/cut.py" "$@"
fi
echo "load at the start: $(cut -d' ' -f1-3 /proc/loadavg)"
begun=$SECONDS
python3 "$here/watch.py" "$folder/records" $(python3 "$here/kit.py") > "$folder/log" 2>&1 || { tail -20 "$folder/log"; exit 1; }
echo "by the clock: $(((SECONDS - begun) / 60)) minutes, on $(nproc) processors"
python3 "$here/table.py" "$folder/records"
