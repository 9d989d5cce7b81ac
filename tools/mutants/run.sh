#!/bin/bash
# Tries the mutants that the gate does not try: tools/mutants/run.sh [CRATE..]; without names those of
# every crate that has a folder mutants/. The prover must reject each of them. Run this for a crate
# whenever its code or its contracts change.
#
# What is committed of these crates and of those that they stand on is copied into a folder outside the
# repository (TMPDIR), and mutants/ is moved there to must-fail/, in place of the mutants that the gate
# tries. Libraries that are proved in the repository's out/ are taken along; the others are proved first.
# It prints a line for each mutant and a count. The status is 0 if each mutant was rejected.
set -eu
repository=$(cd "$(dirname "$0")/../.." && pwd)
names=${*:-$(cd "$repository/crates" && ls -d */mutants | sed 's|/mutants$||')}
for crate in $names; do
  [ -d "$repository/crates/$crate/mutants" ] || { echo "crates/$crate has no mutants/" >&2; exit 2; }
done
folder=$(mktemp -d)
trap 'rm -rf "$folder"' EXIT
git clone -q "$repository" "$folder/repo"
cd "$folder/repo"
python3 "$repository/tools/gate/cut.py" $names
for crate in crates/*; do
  if [ -d "$repository/$crate/out/rlib" ]; then
    mkdir "$crate/out"
    cp -r "$repository/$crate/out/rlib" "$crate/out/rlib"
  fi
done
for crate in $names; do
  rm -rf "crates/$crate/must-fail"
  mv "crates/$crate/mutants" "crates/$crate/must-fail"
done
status=0
rt must-fail $names > "$folder/log" 2> "$folder/errors" || status=$?
cat "$folder/log"
refused=$(grep -c ': refused, as it must be' "$folder/log") || true
others=$(grep -cE ': (NOT REFUSED|BAD EDIT)' "$folder/log") || true
all=$(for crate in $names; do ls "crates/$crate/must-fail"; done | wc -l)
echo "$refused of $all rejected, $others not rejected or bad"
if [ "$status" != 0 ] || [ "$refused" != "$all" ]; then
  tail -20 "$folder/errors" >&2
  exit 1
fi
