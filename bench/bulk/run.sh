#!/bin/bash
# Times the script of the arguments `bulk 7 COUNT` for 50,000, 100,000 and 200,000 lines, and 25,000, 50,000 and 100,000 updates under one
# watch, by processor time and by the clock, with the most memory: run.sh [PROGRAM]. ROUNDS=N takes N rounds in place of five.
# Beside it stands a plain Rust program (baseline/), which answers the same lines by hand with a hash map and serde_json, and has to
# write the same bytes. It is built by cargo from the sources of serde_json that Debian has (librust-serde-json-dev), with no network;
# where cargo or these sources are not there, the ratio is left out. BASELINE=PATH names one that was built so.
# Build the program first: cd crates/relay_run && rt run -- run 10 data/schema.graphql data/q.graphql < stdin
set -eu
here=$(cd "$(dirname "$0")" && pwd)
program=$(realpath "${1:-$here/../../crates/relay_run/out/relay_run}")
registry=/usr/share/cargo/registry
folder=$(mktemp -d)
trap 'rm -rf "$folder"' EXIT
cd "$folder"

baseline=${BASELINE:+$(realpath "$BASELINE")}
if [ -z "$baseline" ]; then
    if ! command -v cargo > cargo.log; then
        echo "cargo is not there: no ratio"
    elif ! ls "$registry" 2> /dev/null | grep -q '^serde_json-'; then
        echo "$registry has no serde_json (apt-get install librust-serde-json-dev): no ratio"
    else
        cp -r "$here/baseline" baseline
        mkdir baseline/.cargo
        printf '[source.crates-io]\nreplace-with = "debian"\n[source.debian]\ndirectory = "%s"\n' "$registry" > baseline/.cargo/config.toml
        if (cd baseline && cargo build --release --offline) > cargo.log 2>&1; then
            baseline=$folder/baseline/target/release/baseline
        else
            tail -5 cargo.log
            echo "the plain program was not built: no ratio"
        fi
    fi
fi
PYTHONDONTWRITEBYTECODE=1 PYTHONPATH="$here" python3 "$here/measure.py" "$program" ${baseline:+"$baseline"}
