#!/bin/bash
# Counts the instructions that a copy of the data of each read takes, beside those of printing it by serde_json, at a twentieth of the
# sizes. A read makes such data anew, so what it takes is never less. The two programs are proved and built in a folder of their own, over
# gql_plain as it is committed; a library that is proved in the repository's out/ is taken along. It needs valgrind.
set -eu
here=$(cd "$(dirname "$0")" && pwd)
repository=$(cd "$here/../.." && pwd)
folder=$(mktemp -d)
trap 'rm -rf "$folder"' EXIT
cd "$folder"
"$here/make.sh"
git clone -q "$repository" repo
cd repo
python3 tools/gate/cut.py gql_plain
if [ -d "$repository/crates/gql_plain/out/rlib" ]; then
    mkdir crates/gql_plain/out
    cp -r "$repository/crates/gql_plain/out/rlib" crates/gql_plain/out/rlib
fi
rt new crates/copier start_io > /dev/null
rm -rf crates/copier/{src,specs,proofs,stdin,stdout,BUILD.bazel}
mkdir crates/copier/src
echo 'copier: gql_plain serde_json' >> crates.txt
cat > crates/copier/src/main.rt <<'END'
//! Reads a line, and copies its data as often as it is asked to.
#![tactic(auto)]

use gql_plain::{Plain, plain_of};
use serde_json::Value;
use std::alloc::Global;
use std::{env, fs, io};

/// The data of a line, null where there is none.
fn data_of(alloc: Global, line: &[u8]) -> Value {
    match Value::from_slice(alloc, line) {
        Ok(Value::Object(mut members)) => members.remove("data").unwrap_or(Value::Null),
        Ok(_) => Value::Null,
        Err(_) => Value::Null,
    }
}

/// The data as a read gives it, null where a number is not whole or memory is short.
fn plain_data(alloc: Global, data: &Value) -> Plain {
    match plain_of(alloc, data) {
        Ok(plain) => plain,
        Err(_) => Plain::Null,
    }
}

/// Whether a copy was made; it is dropped.
fn is_copied(plain: &Plain) -> bool {
    match plain.copy() {
        Ok(_) => true,
        Err(_) => false,
    }
}

fn main(rt: HostRuntime) -> io::Result<()> {
    let alloc = rt.alloc();
    let mut words = env::args(&rt)?.skip(1);
    let Some(path) = words.next() else {
        return Ok(());
    };
    let Some(count) = words.next() else {
        return Ok(());
    };
    let count = count.as_str().parse::<u64>().unwrap_or(0);
    let line = fs::read(&rt, path.as_str())?;
    let plain = plain_data(alloc, &data_of(alloc, &line));
    let mut made: u64 = 0;
    for _ in 0..count {
        if is_copied(&plain) {
            made = made.wrapping_add(1);
        }
    }
    println!(rt; "{made}")
}
END
(cd crates/copier && rt run -- /dev/null 1 > run.log 2>&1) || { tail -20 crates/copier/run.log >&2; exit 1; }
cp crates/copier/out/copier "$folder/copier"
cd "$folder"
cat > count.py <<'END'
import json, re, subprocess
import rows

def instructions(*words):
    said = subprocess.run(["valgrind", "--tool=cachegrind", "--cache-sim=no", "--cachegrind-out-file=/dev/null", *words], capture_output=True, text=True)
    return int(re.search(r"I\s+refs:\s+([\d,]+)", said.stderr).group(1).replace(",", ""))

def each(program):
    return (instructions(program, "line", "5") - instructions(program, "line", "0")) / 5

print("data                          count  printed, million  copied, million  ratio")
for name, make, count in [("a list of links", rows.links, 5_000), ("masked fragments in a list", rows.pointers, 5_000), ("inline fragments in a list", rows.inline, 5_000),
                          ("a record of many fields", rows.wide, 1_000), ("sixty deep, in a cycle", rows.deep, 100)]:
    with open("line", "w", encoding="utf-8") as file:
        json.dump({"data": make(count)[2]}, file, separators=(",", ":"))
    printed, copied = each("./printer"), each("./copier")
    print(f"{name:28} {count:6} {printed / 1e6:17.2f} {copied / 1e6:16.2f} {copied / printed:6.2f}")
END
PYTHONDONTWRITEBYTECODE=1 PYTHONPATH="$here:$here/../../tools/timing" python3 count.py
