#!/bin/bash
# Makes the program `printer` in this folder: it reads a line that shows a read, and prints the data as often as it is asked to. It is proved and built
# in a folder of its own, unless PRINTER names one that was made so.
set -eu
if [ -n "${PRINTER:-}" ]; then
    cp "$PRINTER" printer
    exit
fi
home=$PWD
folder=$(mktemp -d)
trap 'rm -rf "$folder"' EXIT
cd "$folder"
echo 'Handles allowed: none.' > HANDLES
rt new crates/printer start_io > /dev/null
rm -rf crates/printer/{src,specs,proofs,stdin,stdout,BUILD.bazel}
mkdir crates/printer/src
echo 'printer: serde_json' > crates.txt
cat > crates/printer/src/main.rt <<'END'
//! Reads a line, and prints its data as often as it is asked to.
#![tactic(auto)]

use serde_json::Value;
use std::alloc::Global;
use std::{env, fs, io};

/// The data of a line, null where there is none.
fn data_of(alloc: Global, line: &[u8]) -> Value {
    match Value::from_slice(alloc, line) {
        Ok(Value::Object(mut members)) => members.remove("data").unwrap_or(Value::Null),
        Ok(_) => Value::Null,
        Err(_) => Value::Null,
    }
}

fn main(rt: HostRuntime) -> io::Result<()> {
    let alloc = rt.alloc();
    let mut words = env::args(&rt)?.skip(1);
    let Some(path) = words.next() else {
        return Ok(());
    };
    let Some(count) = words.next() else {
        return Ok(());
    };
    let count = count.as_str().parse::<u64>().unwrap_or(0);
    let line = fs::read(&rt, path.as_str())?;
    let data = data_of(alloc, &line);
    for _ in 0..count {
        let text = data.to_string(alloc)?;
        println!(rt; "{}", text.as_str())?;
    }
    Ok(())
}
END
(cd crates/printer && rt run -- /dev/null 1 > run.log 2>&1) || { tail -20 crates/printer/run.log >&2; exit 1; }
cp crates/printer/out/printer "$home/printer"
