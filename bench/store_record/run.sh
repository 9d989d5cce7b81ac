#!/bin/bash
# Times changes of one record, each by an ever new key, where the record before the change lives on:
# a copy of the record, one put, and the new record in the place of the old. The same run times as
# many inserts into std's BTreeMap of shared fields, which is changed in place. At 1, 2 and 4 times
# 2,000 changes, the least of nine rounds each: the figures of the record double at each step where a
# change costs a count for each field that is there. The program is made and run in a folder of its
# own outside the repository.
set -eu
repository=$(cd "$(dirname "$0")/../.." && pwd)
folder=$(mktemp -d)
trap 'rm -rf "$folder"' EXIT

for crate in gql_plain store_record; do
    mkdir -p "$folder/crates/$crate"
    for part in src specs proofs; do
        cp -r "$repository/crates/$crate/$part" "$folder/crates/$crate/$part"
    done
done
grep -E '^(gql_plain|store_record):' "$repository/crates.txt" > "$folder/crates.txt"
echo 'Handles allowed: none.' > "$folder/HANDLES"
cd "$folder"
rt new crates/record_bench start_io > /dev/null
rm -rf crates/record_bench/{src,specs,proofs,stdin,stdout}
mkdir crates/record_bench/src
echo 'record_bench: gql_plain store_record serde_json json' >> crates.txt

cat > crates/record_bench/src/main.rt <<'END'
//! Times a record and a map side by side.
#![tactic(auto)]

use gql_plain::{NoMemory, Plain, Words};
use std::alloc::Global;
use std::collections::BTreeMap;
use std::io;
use std::rc::Rc;
use std::time::{Duration, Instant};
use store_record::{Field, Record, Shared};

fn key_texts(alloc: Global, count: u64) -> Result<Vec<String>, NoMemory> {
    let mut keys = Vec::new(alloc);
    for place in 0..count {
        let number = place.wrapping_mul(7_919) % count;
        keys.push(format!(in alloc; "node(id:{number})")?)?;
    }
    Ok(keys)
}

fn changed_record(alloc: Global, keys: Vec<String>) -> Result<Shared, NoMemory> {
    let record = Record::new(alloc, Words::new(alloc, "Query")?);
    let mut shared = Shared::new(alloc, record)?;
    for key in keys {
        let mut record = shared.get().copy()?;
        record.fields.put(Words::from_string(key), Field::Leaf(Plain::Null))?;
        shared = Shared::new(alloc, record)?;
    }
    Ok(shared)
}

fn filled_map(alloc: Global, keys: Vec<String>) -> Result<BTreeMap<String, Rc<Field>>, NoMemory> {
    let mut map = BTreeMap::new(alloc);
    for key in keys {
        map.insert(key, Rc::new(alloc, Field::Leaf(Plain::Null))?)?;
    }
    Ok(map)
}

/// The least times of one size, in nanoseconds a change.
#[derive(Drop)]
struct Times {
    record: u64,
    map: u64,
}

/// Nanoseconds for each of `count` calls.
fn each(took: Duration, count: u64) -> u64 {
    u64::try_from(took.as_nanos()).unwrap_or(u64::MAX) / count.max(1)
}

/// The times of one round, and whether the two hold as many.
fn round(rt: &HostRuntime, count: u64, times: &mut Times) -> io::Result<bool> {
    let alloc = rt.alloc();
    let (Ok(first), Ok(second)) = (key_texts(alloc, count), key_texts(alloc, count)) else {
        return Ok(false);
    };
    let start = Instant::now(rt)?;
    let record = changed_record(alloc, first);
    times.record = times.record.min(each(start.elapsed(rt)?, count));
    let start = Instant::now(rt)?;
    let map = filled_map(alloc, second);
    times.map = times.map.min(each(start.elapsed(rt)?, count));
    let (Ok(record), Ok(map)) = (record, map) else {
        return Ok(false);
    };
    Ok(record.get().fields.len() == map.len())
}

fn main(rt: HostRuntime) -> io::Result<()> {
    println!(rt; "changes  record ns  map ns  record / map")?;
    for count in [2_000, 4_000, 8_000] {
        let mut times = Times {
            record: u64::MAX,
            map: u64::MAX,
        };
        for _ in 0..9 {
            if !round(&rt, count, &mut times)? {
                println!(rt; "the two differ, or are out of memory")?;
            }
        }
        let ratio = times.record.saturating_mul(100) / times.map.max(1);
        let (record, map) = (times.record, times.map);
        println!(rt; "{count:>7}  {record:>9}  {map:>6}  {}.{:02}", ratio / 100, ratio % 100)?;
    }
    Ok(())
}
END
cd crates/record_bench
rt run
