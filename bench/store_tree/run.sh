#!/bin/bash
# Times inserts into a Tree, by `insert` and by `put`, gets from it, and new values for the keys of a
# full one by `write`, as a commit gives them: a version is held until the entry is made. The same of
# std's BTreeMap in the same run, at 1, 2 and 4 times 131,072 keys in mixed order. Each figure is the
# least of three rounds. The program is made and run in a folder of its own outside the repository.
set -eu
repository=$(cd "$(dirname "$0")/../.." && pwd)
folder=$(mktemp -d)
trap 'rm -rf "$folder"' EXIT

for crate in gql_plain store_tree; do
    mkdir -p "$folder/crates/$crate"
    for part in src specs proofs; do
        cp -r "$repository/crates/$crate/$part" "$folder/crates/$crate/$part"
    done
done
grep -E '^(gql_plain|store_tree):' "$repository/crates.txt" > "$folder/crates.txt"
echo 'Handles allowed: none.' > "$folder/HANDLES"
cd "$folder"
rt new crates/tree_bench start_io > /dev/null
rm -rf crates/tree_bench/{src,specs,proofs,stdin,stdout}
mkdir crates/tree_bench/src
echo 'tree_bench: gql_plain store_tree' >> crates.txt

cat > crates/tree_bench/src/main.rt <<'END'
//! Times a tree and a map side by side.
#![tactic(auto)]

use gql_plain::{Counts, NoMemory, Words};
use std::alloc::Global;
use std::collections::BTreeMap;
use std::io;
use std::rc::Rc;
use std::time::{Duration, Instant};
use store_tree::{Item, Tree};

/// The number that stands at a place of the mixed order: each number up to the mask, one less than
/// a power of two, stands once, and neighbours lie far apart.
fn mixed(place: u64, mask: u64) -> u64 {
    let once = place.wrapping_mul(0x9e37_79b1) & mask;
    let twice = (once ^ (once >> 7)).wrapping_mul(0x85eb_ca6b) & mask;
    twice ^ (twice >> 9)
}

fn key_texts(alloc: Global, count: u64) -> Result<Vec<String>, NoMemory> {
    let mut keys = Vec::new(alloc);
    for place in 0..count {
        let number = mixed(place, count.wrapping_sub(1));
        keys.push(format!(in alloc; "client:node:{number}")?)?;
    }
    Ok(keys)
}

fn filled_tree(alloc: Global, keys: Vec<String>) -> Result<Tree<u64>, NoMemory> {
    let mut steps = Counts::new();
    let mut tree = Tree::new();
    let mut number: u64 = 0;
    for key in keys {
        number = number.wrapping_add(1);
        let value = Rc::new(alloc, number)?;
        tree = tree.insert(alloc, Words::from_string(key), value, &mut steps)?;
    }
    Ok(tree)
}

fn put_tree(alloc: Global, keys: Vec<String>) -> Result<Tree<u64>, NoMemory> {
    let mut steps = Counts::new();
    let mut tree = Tree::new();
    let mut number: u64 = 0;
    for key in keys {
        number = number.wrapping_add(1);
        let value = Rc::new(alloc, number)?;
        tree = tree.put(alloc, Words::from_string(key), value, &mut steps)?;
    }
    Ok(tree)
}

fn filled_map(alloc: Global, keys: Vec<String>) -> Result<BTreeMap<String, Rc<u64>>, NoMemory> {
    let mut map = BTreeMap::new(alloc);
    let mut number: u64 = 0;
    for key in keys {
        number = number.wrapping_add(1);
        map.insert(key, Rc::new(alloc, number)?)?;
    }
    Ok(map)
}

/// One commit: the version before is kept until all that may fail is done, and then the entry is
/// written in place, or put in where it comes back.
fn committed_tree(
    alloc: Global,
    tree: Tree<u64>,
    key: String,
    number: u64,
    steps: &mut Counts,
) -> Result<Tree<u64>, NoMemory> {
    let before = tree.version()?;
    let item = Item::new(alloc, Words::from_string(key), Rc::new(alloc, number)?)?;
    drop(before);
    let mut after = tree;
    match after.write(item) {
        None => Ok(after),
        Some(item) => after.put_item(alloc, item, steps),
    }
}

fn written_tree(alloc: Global, tree: Tree<u64>, keys: Vec<String>) -> Result<Tree<u64>, NoMemory> {
    let mut steps = Counts::new();
    let mut after = tree;
    let mut number: u64 = 0;
    for key in keys {
        number = number.wrapping_add(2);
        after = committed_tree(alloc, after, key, number, &mut steps)?;
    }
    Ok(after)
}

fn written_map(
    alloc: Global,
    map: &mut BTreeMap<String, Rc<u64>>,
    keys: Vec<String>,
) -> Result<(), NoMemory> {
    let mut number: u64 = 0;
    for key in keys {
        number = number.wrapping_add(2);
        drop(map.insert(key, Rc::new(alloc, number)?)?);
    }
    Ok(())
}

fn sum_in_tree(tree: &Tree<u64>, keys: &[String]) -> u64 {
    let mut sum: u64 = 0;
    for key in keys {
        sum = sum.wrapping_add(tree.get(key.as_str()).copied().unwrap_or(0));
    }
    sum
}

fn sum_in_map(map: &BTreeMap<String, Rc<u64>>, keys: &[String]) -> u64 {
    let mut sum: u64 = 0;
    for key in keys {
        if let Some(value) = map.get(key.as_str()) {
            sum = sum.wrapping_add(**value);
        }
    }
    sum
}

/// The least times of one size, in nanoseconds a key.
#[derive(Drop)]
struct Times {
    insert: u64,
    put: u64,
    map_insert: u64,
    write: u64,
    map_write: u64,
    get: u64,
    map_get: u64,
}

/// Nanoseconds for each of `count` calls.
fn each(took: Duration, count: u64) -> u64 {
    u64::try_from(took.as_nanos()).unwrap_or(u64::MAX) / count.max(1)
}

/// The times of fills, and whether the three hold the same.
fn fill_times(rt: &HostRuntime, count: u64, times: &mut Times) -> io::Result<bool> {
    let alloc = rt.alloc();
    let (Ok(first), Ok(second), Ok(third)) = (
        key_texts(alloc, count),
        key_texts(alloc, count),
        key_texts(alloc, count),
    ) else {
        return Ok(false);
    };
    let start = Instant::now(rt)?;
    let inserted = filled_tree(alloc, first);
    times.insert = times.insert.min(each(start.elapsed(rt)?, count));
    let start = Instant::now(rt)?;
    let put = put_tree(alloc, second);
    times.put = times.put.min(each(start.elapsed(rt)?, count));
    let start = Instant::now(rt)?;
    let map = filled_map(alloc, third);
    times.map_insert = times.map_insert.min(each(start.elapsed(rt)?, count));
    let (Ok(inserted), Ok(put), Ok(map)) = (inserted, put, map) else {
        return Ok(false);
    };
    drop(inserted);
    if !get_times(rt, &put, &map, count, times)? {
        return Ok(false);
    }
    write_times(rt, put, map, count, times)
}

/// The times of new values for all keys, and whether the two hold the same.
fn write_times(
    rt: &HostRuntime,
    tree: Tree<u64>,
    map: BTreeMap<String, Rc<u64>>,
    count: u64,
    times: &mut Times,
) -> io::Result<bool> {
    let alloc = rt.alloc();
    let (Ok(first), Ok(second), Ok(keys)) = (
        key_texts(alloc, count),
        key_texts(alloc, count),
        key_texts(alloc, count),
    ) else {
        return Ok(false);
    };
    let start = Instant::now(rt)?;
    let written = written_tree(alloc, tree, first);
    times.write = times.write.min(each(start.elapsed(rt)?, count));
    let mut map = map;
    let start = Instant::now(rt)?;
    let outcome = written_map(alloc, &mut map, second);
    times.map_write = times.map_write.min(each(start.elapsed(rt)?, count));
    let (Ok(written), Ok(())) = (written, outcome) else {
        return Ok(false);
    };
    Ok(sum_in_tree(&written, &keys) == sum_in_map(&map, &keys) && written.len() == count)
}

/// The times of look-ups, and whether the two hold the same.
fn get_times(
    rt: &HostRuntime,
    tree: &Tree<u64>,
    map: &BTreeMap<String, Rc<u64>>,
    count: u64,
    times: &mut Times,
) -> io::Result<bool> {
    let Ok(keys) = key_texts(rt.alloc(), count) else {
        return Ok(false);
    };
    let start = Instant::now(rt)?;
    let in_tree = sum_in_tree(tree, &keys);
    times.get = times.get.min(each(start.elapsed(rt)?, count));
    let start = Instant::now(rt)?;
    let in_map = sum_in_map(map, &keys);
    times.map_get = times.map_get.min(each(start.elapsed(rt)?, count));
    Ok(in_tree == in_map && tree.len() == count)
}

/// Prints a line: the two times and their ratio.
fn print_ratio(rt: &HostRuntime, count: u64, what: &str, tree: u64, map: u64) -> io::Result<()> {
    let ratio = tree.saturating_mul(100) / map.max(1);
    println!(rt; "{count}  {what:<6}  {tree:>7}  {map:>6}  {}.{:02}", ratio / 100, ratio % 100)?;
    Ok(())
}

fn main(rt: HostRuntime) -> io::Result<()> {
    println!(rt; "keys    what    tree ns  map ns  tree / map")?;
    for count in [131_072, 262_144, 524_288] {
        let mut times = Times {
            insert: u64::MAX,
            put: u64::MAX,
            map_insert: u64::MAX,
            write: u64::MAX,
            map_write: u64::MAX,
            get: u64::MAX,
            map_get: u64::MAX,
        };
        for _ in 0..3 {
            if !fill_times(&rt, count, &mut times)? {
                println!(rt; "the two differ, or are out of memory")?;
            }
        }
        print_ratio(&rt, count, "insert", times.insert, times.map_insert)?;
        print_ratio(&rt, count, "put", times.put, times.map_insert)?;
        print_ratio(&rt, count, "get", times.get, times.map_get)?;
        print_ratio(&rt, count, "write", times.write, times.map_write)?;
    }
    Ok(())
}
END
cd crates/tree_bench
rt run
