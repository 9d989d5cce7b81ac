#!/bin/bash
# Times commits with no layer live, each of a sum that is added to a field of one record, and beside them
# the same changes of std's BTreeMap from ids to records, in the same run, at 8,192, 131,072 and 524,288
# records in mixed order. A change of the map looks the record up, makes a new one with the sum, and
# inserts it. Entries and changes are made before, and are dropped within the time. Each figure is the least
# of three rounds. The program is made in a folder of its own outside the repository, where the crates that
# it stands on are proved first; libraries that are proved in the repository's out/ are taken along.
# Instead, a program may be named that was made so: commits.sh PROGRAM. With KEEP=PATH it is left there.
set -eu
here=$(cd "$(dirname "$0")" && pwd)
repository=$(cd "$here/../.." && pwd)
folder=$(mktemp -d)
trap 'rm -rf "$folder"' EXIT
program=${1:+$(realpath "$1")}
cd "$folder"

make_program() {
    git clone -q "$repository" repo
    cd repo
    python3 "$here/../../tools/gate/cut.py" store_layers
    for crate in crates/*; do
        if [ -d "$repository/$crate/out/rlib" ]; then
            mkdir "$crate/out"
            cp -r "$repository/$crate/out/rlib" "$crate/out/rlib"
        fi
    done
    rt new crates/commit_bench start_io > /dev/null
    rm -rf crates/commit_bench/{src,specs,proofs,stdin,stdout,BUILD.bazel}
    mkdir crates/commit_bench/src
    echo "commit_bench: store_layers store_source store_model store_record gql_plain" >> crates.txt
    cat > crates/commit_bench/src/main.rt
    (cd crates/commit_bench && rt run -- 1)
    program=$folder/repo/crates/commit_bench/out/commit_bench
    cd "$folder"
    if [ -n "${KEEP:-}" ]; then
        cp "$program" "$KEEP"
    fi
}

if [ -z "$program" ]; then
    make_program <<'END'
//! Times commits of layers and changes of a map side by side.
#![tactic(auto)]

use gql_plain::{Counts, Id, Name, NoMemory, Pairs, Plain, Words};
use std::alloc::Global;
use std::collections::BTreeMap;
use std::rc::Rc;
use std::time::{Duration, Instant};
use std::{env, io};
use store_layers::Layers;
use store_model::{Command, Commands, Entry, Facts};
use store_record::{Field, Record, Slot};
use store_source::{RecordSource, Versions};

/// The number that stands at a place of the mixed order: each number up to the mask, one less than
/// a power of two, stands once, and neighbours lie far apart.
fn mixed(place: u64, mask: u64) -> u64 {
    let once = place.wrapping_mul(0x9e37_79b1) & mask;
    let twice = (once ^ (once >> 7)).wrapping_mul(0x85eb_ca6b) & mask;
    twice ^ (twice >> 9)
}

fn key_texts(alloc: Global, count: u64) -> Result<Vec<String>, NoMemory> {
    let mut keys = Vec::new(alloc);
    for place in 0..count {
        let number = mixed(place, count.wrapping_sub(1));
        keys.push(format!(in alloc; "user:{number}")?)?;
    }
    Ok(keys)
}

fn entry_of(alloc: Global, command: Command) -> Result<Entry, NoMemory> {
    let mut commands = Commands::new(alloc);
    commands.push(command)?;
    Ok(Entry {
        facts: Facts::new(alloc),
        commands,
    })
}

/// A user of age 0.
fn user(alloc: Global, key: &str) -> Result<Entry, NoMemory> {
    let mut commands = Commands::new(alloc);
    commands.push(Command::Create {
        id: Id::new(alloc, key)?,
        of: Name::new(alloc, "User")?,
    })?;
    commands.push(Command::Set {
        id: Id::new(alloc, key)?,
        field: Words::new(alloc, "age")?,
        args: Pairs::new(alloc),
        value: Plain::Int(0),
    })?;
    Ok(Entry {
        facts: Facts::new(alloc),
        commands,
    })
}

/// Adds to the age of a user.
fn older(alloc: Global, key: String, by: i64) -> Result<Entry, NoMemory> {
    entry_of(
        alloc,
        Command::Add {
            id: Words::from_string(key),
            field: Words::new(alloc, "age")?,
            args: Pairs::new(alloc),
            by,
        },
    )
}

fn olders(alloc: Global, keys: Vec<String>) -> Result<Vec<Entry>, NoMemory> {
    let mut entries = Vec::new(alloc);
    let mut by: i64 = 0;
    for key in keys {
        by = by.wrapping_add(1);
        entries.push(older(alloc, key, by)?)?;
    }
    Ok(entries)
}

fn filled_layers(alloc: Global, keys: &[String]) -> Result<Layers<Versions>, NoMemory> {
    let mut steps = Counts::new();
    let mut layers = Layers::new(alloc, Versions::new(alloc))?;
    for key in keys {
        drop(layers.commit(user(alloc, key.as_str())?, &mut steps)?);
    }
    Ok(layers)
}

fn commit_all(layers: &mut Layers<Versions>, entries: Vec<Entry>) -> Result<(), NoMemory> {
    let mut steps = Counts::new();
    for entry in entries {
        drop(layers.commit(entry, &mut steps)?);
    }
    Ok(())
}

/// A sum that is added to a field of a record.
#[derive(Drop)]
struct Change {
    key: String,
    field: Words,
    by: i64,
}

fn changes(alloc: Global, keys: Vec<String>) -> Result<Vec<Change>, NoMemory> {
    let mut changes = Vec::new(alloc);
    let mut by: i64 = 0;
    for key in keys {
        by = by.wrapping_add(1);
        let field = Words::new(alloc, "age")?;
        changes.push(Change { key, field, by })?;
    }
    Ok(changes)
}

fn filled_map(alloc: Global, keys: Vec<String>) -> Result<BTreeMap<String, Rc<Record>>, NoMemory> {
    let mut map = BTreeMap::new(alloc);
    for key in keys {
        let mut row = Record::new(alloc, Name::new(alloc, "User")?);
        row.fields
            .put(Words::new(alloc, "age")?, Field::Leaf(Plain::Int(0)))?;
        map.insert(key, Rc::new(alloc, row)?)?;
    }
    Ok(map)
}

/// The age in a record.
fn age_of(row: &Record) -> i64 {
    match row.fields.get("age") {
        Some(Field::Leaf(Plain::Int(age))) => *age,
        _ => 0,
    }
}

fn make_change(
    alloc: Global,
    map: &mut BTreeMap<String, Rc<Record>>,
    change: Change,
) -> Result<(), NoMemory> {
    let Change { key, field, by } = change;
    let Some(old) = map.get(key.as_str()) else {
        return Ok(());
    };
    let sum = age_of(old).wrapping_add(by);
    let mut fields = old.fields.copy()?;
    fields.put(field, Field::Leaf(Plain::Int(sum)))?;
    let type_name = old.type_name.copy()?;
    let row = Rc::new(alloc, Record { type_name, fields })?;
    drop(map.insert(key, row)?);
    Ok(())
}

fn change_all(
    alloc: Global,
    map: &mut BTreeMap<String, Rc<Record>>,
    changes: Vec<Change>,
) -> Result<(), NoMemory> {
    for it in changes {
        make_change(alloc, map, it)?;
    }
    Ok(())
}

/// Whether all users have one age in both.
fn agree(layers: &Layers<Versions>, map: &BTreeMap<String, Rc<Record>>, keys: &[String]) -> bool {
    let mut steps = Counts::new();
    for key in keys {
        let found = layers.view().get(key.as_str(), &mut steps);
        let (Some(Slot::Alive(shared)), Some(row)) = (found, map.get(key.as_str())) else {
            return false;
        };
        if age_of(shared.get()) != age_of(row) {
            return false;
        }
    }
    true
}

/// Nanoseconds for each of `count` calls.
fn each(took: Duration, count: u64) -> u64 {
    u64::try_from(took.as_nanos()).unwrap_or(u64::MAX) / count.max(1)
}

/// The least times of one size, in nanoseconds a change.
#[derive(Drop)]
struct Times {
    commit: u64,
    map: u64,
}

/// The times of one round, and whether both hold the same.
fn round(rt: &HostRuntime, count: u64, times: &mut Times) -> io::Result<bool> {
    let alloc = rt.alloc();
    let (Ok(keys), Ok(first), Ok(second), Ok(third)) = (
        key_texts(alloc, count),
        key_texts(alloc, count),
        key_texts(alloc, count),
        key_texts(alloc, count),
    ) else {
        return Ok(false);
    };
    let (Ok(layers), Ok(map), Ok(entries), Ok(changes)) = (
        filled_layers(alloc, &keys),
        filled_map(alloc, first),
        olders(alloc, second),
        changes(alloc, third),
    ) else {
        return Ok(false);
    };
    let (mut layers, mut map) = (layers, map);
    let start = Instant::now(rt)?;
    let committed = commit_all(&mut layers, entries);
    times.commit = times.commit.min(each(start.elapsed(rt)?, count));
    let start = Instant::now(rt)?;
    let changed = change_all(alloc, &mut map, changes);
    times.map = times.map.min(each(start.elapsed(rt)?, count));
    Ok(committed.is_ok() && changed.is_ok() && agree(&layers, &map, &keys))
}

/// Prints the least times of three rounds.
fn print_times(rt: &HostRuntime, count: u64) -> io::Result<()> {
    let mut times = Times {
        commit: u64::MAX,
        map: u64::MAX,
    };
    for _ in 0..3 {
        if !round(rt, count, &mut times)? {
            return println!(rt; "{count}: no memory, or the two differ");
        }
    }
    let Times { commit, map } = times;
    let ratio = commit.saturating_mul(100) / map.max(1);
    println!(rt; "{count:>7}  {commit:>9}  {map:>6}  {}.{:02}", ratio / 100, ratio % 100)
}

/// Measures, or does nothing where a word is given, as when the program is made.
fn main(rt: HostRuntime) -> io::Result<()> {
    let mut words = env::args(&rt)?.skip(1);
    if words.next().is_some() {
        return Ok(());
    }
    println!(rt; "records  commit ns  map ns  commit / map")?;
    for count in [8_192, 131_072, 524_288] {
        print_times(&rt, count)?;
    }
    Ok(())
}
END
fi
"$program"
