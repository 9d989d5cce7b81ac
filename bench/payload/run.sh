#!/bin/bash
# Times the facts of payloads of 1, 2 and 4 MB beside serde_json, which reads the same text alone:
# lists of many objects, with ids and without, an object of many aliases, objects 60 deep, many objects
# that meet in one id with equal values, and one long text. It says of each number of facts whether it
# is the expected one. A program reads a text, or gathers its facts, as often as its arguments say, each
# time from the beginning, and takes the time of each by the clock. Told is the least of eight times in
# each of three runs, over all sizes, and of 25 where none takes 50 milliseconds; and the first time of a
# run, which has its memory from the system, as the least of the runs. It prints how many times as long each
# size takes as the one before, and the last as the first. `facts / reading` is the time for the facts, of
# a text that was read, as a
# ratio to that for the reading; what either has made is dropped within its time. Most memory is that of
# a run that does it once. The program is made in a folder of its own outside the repository, where the
# crates that it stands on are proved first. Instead, a program may be named that was made so: run.sh
# PROGRAM. With KEEP=PATH the program is left there. With COUNT=1 it counts instructions by valgrind in
# place of times, of one reading and of one gathering of the facts after it.
set -eu
here=$(cd "$(dirname "$0")" && pwd)
repository=$(cd "$here/../.." && pwd)
folder=$(mktemp -d)
trap 'rm -rf "$folder"' EXIT
program=${1:+$(realpath "$1")}
cd "$folder"

# Makes the program from the crates that `facts` stands on, as they are committed. Libraries that are proved in the repository's out/ are
# taken along; the others are proved first.
make_program() {
    git clone -q "$repository" repo
    cd repo
    python3 "$here/../../tools/gate/cut.py" store_norm
    for crate in crates/*; do
        if [ -d "$repository/$crate/out/rlib" ]; then
            mkdir "$crate/out"
            cp -r "$repository/$crate/out/rlib" "$crate/out/rlib"
        fi
    done
    rt new crates/payload_bench start_io > /dev/null
    rm -rf crates/payload_bench/{src,specs,proofs,stdin,stdout,BUILD.bazel}
    mkdir crates/payload_bench/src
    echo "payload_bench: store_norm plan_ir constant_values gql_ast store_model store_record gql_plain serde_json" >> crates.txt
    cat > crates/payload_bench/src/main.rt
    (cd crates/payload_bench && rt run -- many 1 read /dev/null 0)
    program=$folder/repo/crates/payload_bench/out/payload_bench
    cd "$folder"
    if [ -n "${KEEP:-}" ]; then
        cp "$program" "$KEEP"
    fi
}

if [ -z "$program" ]; then
    make_program <<'END'
//! Reads a payload, and gathers its facts, as far as the arguments say.
#![tactic(auto)]

use constant_values::Env;
use gql_ast::{Argument, Arguments, ValueTree};
use gql_plain::{Ids, NoMemory, Pairs, Words};
use plan_ir::{NormalList, NormalPlan, NormalStep, NormalSteps};
use serde_json::Value;
use std::alloc::Global;
use std::time::{Duration, Instant};
use std::{env, fs, io};
use store_model::Facts;
use store_norm::{facts, is_formed};

/// A leaf under a response key, with an argument where a number is given.
fn leaf(
    alloc: Global,
    response: &str,
    name: &str,
    number: Option<i64>,
) -> Result<NormalStep, NoMemory> {
    let mut arguments = Arguments::new(alloc);
    if let Some(number) = number {
        arguments.push(Argument {
            name: Words::new(alloc, "n")?,
            value: ValueTree::Int(number),
        })?;
    }
    Ok(NormalStep::Leaf {
        response: Words::new(alloc, response)?,
        name: Words::new(alloc, name)?,
        arguments,
    })
}

/// A field of users, which have ids.
fn users(
    alloc: Global,
    name: &str,
    many: bool,
    steps: NormalSteps,
) -> Result<NormalStep, NoMemory> {
    let mut types = Vec::new(alloc);
    types.push(Words::new(alloc, "User")?)?;
    let types = Ids::sort(types)?;
    Ok(NormalStep::Object {
        response: Words::new(alloc, name)?,
        name: Words::new(alloc, name)?,
        arguments: Arguments::new(alloc),
        many,
        identified: types.copy()?,
        types,
        open_type: false,
        connection: None,
        child: NormalPlan { steps },
    })
}

/// `id age name`
fn user_steps(alloc: Global) -> Result<NormalSteps, NoMemory> {
    let mut steps = NormalList::new(alloc);
    for name in ["id", "age", "name"] {
        steps.push(leaf(alloc, name, name, None)?)?;
    }
    steps.share(alloc)
}

/// `id`, and `count` aliases of a field, each with an argument of its own or none.
fn alias_steps(alloc: Global, count: i64, are_many: bool) -> Result<NormalSteps, NoMemory> {
    let mut steps = NormalList::new(alloc);
    steps.push(leaf(alloc, "id", "id", None)?)?;
    for number in 0..count {
        let response = format!(in alloc; "a{number}")?;
        let argument = if are_many { Some(number) } else { None };
        steps.push(leaf(alloc, response.as_str(), "name", argument)?)?;
    }
    steps.share(alloc)
}

/// `id friend{id friend{..}}`, so deep.
fn deep_steps(alloc: Global, depth: u64) -> Result<NormalSteps, NoMemory> {
    let mut below = NormalSteps::none(alloc)?;
    for _ in 0..depth {
        let mut steps = NormalList::new(alloc);
        steps.push(leaf(alloc, "id", "id", None)?)?;
        steps.push(users(alloc, "friend", false, below)?)?;
        below = steps.share(alloc)?;
    }
    Ok(below)
}

/// The plan of that name.
fn plan_of(alloc: Global, name: &str, count: i64) -> Result<NormalPlan, NoMemory> {
    let mut steps = NormalList::new(alloc);
    match name {
        "deep" => steps.push(users(alloc, "team", true, deep_steps(alloc, 60)?)?)?,
        "aliases" => steps.push(users(alloc, "me", false, alias_steps(alloc, count, true)?)?)?,
        "same" => steps.push(users(alloc, "me", false, alias_steps(alloc, count, false)?)?)?,
        _ => {
            steps.push(users(alloc, "team", true, user_steps(alloc)?)?)?;
            steps.push(users(alloc, "me", false, user_steps(alloc)?)?)?;
        }
    }
    Ok(NormalPlan {
        steps: steps.share(alloc)?,
    })
}

/// How many facts, the names of types counted.
fn count_of(facts: &Facts) -> u64 {
    let mut count: u64 = 0;
    for row in facts.facts.rows() {
        count = count.wrapping_add(1).wrapping_add(row.fields.len() as u64);
    }
    count
}

/// How many facts a payload says; none where it is refused, or memory is short.
fn said(alloc: Global, plan: &NormalPlan, response: &Value) -> Result<u64, NoMemory> {
    let env = Env {
        root: Words::new(alloc, "Query")?,
        values: Pairs::new(alloc),
    };
    if !is_formed(plan) {
        return Ok(0);
    }
    match facts(alloc, plan, &env, response) {
        Ok(facts) => Ok(count_of(&facts)),
        Err(_) => Ok(0),
    }
}

/// The first and the least of some times, in nanoseconds, and what was found.
#[derive(Drop)]
struct Times {
    first: u64,
    least: u64,
    found: u64,
}

impl Times {
    fn new() -> Times {
        Times {
            first: 0,
            least: u64::MAX,
            found: 0,
        }
    }

    fn put(&mut self, took: Duration, found: u64) {
        let took = u64::try_from(took.as_nanos()).unwrap_or(u64::MAX);
        if self.first == 0 {
            self.first = took;
        }
        self.least = self.least.min(took);
        self.found = found;
    }
}

/// Reads a payload `rounds` times.
fn read_times(rt: &HostRuntime, bytes: &[u8], rounds: u64) -> io::Result<Times> {
    let mut times = Times::new();
    for _ in 0..rounds {
        let start = Instant::now(rt)?;
        let response = Value::from_slice(rt.alloc(), bytes);
        let found = u64::from(response.is_ok());
        drop(response);
        times.put(start.elapsed(rt)?, found);
    }
    Ok(times)
}

/// Gathers the facts of a payload `rounds` times.
fn facts_times(
    rt: &HostRuntime,
    plan: &NormalPlan,
    bytes: &[u8],
    rounds: u64,
) -> io::Result<Times> {
    let mut times = Times::new();
    let Ok(response) = Value::from_slice(rt.alloc(), bytes) else {
        return Ok(times);
    };
    for _ in 0..rounds {
        let start = Instant::now(rt)?;
        let found = said(rt.alloc(), plan, &response).unwrap_or(0);
        times.put(start.elapsed(rt)?, found);
    }
    Ok(times)
}

fn main(rt: HostRuntime) -> io::Result<()> {
    let alloc = rt.alloc();
    let mut words = env::args(&rt)?.skip(1);
    let Some(name) = words.next() else {
        return Ok(());
    };
    let Some(count) = words.next() else {
        return Ok(());
    };
    let Some(mode) = words.next() else {
        return Ok(());
    };
    let Some(path) = words.next() else {
        return Ok(());
    };
    let Some(rounds) = words.next() else {
        return Ok(());
    };
    let count = count.as_str().parse::<i64>().unwrap_or(0);
    let rounds = rounds.as_str().parse::<u64>().unwrap_or(0);
    let bytes = fs::read(&rt, path.as_str())?;
    match plan_of(alloc, name.as_str(), count) {
        Ok(plan) => {
            let times = if mode.as_str() == "facts" {
                facts_times(&rt, &plan, &bytes, rounds)?
            } else {
                read_times(&rt, &bytes, rounds)?
            };
            println!(rt; "{} {} {}", times.found, times.first, times.least)
        }
        Err(_) => println!(rt; "out of memory"),
    }
}
END
fi

cat > count.py <<'END'
import os, re, subprocess, sys
from payloads import PAYLOADS

COUNTER = ["valgrind", "--tool=cachegrind", "--cache-sim=no", "--cachegrind-out-file=/dev/null", "--log-file=counted"]

def counted(plan, count, mode, rounds):
    """What a run found, and its instructions in millions."""
    words = [*COUNTER, program, plan, str(count), mode, f"{count}.json", str(rounds)]
    said = subprocess.check_output(words, stdin=subprocess.DEVNULL, text=True).split()
    with open("counted") as file:
        refs = re.search(r"I +refs: +([0-9,]+)", file.read())
    return said[0], int(refs[1].replace(",", "")) / 1e6

program, payloads, wrong = sys.argv[1], sys.argv[2], False
print("payload                   count    MB  million: reading    facts  facts / reading  times the half  answer")
for row, (name, plan, _, counts) in enumerate(PAYLOADS):
    half = None
    for count in counts:
        due = subprocess.check_output([sys.executable, payloads, str(row), str(count), f"{count}.json"], text=True).strip()
        (_, start), (_, read), (said, whole) = counted(plan, count, "read", 0), counted(plan, count, "read", 1), counted(plan, count, "facts", 1)
        reading, facts = read - start, whole - read
        wrong = wrong or said != due
        answer = "as expected" if said == due else f"WRONG: {said}, due {due}"
        grown = f"{facts / half:.2f}" if half else ""
        print(f"{name:22} {count:8} {os.path.getsize(f'{count}.json') / 1e6:5.1f} {reading:17.1f} {facts:8.1f} {facts / reading:16.2f} {grown:>15}  {answer}", flush=True)
        half = facts
        os.remove(f"{count}.json")
sys.exit(wrong)
END
cat > measure.py <<'END'
import os, subprocess, sys
from payloads import PAYLOADS

# Times below 50 milliseconds wander most with what else the machine does
RUNS, MOST_RUNS, SHORT, ROUNDS, MODES = 3, 25, 50, 8, ("read", "facts")

def run(plan, count, mode, rounds):
    """What a run found, its first and its least time in milliseconds, and its most memory in MiB."""
    with open("answer", "w+b") as answer:
        words = [program, plan, str(count), mode, f"{count}.json", str(rounds)]
        child = subprocess.Popen(words, stdin=subprocess.DEVNULL, stdout=answer)
        _, code, usage = os.wait4(child.pid, 0)
        answer.seek(0)
        said = answer.read().decode().split()
    if code or len(said) != 3:
        sys.exit(f"{plan} {count} {mode}: status {code}, {said}")
    return said[0], int(said[1]) / 1e6, int(said[2]) / 1e6, usage.ru_maxrss / 1024

program, payloads, wrong = sys.argv[1], sys.argv[2], False
print("payload                   count    MB  reading ms  facts ms  facts / reading  times the half  first  first: reading, facts, ratio, times the half, first  peak MiB  of reading  answer")
for row, (name, plan, _, counts) in enumerate(PAYLOADS):
    due, other, least, first, most = {}, {}, {}, {}, {}
    for count in counts:
        # By a process of its own: a child's most memory begins at that of its parent
        due[count] = subprocess.check_output([sys.executable, payloads, str(row), str(count), f"{count}.json"], text=True).strip()
    for done in range(MOST_RUNS):
        if done >= RUNS and max(least.values()) > SHORT:
            break
        for count in counts:
            for mode in MODES:
                at = count, mode
                said, began, took, _ = run(plan, count, mode, ROUNDS)
                least[at], first[at] = min(took, least.get(at, 1e9)), min(began, first.get(at, 1e9))
                if mode == "facts" and said != due[count]:
                    other[count] = f"WRONG: {said}, due {due[count]}"
    for count in counts:
        for mode in MODES:
            most[count, mode] = run(plan, count, mode, 1)[3]
    half = start = None
    for count in counts:
        now = [(of[count, "read"], of[count, "facts"]) for of in (least, first)]
        grown = [f"{new[1] / old[1]:.2f}" for new, old in zip(now, half)] if half else ["", ""]
        start = start or now
        whole = [f"{new[1] / old[1]:.2f}" for new, old in zip(now, start)] if count == counts[-1] else ["", ""]
        size = os.path.getsize(f"{count}.json") / 1e6
        wrong = wrong or count in other
        answer = other.get(count, "as expected")
        (read, took), (read_first, took_first) = now
        cells = f"{read_first:8.1f} {took_first:8.1f} {took_first / read_first:6.2f} {grown[1]:>6} {whole[1]:>6}"
        print(f"{name:22} {count:8} {size:5.1f} {read:11.1f} {took:9.1f}  {took / read:15.2f}  {grown[0]:>14} {whole[0]:>6}  {cells:>52}  {most[count, 'facts']:8.0f}  {most[count, 'read']:10.0f}  {answer}", flush=True)
        half = now
        os.remove(f"{count}.json")
sys.exit(wrong)
END
measure=measure.py
if [ -n "${COUNT:-}" ]; then
    measure=count.py
fi
PYTHONDONTWRITEBYTECODE=1 PYTHONPATH="$here" python3 "$measure" "$program" "$here/payloads.py"
