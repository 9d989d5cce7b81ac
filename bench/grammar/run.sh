#!/bin/bash
# Times parse_document and parse_schema on generated texts of 1, 2 and 4 MiB, beside `wc` on the same
# file, and prints the peak memory. Times are processor times, the least of nine rounds. The program is
# made and run in a folder of its own outside the repository, where the crates that it stands on are
# proved first.
set -eu
repository=$(cd "$(dirname "$0")/../.." && pwd)
folder=$(mktemp -d)
trap 'rm -rf "$folder"' EXIT

for crate in gql_plain gql_lex gql_ast gql_syntax gql_parse gql_sdl; do
    mkdir -p "$folder/crates/$crate"
    for part in src specs proofs; do
        cp -r "$repository/crates/$crate/$part" "$folder/crates/$crate/$part"
    done
done
grep -E '^(gql_plain|gql_lex|gql_ast|gql_syntax|gql_parse|gql_sdl):' "$repository/crates.txt" > "$folder/crates.txt"
echo 'Handles allowed: none.' > "$folder/HANDLES"
cd "$folder"
rt new crates/grammar_bench start_io > /dev/null
rm -rf crates/grammar_bench/{src,specs,proofs,stdin,stdout}
mkdir crates/grammar_bench/src
echo 'grammar_bench: gql_parse gql_sdl gql_syntax gql_lex gql_ast gql_plain' >> crates.txt

cat > crates/grammar_bench/src/main.rt <<'END'
//! Reads one text, and prints how many nodes it has.
#![tactic(auto)]

use gql_parse::parse_document;
use gql_sdl::parse_schema;
use std::alloc::Global;
use std::{env, fs, io};

fn document_nodes(alloc: Global, bytes: &[u8]) -> usize {
    if bytes.len() > 1 << 30 {
        return 0;
    }
    match parse_document(alloc, 0, bytes) {
        Ok(placed) => placed.places.len(),
        Err(_) => 0,
    }
}

fn schema_nodes(alloc: Global, bytes: &[u8]) -> usize {
    if bytes.len() > 1 << 30 {
        return 0;
    }
    match parse_schema(alloc, 0, bytes) {
        Ok(placed) => placed.places.len(),
        Err(_) => 0,
    }
}

fn main(rt: HostRuntime) -> io::Result<()> {
    let alloc = rt.alloc();
    for word in env::args(&rt)?.skip(1) {
        let bytes = fs::read(&rt, word.as_str())?;
        let nodes = if word.as_str().ends_with(".graphqls") {
            schema_nodes(alloc, &bytes)
        } else {
            document_nodes(alloc, &bytes)
        };
        println!(rt; "{nodes} nodes")?;
    }
    Ok(())
}
END
(cd crates/grammar_bench && rt run > /dev/null)

cat > measure.py <<'END'
import os, subprocess

def document(kind, size):
    parts, total, n = [], 0, 0
    while total < size:
        if kind == "fields":
            part = f"query Q{n}($first: Int = 10) {{ me {{ id name friends(first: $first, after: null) {{ edges {{ node {{ name }} }} }} }} }}\n"
        elif kind == "strings":
            text = "text with \\u0041 and \\n in it " * 12
            part = f'query S{n} {{ search(text: "{text}", more: """\n    a block\n      of lines\n    """) {{ id }} }}\n'
        elif kind == "comments":
            part = f"# a comment on operation {n}, which goes on to the end of the line and says nothing at all\nquery C{n} {{ a }}\n"
        else:
            part = f"query D{n} {{ " + "a { " * 59 + "b" + " }" * 59 + " }\n"
        parts.append(part); total += len(part); n += 1
    return "".join(parts)

def schema(kind, size):
    parts, total, n = ["type Query { a: Int }\n"], 0, 0
    while total < size:
        part = f'"""\nThe type {n}.\n"""\ntype T{n} implements Node @deprecated {{\n  "its id"\n  id: ID!\n  items(first: Int = 10, after: String): [[T{n}!]!]!\n}}\n'
        parts.append(part); total += len(part); n += 1
    return "".join(parts)

def run(words):
    """The processor time of a run and its most memory in MiB."""
    child = subprocess.Popen(words, stdout=subprocess.DEVNULL)
    _, status, usage = os.wait4(child.pid, 0)
    assert status == 0
    return usage.ru_utime + usage.ru_stime, usage.ru_maxrss / 1024

program = os.path.abspath("crates/grammar_bench/out/grammar_bench")
SIZES, ROUNDS = [1, 2, 4], 9
print("text               MiB    ms  times the half    wc ms  ratio  peak MiB")
for name, make, kind, ending in [("fields", document, "fields", ".graphql"), ("strings", document, "strings", ".graphql"),
                                 ("comments", document, "comments", ".graphql"), ("60 deep", document, "deep", ".graphql"),
                                 ("schema", schema, "schema", ".graphqls")]:
    for mebibytes in SIZES:
        open(f"text{mebibytes}{ending}", "w").write(make(kind, mebibytes * 2**20 - 1024))
    # Rounds over all sizes, so that what else the machine does meets each of them
    best, counted = {}, {}
    for _ in range(ROUNDS):
        for mebibytes in SIZES:
            path = f"text{mebibytes}{ending}"
            best[mebibytes] = min(best.get(mebibytes, (60, 0)), run([program, path]))
            counted[mebibytes] = min(counted.get(mebibytes, (60, 0)), run(["wc", path]))
    for mebibytes in SIZES:
        (took, peak), (count, _), half = best[mebibytes], counted[mebibytes], best.get(mebibytes // 2)
        more = f"{took/half[0]:.2f}" if half else ""
        print(f"{name:17}  {mebibytes:4}  {took*1000:6.0f}  {more:>14}  {count*1000:7.0f}  {took/count:5.1f}  {peak:8.0f}", flush=True)
END
python3 measure.py
