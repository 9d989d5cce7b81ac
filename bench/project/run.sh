#!/bin/bash
# Times the built program on projects of 1, 2 and 4 times 10,000 types, and on a tower of interfaces of
# 1, 2 and 4 times 125,000 names, with a script of no line: the reading of the files, the rules of the
# schema and of the documents, and nothing else. Times are processor times, the least of nine rounds.
# Build it first:
# cd crates/relay_run && rt run -- run 10 data/schema.graphql data/q.graphql < stdin
set -eu
program=${1:-$(cd "$(dirname "$0")/../.." && pwd)/crates/relay_run/out/relay_run}
folder=$(mktemp -d)
trap 'rm -rf "$folder"' EXIT
cd "$folder"

cat > measure.py <<'END'
import math, os, subprocess, sys

def objects(count):
    yield "type Query{me:T0 node:Node} interface Node{id:ID! name:String}\n"
    for n in range(count):
        yield f"type T{n} implements Node{{id:ID! name:String next:T{(n + 1) % count} items(first:Int=10,after:String):[T{n}!]!}}\n"

def inputs(count):
    yield "type Query{me(in:I0):Int}\n"
    for n in range(count):
        needed = f" more:I{n + 1}!" if n + 1 < count else ""
        yield f"input I{n}{{a:Int=1 b:[Color!]=[RED]{needed}}}\n"
    yield "enum Color{RED GREEN}\n"

def refused(count):
    """The chain again, whose last type needs itself: the schema is refused for it."""
    yield "type Query{me(in:I0):Int}\n"
    for n in range(count):
        yield f"input I{n}{{a:Int=1 more:I{min(n + 1, count - 1)}!}}\n"

def lacking(count):
    """Types of one field each against an interface of as many fields: refused at the first type."""
    yield "type Query{me:Int}\n" + "interface I{" + " ".join(f"f{n}:Int" for n in range(count)) + "}\n"
    for n in range(count):
        yield f"type T{n} implements I{{f{n}:Int}}\n"

def abstract(count):
    yield "type Query{me:T0}\n"
    for n in range(count):
        yield f"interface F{n}{{a:Int}} type T{n} implements F{n}{{a:Int b:T{n}}} union U{n}=T{n}|T{(n + 1) % count}\n"

def tower(count):
    """`count` names of interfaces: each interface implements all before it, and a type implements all."""
    height = math.isqrt(2 * count)
    names = [f"I{n}" for n in range(height)]
    yield "type Query{me:T} interface I0{a:Int}\n"
    for n in range(1, height):
        yield f"interface I{n} implements {'&'.join(names[:n])}{{a:Int}}\n"
    yield f"type T implements {'&'.join(names)}{{a:Int}}\n"

def run(words, status):
    """The processor time of a run and its most memory in MiB."""
    child = subprocess.Popen(words, stdin=subprocess.DEVNULL, stdout=subprocess.DEVNULL)
    _, code, usage = os.wait4(child.pid, 0)
    assert os.waitstatus_to_exitcode(code) == status, code
    return usage.ru_utime + usage.ru_stime, usage.ru_maxrss / 1024

program = sys.argv[1]
ROUNDS = 9
print("project                count   MiB    ms  times the half  peak MiB")
for name, make, least, document, status in [("objects", objects, 10_000, "query Q{me{name next{id name}}}", 0), ("inputs in a chain", inputs, 10_000, "query Q{me}", 0),
                                            ("the last needs itself", refused, 10_000, "query Q{me}", 3), ("one field of many", lacking, 10_000, "query Q{me}", 3),
                                            ("interfaces, unions", abstract, 10_000, "query Q{me{a b{a}}}", 0), ("tower of interfaces", tower, 125_000, "query Q{me{a}}", 0)]:
    open("d.graphql", "w").write(document)
    counts = [least, 2 * least, 4 * least]
    for count in counts:
        with open(f"{count}.graphql", "w") as file:
            for line in make(count):
                if file.tell() + len(line) > 2**22 - 64: break
                file.write(line)
    # Rounds over all sizes, so that what else the machine does meets each of them
    best = {}
    for _ in range(ROUNDS):
        for count in counts:
            best[count] = min(best.get(count, (math.inf,)), run([program, "run", "10", f"{count}.graphql", "d.graphql"], status))
    for count in counts:
        (took, peak), half = best[count], best.get(count // 2)
        size = os.path.getsize(f"{count}.graphql") / 2**20
        print(f"{name:21} {count:6}  {size:4.1f}  {took*1000:5.0f}  {f'{took/half[0]:.2f}' if half else '':>14}  {peak:8.0f}", flush=True)
END
python3 measure.py "$program"
