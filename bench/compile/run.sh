#!/bin/bash
# Times the built program with the arguments `compile` on projects of 1, 2 and 4 times as many parts: the
# reading of the files, all rules, what operations and fragments become, and their lines. It says of
# each answer whether it is the expected one. Times are processor times, the least of nine rounds.
# Build it first:
# cd crates/relay_run && rt run -- run 10 data/schema.graphql data/q.graphql < stdin
set -eu
here=$(cd "$(dirname "$0")" && pwd)
program=$(realpath "${1:-$here/../../crates/relay_run/out/relay_run}")
folder=$(mktemp -d)
trap 'rm -rf "$folder"' EXIT
cd "$folder"

cat > measure.py <<'END_OF_SCRIPT'
import os, resource, shutil, subprocess, sys
from projects import PROJECTS

LONGEST, ROUNDS = 60, 9

def run(folder):
    """The processor time of a run in that folder, its most memory in MiB, its status and its answer."""
    with open("answer", "w+b") as answer:
        limit = lambda: resource.setrlimit(resource.RLIMIT_CPU, (LONGEST, LONGEST))
        words = [program, "compile", "s.graphql"] + sorted(name for name in os.listdir(folder) if name.startswith("d"))
        child = subprocess.Popen(words, stdin=subprocess.DEVNULL, stdout=answer, cwd=folder, preexec_fn=limit)
        _, code, usage = os.wait4(child.pid, 0)
        answer.seek(0)
        said = answer.read().decode()
    return usage.ru_utime + usage.ru_stime, usage.ru_maxrss / 1024, os.waitstatus_to_exitcode(code), said

program = sys.argv[1]
wrong = False
print("project                     count   MiB    ms  times the half  peak MiB  answer")
for name, schema, make, counts, files, status in PROJECTS:
    due = {}
    for count in counts:
        shutil.rmtree(str(count), ignore_errors=True)
        os.makedirs(str(count))
        sources, lines = zip(*make(count))
        open(f"{count}/s.graphql", "w").write(schema(count))
        if files:
            for n, source in enumerate(sources):
                open(f"{count}/d{n:05}.graphql", "w").write(source)
        else:
            open(f"{count}/d.graphql", "w").writelines(sources)
        due[count] = status, "".join(lines)
    # Rounds over all sizes, so that what else the machine does meets each of them
    best, said = {}, {}
    for _ in range(ROUNDS):
        for count in counts:
            if said.get(count, "as expected") != "as expected":
                continue
            took, peak, *answer = run(str(count))
            best[count] = min((took, peak), best.get(count, (took, peak)))
            said[count] = "as expected" if tuple(answer) == due[count] else f"WRONG: status {answer[0]}, {answer[1][:200]}; due {due[count][1][:200]}"
    for count in counts:
        wrong = wrong or said[count] != "as expected"
        (took, peak), half = best[count], best.get(count // 2)
        size = sum(os.path.getsize(f"{count}/{file}") for file in os.listdir(str(count))) / 2**20
        print(f"{name:25} {count:7}  {size:4.1f} {took*1000:5.0f}  {f'{took/half[0]:.2f}' if half else '':>14}  {peak:8.0f}  {said[count]}", flush=True)
sys.exit(wrong)
END_OF_SCRIPT
PYTHONDONTWRITEBYTECODE=1 PYTHONPATH="$here" python3 measure.py "$program"
