#!/bin/bash
# Times the built program on projects of 1, 2 and 4 times as many operations or fragments with a script
# of no line: the reading of the files and all rules on documents, and for a project that meets them
# also its plans. The last column says whether the answer is the expected one. Times are processor times, the least of nine rounds. Build it first:
# cd crates/relay_run && rt run -- run 10 data/schema.graphql data/q.graphql < stdin
set -eu
here=$(cd "$(dirname "$0")" && pwd)
program=$(realpath "${1:-$here/../../crates/relay_run/out/relay_run}")
folder=$(mktemp -d)
trap 'rm -rf "$folder"' EXIT
cd "$folder"

cat > measure.py <<'END_OF_SCRIPT'
import os, resource, signal, subprocess, sys
from projects import PROJECTS

LONGEST, ROUNDS = 60, 9

def run(folder):
    """The processor time of a run in that folder, its status and its answer: None in its place, if it takes too long."""
    with open("answer", "w+b") as answer:
        limit = lambda: resource.setrlimit(resource.RLIMIT_CPU, (LONGEST, LONGEST))
        words = [program, "run", "1", "s.graphql", "d.graphql"]
        child = subprocess.Popen(words, stdin=subprocess.DEVNULL, stdout=answer, cwd=folder, preexec_fn=limit)
        _, code, usage = os.wait4(child.pid, 0)
        answer.seek(0)
        said = answer.read().decode()
    status = os.waitstatus_to_exitcode(code)
    return usage.ru_utime + usage.ru_stime, status, None if status == -signal.SIGKILL else said

program = sys.argv[1]
wrong = False
print("project                count   MiB    ms  times the half  answer")
for name, schema, make, counts, due in PROJECTS:
    for count in counts:
        os.makedirs(str(count), exist_ok=True)
        open(f"{count}/s.graphql", "w").writelines(schema(count))
        open(f"{count}/d.graphql", "w").writelines(make(count))
        assert os.path.getsize(f"{count}/d.graphql") <= 2**22
    # Rounds over all sizes, so that what else the machine does meets each of them
    best, said = {}, {}
    for _ in range(ROUNDS):
        for count in counts:
            if said.get(count, "as expected").startswith("WRONG"):
                continue
            took, status, answer = run(str(count))
            best[count] = min(took, best.get(count, took))
            is_due = (status, answer) == (3 if due(count) else 0, due(count))
            said[count] = f"as expected: {answer.strip()}" if is_due else f"WRONG: status {status}, {answer}; due {due(count).strip()}"
    for count in counts:
        wrong = wrong or said[count].startswith("WRONG")
        size, half = os.path.getsize(f"{count}/d.graphql") / 2**20, best.get(count // 2)
        print(f"{name:20} {count:7}  {size:4.1f} {best[count]*1000:5.0f}  {f'{best[count]/half:.2f}' if half else '':>14}  {said[count]}", flush=True)
sys.exit(wrong)
END_OF_SCRIPT
PYTHONDONTWRITEBYTECODE=1 PYTHONPATH="$here" python3 measure.py "$program"
