#!/usr/bin/env python3
"""chain.py FOLDER [DONE..]: runs `rt ci NAME` for every crate of the repository in this folder, those of the longest way to the top first.

A proof starts as soon as the crates below it have passed. At most as many run at once as the file `slots` in FOLDER/../chain.state says (8 where there
is none, and four more for crates that are urgent). The crates with the longest way before them take whatever processors are idle and come first
at each of them, the first of all before the others; the rest get one, and what is left. Words in the file `hold` keep crates back, those in
`urgent` come first, those in `calm` last, and a crate that failed is tried again once its name stands in `retry`. Crates that are named after
the folder count as passed. What happens is written into `log` there, what each crate said in `said/NAME`. With mutants in must-fail/ `rt ci` tries those of all crates below a crate first, so take the `must-fail/` folders away in a copy of the repository, and try the mutants in another.
It wants a kit that keeps what `rt ci NAME` passed; where none does, `rt ci` alone is the gate.
"""
import glob
import os
import subprocess
import sys
import time

from kit import want_kept

ROOT = os.path.abspath(sys.argv[1])
HERE = os.path.join(os.path.dirname(ROOT), "chain.state")
# processor minutes, where the size of a crate does not show them
COSTS = {"gql_plain": 4.5, "relay_dirs": 6.5, "plan_ir": 6, "plan_expand": 15, "store_norm": 8, "line_engine": 11, "relay_top": 14}
COSTS |= {"store_tests": 15, "plan_tests": 13, "engine_tests": 18, "run_tests": 12, "rule_tests": 20, "text_tests": 9, "norm_tests": 5, "source_tests": 6, "merge_tests": 6}

def crates():
    """The crates below each crate."""
    with open(f"{ROOT}/crates.txt", encoding="utf-8") as file:
        lines = [line.split("#")[0].split(":") for line in file]
    below = {line[0].split()[0]: line[1].split() for line in lines if len(line) == 2}
    return {name: [it for it in names if it in below] for name, names in below.items()}

def size(name, folders):
    """The bytes of a crate's files in these folders."""
    files = [it for folder in folders for it in glob.glob(f"{ROOT}/crates/{name}/{folder}/**", recursive=True)]
    return sum(os.path.getsize(it) for it in files if os.path.isfile(it))

def cost(name):
    """About how many processor minutes a crate takes."""
    return COSTS.get(name) or 0.7 + size(name, ["src"]) / 15000 + size(name, ["specs", "proofs"]) / 60000

def words(file):
    """The words of a file, none where it is not there."""
    try:
        with open(f"{HERE}/{file}", encoding="utf-8") as it:
            return it.read().split()
    except OSError:
        return []

def tell(*said):
    """Puts a line into the log."""
    with open(f"{HERE}/log", "a", encoding="utf-8") as file:
        print(f"{(time.time() - BEGUN) / 60:6.1f}", *said, file=file)

def rank(process, value):
    """Sets the share of the processors that a run gets: -20 is the most, 19 the least."""
    try:
        with open(f"/proc/{process.pid}/autogroup", "w", encoding="utf-8") as file:
            file.write(str(value))
    except OSError:
        pass

def start(name, is_urgent):
    """Starts the run of a crate."""
    jobs = {} if is_urgent else {"RT_JOBS": "1"}
    with open(f"{HERE}/said/{name}", "w", encoding="utf-8") as said:
        tell("start", name, "" if is_urgent else "(one processor)")
        return subprocess.Popen(["rt", "ci", name], cwd=ROOT, stdout=said, stderr=subprocess.STDOUT, env={**os.environ, **jobs}, start_new_session=True)

def main():
    below = crates()
    above = {name: [it for it in below if name in below[it]] for name in below}
    ways = {}
    def way(name):
        if name not in ways:
            ways[name] = cost(name) + max([way(it) for it in above[name]], default=0)
        return ways[name]
    passed, failed, running = set(sys.argv[2:]), set(), {}
    while len(passed) < len(below):
        again = set(words("retry"))
        if again:
            failed -= again
            os.remove(f"{HERE}/retry")
        longest = max(way(it) for it in below if it not in passed)
        urgent = lambda name: way(name) > 0.7 * longest or name in words("urgent")
        ready = [it for it in below if it not in passed | failed | set(running) | set(words("hold")) and passed.issuperset(below[it])]
        room = int((words("slots") or ["8"])[0])
        for name in sorted(ready, key=way, reverse=True):
            if len(running) < room or urgent(name) and len(running) < room + 4:
                running[name] = start(name, urgent(name))
        first = max(running, key=way, default="")
        for name, process in running.items():
            rank(process, 8 if name in words("calm") or not urgent(name) else -20 if name == first else -15)
        time.sleep(2)
        for name in [it for it in running if running[it].poll() is not None]:
            code = running.pop(name).returncode
            (failed if code else passed).add(name)
            tell("FAILED" if code else "passed", name)
        if not running and not ready and not words("hold") and failed:
            sys.exit(f"failed: {' '.join(sorted(failed))}")

want_kept()
os.makedirs(f"{HERE}/said", exist_ok=True)
BEGUN = time.time()
main()
