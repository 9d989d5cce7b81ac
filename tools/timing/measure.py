"""Times the program named first on the rows of a bench: measure.py PROGRAM [WORD..]; with more arguments those rows alone whose names have one of them.

The rows stand in rows.py of the bench. Times are processor times, the least of some rounds over all sizes. It says of each script
whether its last line is the expected one. Columns: the whole time; what is left of it where another script's time is subtracted; how
many times what is left at the size before; microseconds for each part; the time of what it is compared with, and the ratio to it.

With COUNT=1 it counts instructions by valgrind in place of times, once: millions where milliseconds stand, thousands for microseconds,
and no memory."""

import os, re, resource, subprocess, sys, traceback
from rows import ROWS
from scripts import BUFFER, SCHEMA

COUNTS = "COUNT" in os.environ
LONGEST, ROUNDS = (3000, 1) if COUNTS else (300, int(os.environ.get("ROUNDS", "5")))
COUNTER = ["valgrind", "--tool=cachegrind", "--cache-sim=no", "--cachegrind-out-file=/dev/null", "--log-file=counted"]

def timed(words, script=os.devnull):
    """The processor time of a run, its most memory in MiB, and its status. Its last line is put into the file `last`. Where instructions
    are counted they stand for nanoseconds."""
    with open(script, "rb") as lines, open("answer", "wb") as answer:
        limit = lambda: resource.setrlimit(resource.RLIMIT_CPU, (LONGEST, LONGEST))
        child = subprocess.Popen((COUNTER if COUNTS else []) + words, stdin=lines, stdout=answer, preexec_fn=limit)
        _, code, usage = os.wait4(child.pid, 0)
    with open("last", "wb") as last:
        subprocess.call(["tail", "-n", "1", "answer"], stdout=last)
    if COUNTS:
        with open("counted") as said:
            counted = re.search(r"I +refs: +([0-9,]+)", said.read())
        return int(counted[1].replace(",", "")) / 1e9, 0, os.waitstatus_to_exitcode(code)
    return usage.ru_utime + usage.ru_stime, usage.ru_maxrss / 1024, os.waitstatus_to_exitcode(code)

def head_of(path):
    with open(path) as file:
        return file.read(200).rstrip("\n")

def put(folder, make, count):
    """Writes a script, its documents and its last line into a folder, by a process of its own: a child's most memory begins at that of
    its parent."""
    os.makedirs(folder, exist_ok=True)
    child = os.fork()
    if child == 0:
        try:
            documents, lines, due = make(count)
            with open(f"{folder}/d.graphql", "w") as file:
                file.write(documents)
            with open(f"{folder}/script", "w") as file:
                file.writelines(f"{line}\n" for line in lines)
            with open(f"{folder}/due", "w") as file:
                file.write(f"{due}\n")
        except BaseException:
            traceback.print_exc()
            os._exit(1)
        os._exit(0)
    if os.waitpid(child, 0)[1] != 0:
        sys.exit(f"the script in {folder} was not made")

def run(folder, status):
    """The processor time of a script, its most memory, and what is wrong with its answer."""
    words = [program, "run", str(BUFFER), "s.graphql", f"{folder}/d.graphql"]
    took, peak, ended = timed(words, f"{folder}/script")
    is_due = ended == status and subprocess.call(["cmp", "-s", "last", f"{folder}/due"]) == 0
    return took, peak, "" if is_due else f"WRONG: status {ended}, {head_of('last')}; expected {head_of(f'{folder}/due')}"

def measured(row):
    """For each size: the least times by what was run, the peak, and what was wrong."""
    best, peaks, wrongs = {}, {}, {}
    for count in row.counts:
        put(f"{count}", row.make, count)
        if row.without:
            put(f"{count}-without", row.without, count)
    for _ in range(ROUNDS):
        # Rounds over all sizes, so that what else the machine does meets each of them
        for count in row.counts:
            if wrongs.get(count):
                continue
            took, peak, wrong = run(f"{count}", row.status)
            keep(best, (count, "whole"), took)
            peaks[count], wrongs[count] = max(peak, peaks.get(count, 0)), wrong
            if row.without:
                took, _, wrong = run(f"{count}-without", row.without_status)
                keep(best, (count, "without"), took)
                wrongs[count] = wrongs[count] or wrong
            for at, words in enumerate(row.beside(count) if row.beside else ()):
                took, _, ended = timed([it.format(count=count) for it in words])
                keep(best, (count, at), took)
                wrongs[count] = wrongs[count] or (f"WRONG: status {ended}" if ended else "")
    return best, peaks, wrongs

def keep(best, key, took):
    best[key] = min(took, best.get(key, took))

def told(row):
    """Prints the lines of a row; whether an answer was wrong."""
    best, peaks, wrongs = measured(row)
    before = None
    for count in row.counts:
        whole, off = best[count, "whole"], best.get((count, "without"), 0)
        left, held = whole - off, (best.get((count, 0), 0) - best.get((count, 1), 0)) / row.beside_times
        size = os.path.getsize(f"{count}/script") / 2**20
        cells = [f"{row.name:34}", f"{count:8}", f"{size:5.1f}", f"{whole*1000:6.0f}", f"{left*1000:7.1f}" if row.without else " " * 7,
                 f"{left/before:6.2f}" if before and before > 0.0005 else " " * 6, f"{left*1e6/row.parts(count):9.2f}" if row.parts else " " * 9,
                 f"{held*1000:7.2f}" if row.beside else " " * 7, f"{left/held:6.2f}" if held > 0.00002 else " " * 6, f"{peaks[count]:5.0f}"]
        print(" ".join(cells), wrongs[count] or "as expected", flush=True)
        before = left
    return any(wrongs.values())

def load():
    return " ".join(open("/proc/loadavg").read().split()[:3])

if __name__ == "__main__":
    program, words = sys.argv[1], sys.argv[2:]
    open("s.graphql", "w").write(SCHEMA)
    print(f"load {load()}, least of {ROUNDS} rounds")
    some, each = ("M", "k") if COUNTS else ("ms", "us")
    print(f"{'script':34} {'count':>8} {'MiB':>5} {some:>6} {some + ' left':>7} {'grown':>6} {each + ' each':>9} {'beside':>7} {'ratio':>6} {'peak':>5} answer")
    wrong = [told(row) for row in ROWS if not words or any(word in row.name for word in words)]
    print(f"load {load()}")
    sys.exit(any(wrong))
