#!/usr/bin/env python3
"""peaks.py [PROGRAM] [SMALL LARGE]: the most memory that scripts of SMALL and of LARGE million bytes take: 2 and 200 where they are not given.

Both scripts have the same store: one operation, one payload, and then updates of one record, so that their lines differ in number alone.
Prints for each script its bytes and lines, the most resident memory, and the time by the clock. The memory is what the system says of the process,
asked every hundredth of a second while it runs.
"""
import os
import subprocess
import sys
import tempfile
import time

HERE = os.path.dirname(os.path.realpath(__file__))
PROGRAM = f"{HERE}/../../crates/relay_run/out/relay_run"
SCHEMA = "type Query{me:User} type User{id:ID! name:String age:Int}"
DOCUMENT = "query G{me{name age}}"
BEGIN = b"""{"do":"retain","handle":"h","op":"G"}
{"do":"payload","handle":"h","response":{"data":{"me":{"id":"4","name":"Ann","age":5}}}}
"""

def update(n):
    """A line that sets a field to a text of its own."""
    return b'{"do":"update","updates":[{"set":{"id":"4","field":"name","value":"%0400d"}}]}\n' % n

def write(path, size):
    """Writes a script of at least `size` bytes, and returns how many they are, and how many lines."""
    with open(path, "wb") as file:
        done, lines = file.write(BEGIN), 2
        while done < size:
            done, lines = done + file.write(update(lines)), lines + 1
    return done, lines

def peak_of(run):
    """The most resident memory of a process until it ends, in MiB."""
    peak = 0
    while run.poll() is None:
        with open(f"/proc/{run.pid}/status", encoding="utf-8") as file:
            peak = max([peak, *(int(line.split()[1]) for line in file if line.startswith("VmHWM"))])
        time.sleep(0.01)
    return peak / 1024

def main():
    program = os.path.realpath(sys.argv[1] if len(sys.argv) > 1 else PROGRAM)
    sizes = [float(it) for it in sys.argv[2:]] or [2, 200]
    with tempfile.TemporaryDirectory(prefix="peaks-") as room:
        for name, text in (("schema.graphql", SCHEMA), ("query.graphql", DOCUMENT)):
            with open(f"{room}/{name}", "w", encoding="utf-8") as file:
                file.write(text)
        words = [program, "run", "1", f"{room}/schema.graphql", f"{room}/query.graphql"]
        for size in sizes:
            done, lines = write(f"{room}/script", size * 1e6)
            begun = time.perf_counter()
            with open(f"{room}/script", "rb") as script, open(f"{room}/out", "wb") as out:
                run = subprocess.Popen(words, stdin=script, stdout=out)
                peak = peak_of(run)
            taken = time.perf_counter() - begun
            with open(f"{room}/out", "rb") as out:
                answers = sum(1 for _ in out)
            if run.returncode or answers != lines:
                sys.exit(f"the program ended with {run.returncode} after {answers:,} answers to {lines:,} lines")
            print(f"{done:,} bytes, {lines:,} lines: at most {peak:.1f} MiB, {taken:.2f} seconds")

if __name__ == "__main__":
    main()
