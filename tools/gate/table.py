"""table.py RECORDS..: the processor minutes of each crate's proof, tests and mutants, from what watch.py wrote."""

import collections
import sys

took = collections.defaultdict(lambda: collections.defaultdict(float))
mutants = collections.defaultdict(lambda: collections.defaultdict(float))
peak = collections.defaultdict(int)
for path in sys.argv[1:]:
    for line in open(path, encoding="utf-8"):
        crate, phase, mutant, seconds, memory = line.rstrip("\n").split("\t")
        took[crate][phase] += float(seconds) / 60
        peak[crate] = max(peak[crate], int(memory))
        if phase == "mutant":
            mutants[crate][mutant] += float(seconds) / 60

phases = ("proof", "tests", "seed", "mutant")
print("| crate | proof | tests | check after the mutants | mutants | the dearest mutant | peak MiB |")
print("|---|---|---|---|---|---|---|")
for crate in sorted(took):
    row = [f"{took[crate][phase]:.1f}" if phase in took[crate] else "" for phase in phases]
    dearest = max(mutants[crate], key=mutants[crate].get, default="")
    said = f"{dearest}, {mutants[crate][dearest]:.1f}" if dearest else ""
    row[3] += f" ({len(mutants[crate])})" if mutants[crate] else ""
    print(f"| {crate} | {' | '.join(row)} | {said} | {peak[crate]} |")
sums = [sum(it[phase] for it in took.values()) for phase in phases]
print(f"| all | {' | '.join(f'{it:.0f}' for it in sums)} | {sum(sums):.0f} in all | |")
