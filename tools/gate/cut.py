"""cut.py CRATE..: leaves these crates of the repository in this folder, and those that they stand on without the mutants in their must-fail/."""

import os
import shutil
import sys

lines = {line.split(":")[0].split()[0]: line for line in open("crates.txt", encoding="utf-8") if ":" in line.split("#")[0]}
left, wanted = set(), sys.argv[1:]
while wanted:
    crate = wanted.pop()
    if crate in lines and crate not in left:
        left.add(crate)
        wanted += lines[crate].split(":")[1].split()
with open("crates.txt", "w", encoding="utf-8") as file:
    file.writelines(lines[crate] for crate in sorted(left))
for crate in os.listdir("crates"):
    if crate not in left:
        shutil.rmtree(f"crates/{crate}")
    elif crate not in sys.argv[1:]:
        shutil.rmtree(f"crates/{crate}/must-fail", ignore_errors=True)
