#!/usr/bin/env python3
"""check.py CRATE FLAGS..: checks a crate of the copy of the repository in this folder over libraries where it was given some, and over sources where none is kept.

So a crate can be worked on before those below it are proved: run give.py first. Most of a run over many sources is the front end. With
`--only PATH` the functions of those sources that are called are checked too. The flags are those of `rattle check`. It calls parts of `rt`
itself, so it goes with the kit that it was written for.
"""
import os
import subprocess
import sys
import tempfile

from kit import rt

KIT = rt.KIT
crate = next(it for it in rt.rtlib.crates_below(os.getcwd()) if it.name == sys.argv[1])
below, built = crate.below(), set()
for dep in below:
    if rt.rtlib.text_of(f"{dep.folder}/out/rlib/stamp") == dep.stamp() and built.issuperset(it.name for it in dep.below()):
        built.add(dep.name)

words = ["--crate-name", crate.name, "src/main.rt" if crate.is_program else "src/lib.rt"]
for name in sorted({"core", *crate.of_kit, *[it for dep in below for it in dep.of_kit]}):
    words += ["--extern", f"{name}={KIT}/rlibs/{name}.rlib"]
words += ["-L", f"dependency={KIT}/rlibs"]
for dep in below:
    if dep.name in built:
        words += ["--extern", f"{dep.name}={dep.rlib}", "-L", f"dependency={os.path.dirname(dep.rlib)}"]
    else:
        uses = dict.fromkeys(["core", *dep.of_kit, *[it.name for it in dep.deps]])
        words += ["--lib", f"{dep.name}:{','.join(uses)}={dep.folder}/src/lib.rt"]
kept = os.path.join(tempfile.gettempdir(), "checked", f"{os.path.basename(os.getcwd())}-{crate.name}")
os.makedirs(kept, exist_ok=True)
words += ["--antt-project", f"{KIT}/rattle/logic/antt-project.json", "--logic-built", f"{KIT}/logic_built"]
words += ["--incremental", kept, "--jobs", "1", "--links", f"{crate.name}=", *sys.argv[2:]]
print("over sources:", *[dep.name for dep in below if dep.name not in built], flush=True)
sys.exit(subprocess.call([f"{KIT}/bin/rattle", "check", *words], cwd=crate.folder))
