#!/usr/bin/env python3
"""give.py [FOLDER LOG]: gives the copy of the repository in this folder libraries that were proved, lowest first.

A check in a copy that has none proves what lies below it again. A kit that keeps results has them on this machine. Where a kit keeps none, they
are those that a run of `rt ci` in FOLDER, another copy, has proved so far by what it printed into LOG, as long as the sources are the same. It
calls parts of `rt` itself.
"""
import filecmp
import os
import re
import shutil
import sys

from kit import KEEPS, rt

def kept_of(crates):
    """What gives a crate its library, and says whether there was one, from what the kit keeps."""
    kept = rt.Kept(crates)
    return lambda crate: kept.give(crate, False, kept.key(crate)), kept.is_built

def made_in(folder, log):
    """The same, from what a run of `rt ci` in a folder has made."""
    with open(log, encoding="utf-8") as file:
        proved = set(re.findall(r"^rt: (\w+) proved$", file.read(), re.M))

    def give(crate):
        there = f"{folder}/crates/{crate.name}"
        files = lambda top: {os.path.relpath(it, top): it for it in rt.rtlib.files_of(top)}
        ours, theirs = files(crate.folder), files(there)
        if crate.name not in proved or ours.keys() != theirs.keys() or not all(filecmp.cmp(ours[it], theirs[it], False) for it in ours):
            return False
        shutil.rmtree(f"{crate.folder}/out/rlib", ignore_errors=True)
        shutil.copytree(f"{there}/out/rlib", f"{crate.folder}/out/rlib")
        return True

    return give, lambda crate: None

crates = sorted(rt.rtlib.crates_below(os.getcwd()), key=lambda it: len(it.below()))
if KEEPS:
    give, note = kept_of(crates)
elif len(sys.argv) == 3:
    give, note = made_in(os.path.abspath(sys.argv[1]), sys.argv[2])
else:
    sys.exit("this kit keeps nothing of what `rt ci` passes: name the folder of a run, and the file of what it printed")
given, lacking = [], []
for crate in crates:
    if crate.is_program:
        continue
    stamp = f"{crate.folder}/out/rlib/stamp"
    if any(it.name in lacking for it in crate.below()):
        lacking.append(crate.name)
        continue
    if rt.rtlib.text_of(stamp) != crate.stamp():
        if not give(crate):
            lacking.append(crate.name)
            continue
        os.makedirs(os.path.dirname(stamp), exist_ok=True)
        with open(stamp, "w", encoding="utf-8") as file:
            file.write(crate.stamp())
        given.append(crate.name)
    note(crate)
print("given:", *given)
print("not kept:", *lacking)
