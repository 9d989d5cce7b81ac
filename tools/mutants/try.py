#!/usr/bin/env python3
"""try.py CRATE|MUTANT..: tries mutants of the copy of the repository in this folder, all of a crate or the file crates/NAME/mutants/WHICH.edit,
each on the functions that it changes alone.

`run.sh` has the whole crate checked for each mutant. This takes a tenth of that time, over libraries where tools/gate/give.py gave the copy some,
and over sources else. A mutant that changes definitions alone is tried on the whole crate. It writes a line for each mutant: whether the prover
rejected it, and what it said first. The status is 0 if each was rejected. It calls parts of `rt` itself, so it goes with the kit that it was
written for.
"""
import glob
import os
import re
import subprocess
import sys

HERE = os.path.dirname(os.path.abspath(__file__))
sys.path.insert(0, f"{HERE}/../gate")
from kit import rt

def module_of(path):
    """The path of the module that a file of src/ is."""
    words = path.removeprefix("src/").removesuffix(".rt").split("/")
    return "::".join(it for it in words if it not in ("lib", "main", "mod"))

def functions(old, new, path):
    """The functions that differ, each by the words that name it, the longest path first."""
    lines, changed = new.split("\n"), set()
    before = old.split("\n")
    for at, line in enumerate(lines):
        if at >= len(before) or before[at] != line:
            changed.add(at)
    kind, name, found = "", "", {}
    for at, line in enumerate(lines):
        if got := re.match(r"(?:unsafe )?impl\b(?:<.*?>)? (?:.* for )?(?:\w+::)*(\w+)", line):
            kind = got[1]
        elif line.startswith("}"):
            kind = ""
        if got := re.match(r"\s*(?:pub(?:\(\w+\))? )?(?:unsafe )?fn (\w+)", line):
            name = got[1]
        if at in changed and name:
            module = module_of(path)
            found["::".join(it for it in (module, kind, name) if it)] = [f"{kind}::{name}" if kind else name, name, module]
    return found

def check(crate, words):
    """The status of a check, and what it wrote."""
    ran = subprocess.run([sys.executable, f"{HERE}/../gate/check.py", crate, *words, "--short-goals"], stdout=subprocess.PIPE, stderr=subprocess.STDOUT, text=True)
    return ran.returncode, ran.stdout.rstrip("\n").split("\n")

def only(crate, whole, others):
    """The check of one function, by the first of its names that fits one."""
    for name in [whole, *others]:
        status, lines = check(crate, ["--only", name])
        if status != 2:
            return status, lines
    return status, lines

def attempt(crate, mutant):
    """Whether the prover rejects the mutant, and what is to be said."""
    folder = f"crates/{crate}"
    with open(mutant, encoding="utf-8") as file:
        texts, why = rt.edited(file.read(), folder)
    if why:
        return False, f"BAD MUTANT: {why}"
    was, found = {}, {}
    for path, text in texts.items():
        with open(f"{folder}/{path}", encoding="utf-8") as file:
            was[path] = file.read()
        if path.startswith("src/"):
            found |= functions(was[path], text, path)
    try:
        for path, text in texts.items():
            with open(f"{folder}/{path}", "w", encoding="utf-8") as file:
                file.write(text)
        ran = [only(crate, whole, others) for whole, others in found.items()] or [check(crate, [])]
    finally:
        for path, text in was.items():
            with open(f"{folder}/{path}", "w", encoding="utf-8") as file:
                file.write(text)
    lines = [line for _, said in ran for line in said]
    bad = next((it for it in lines if rt.unread(it, texts)), "")
    if bad:
        return False, f"BAD MUTANT: {bad[:160]}"
    first = next((it for it in lines if ": error" in it), lines[-1])
    if any(status == 1 for status, _ in ran):
        return True, f"rejected ({' '.join(found)}): {first[:160]}"
    return False, f"NOT REJECTED ({' '.join(found)}, status {[status for status, _ in ran]}): {first[:160]}"

def mutants_of(word):
    """The files of the mutants that an argument names."""
    if word.endswith(".edit"):
        return [word]
    return sorted(glob.glob(f"crates/{word}/mutants/*.edit") + glob.glob(f"crates/{word}/must-fail/*.edit"))

def main():
    all_rejected = True
    for mutant in [it for word in sys.argv[1:] for it in mutants_of(word)]:
        crate = mutant.split("/")[1]
        is_rejected, said = attempt(crate, mutant)
        all_rejected = all_rejected and is_rejected
        print(f"{crate}/{os.path.basename(mutant)}: {said}", flush=True)
    sys.exit(0 if all_rejected else 1)

main()
