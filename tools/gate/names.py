#!/usr/bin/env python3
"""names.py [CRATE..]: writes the definitions and lemmas of crates that these crates (all, without names) do not list by the way over one that they do.

A crate lists in crates.txt what it stands on right away, and takes what lies below from there (docs/MAP.md). So clauses, specs and proofs may be
written with the name of the crate in which a thing stands: `Rattle.gql_ast.specs.Sels` becomes `Rattle.plan_ir.specs.gql_ast.Sels`, and a crate
that is not passed on yet gets its line in those between. Names of code are few, and stay to be written by hand. It works on the repository in
this folder and prints what it changed. Run `rt fmt` in these crates afterwards.
"""
import functools
import glob
import os
import re
import sys

# Those from which a name is taken where they are listed, the first that stands on its crate
FLOORS = ("plan_ir", "relay_machine", "plan_project")
FOLDERS = ("src", "specs", "proofs", "must-fail", "mutants")

def crates():
    """The crates that each crate lists."""
    with open("crates.txt", encoding="utf-8") as file:
        lines = [line.split("#")[0].split(":") for line in file]
    listed = {line[0].split()[0]: line[1].split() for line in lines if len(line) == 2}
    return {name: [it for it in names if it in listed] for name, names in listed.items()}

LISTED = crates()
NAMES = re.compile(rf"\bRattle\.({'|'.join(sorted(LISTED, key=len, reverse=True))})\.(specs|proofs)\b")

@functools.lru_cache(maxsize=None)
def below(crate):
    """All that a crate stands on."""
    return frozenset().union(*({it} | below(it) for it in LISTED[crate]))

def read(path):
    try:
        with open(path, encoding="utf-8") as file:
            return file.read()
    except FileNotFoundError:
        return ""

def write(path, text):
    with open(path, "w", encoding="utf-8") as file:
        file.write(text)
    print("changed", path)

def passed(name, kind):
    """The name under which a crate is passed on. Code that is passed on under the crate's name is a module of proofs too."""
    return f"{name}_laws" if kind == "proofs" else name

def passes(crate, name, kind):
    """Whether a crate passes another on already."""
    text = read(f"crates/{crate}/{kind}/Lib.antt")
    return bool(re.search(rf"(?m)^pub use Rattle\.\w+\.{kind}(\.| as ){passed(name, kind)}$", text))

def giver(crate, name, kind):
    """The crate that is listed, from which a crate takes what stands in another; none where that is listed itself."""
    if name == crate or name in LISTED[crate]:
        return None
    found = [it for it in LISTED[crate] if name in below(it)]
    if not found:
        sys.exit(f"{crate} names {name}, and nothing that it lists stands on it")
    floor = lambda it: FLOORS.index(it) if it in FLOORS else len(FLOORS)
    given = min(found, key=lambda it: (floor(it), not passes(it, name, kind), len(below(it)), it))
    if not passes(given, name, kind):
        pass_on(given, name, kind)
    return given

def pass_on(crate, name, kind):
    """Adds the line by which a crate passes another on."""
    way = giver(crate, name, kind)
    path, alias = f"crates/{crate}/{kind}/Lib.antt", passed(name, kind)
    os.makedirs(os.path.dirname(path), exist_ok=True)
    line = f"pub use Rattle.{way}.{kind}.{alias}\n" if way else f"pub use Rattle.{name}.{kind} as {alias}\n"
    lines = read(path).splitlines(keepends=True)
    uses = sorted([it for it in lines if it.startswith("pub use ")] + [line], key=lambda it: it.split(".")[-1].split()[-1])
    write(path, "".join(uses + [it for it in lines if not it.startswith("pub use ")]))

def rewritten(crate, text):
    """A text with its names by way of what is listed."""
    def named(found):
        way = giver(crate, found[1], found[2])
        return f"Rattle.{way}.{found[2]}.{passed(found[1], found[2])}" if way else found[0]
    return NAMES.sub(named, text)

for crate in sys.argv[1:] or LISTED:
    for path in [it for folder in FOLDERS for it in sorted(glob.glob(f"crates/{crate}/{folder}/**/*.*", recursive=True))]:
        was = read(path)
        now = rewritten(crate, was)
        if now != was:
            write(path, now)
