#!/bin/bash
# Writes the picture of the crates between the two marks of MAP.md, from crates.txt: a line a level,
# lowest last, and of each crate those that it stands on, but for those that follow from the others;
# and after it how many ways lead down from one crate to another, which is what `rt` pays for.
# With --check nothing is written, and the status is 1 where the picture is not that of crates.txt,
# where there are more ways than are allowed, where a crate depends on a tier above its own, by the
# table of tiers at the head of MAP.md, or where definitions wait for checks: where a crate of the
# promise stands on a crate that checks, expands or prints.
set -eu
cd "$(dirname "$0")"
exec python3 - "$@" <<'END'
import re
import sys

ALL_BELOW, LEVELS, WAYS = {}, {}, {}
# A kit may walk each way for each crate that it proves, and read the files of each crate on it. So the
# time before and between the proofs grows with this number.
MOST_WAYS = 20_000
# Of the plans and the rules on documents the promise stands on these alone: they have the types and the
# definitions that plans are held to, and what `@argumentDefinitions` and `@connection` say.
DEFINED = {"plan_ir", "plan_collect", "relay_marks"}
BEGIN, END = "<!-- picture: made by docs/map.sh -->\n", "<!-- end of the picture -->\n"

def crates_of(path):
    """The crates of crates.txt, each with those of the repository that it names."""
    lines = [line.split("#")[0] for line in open(path, encoding="utf-8")]
    told = [line.split(":") for line in lines if ":" in line]
    found = {head.split()[0]: tail.split() for head, tail in told}
    return {crate: {dep for dep in deps if dep in found} for crate, deps in found.items()}

def all_below(crates, crate):
    """All that a crate stands on, through others too."""
    if crate not in ALL_BELOW:
        ALL_BELOW[crate] = set().union(*({dep} | all_below(crates, dep) for dep in crates[crate]))
    return ALL_BELOW[crate]

def direct(crates, crate):
    """What a crate stands on, but for what one of them stands on."""
    deps = crates[crate]
    return {dep for dep in deps if not any(dep in all_below(crates, other) for other in deps)}

def level(crates, crate):
    if crate not in LEVELS:
        LEVELS[crate] = max((level(crates, dep) + 1 for dep in crates[crate]), default=0)
    return LEVELS[crate]

def ways(crates, crate):
    """How many ways lead down from a crate to one that it stands on, through others too."""
    if crate not in WAYS:
        WAYS[crate] = sum(1 + ways(crates, dep) for dep in crates[crate])
    return WAYS[crate]

def line_of(crates, number):
    """The crates of a level, those together that stand on the same ones."""
    groups = {}
    for crate in sorted(it for it in crates if level(crates, it) == number):
        groups.setdefault(tuple(sorted(direct(crates, crate))), []).append(crate)
    told = [f"{', '.join(above)} -> {', '.join(below)}" if below else ", ".join(above) for below, above in groups.items()]
    return f"{number}  {' | '.join(told)}\n"

def all_ways(crates):
    return sum(ways(crates, it) for it in crates)

def picture(crates):
    levels = range(max(level(crates, it) for it in crates), -1, -1)
    told = f"{all_ways(crates):,} ways lead down from one crate to another. At most {MOST_WAYS:,} are allowed.\n"
    return f"```\n{''.join(line_of(crates, number) for number in levels)}```\n\n{told}"

def rows(text):
    """The tiers of the table, the highest first, each with its crates."""
    found = re.findall(r"^\| (\w+) \| ((?:`\w+`(?:, )?)+) \|", text, re.M)
    return {tier: re.findall(r"\w+", names) for tier, names in found}

def tiers(text):
    """The number of each crate's tier: 0 is the highest, and that of the tests lies above it."""
    return {crate: -1 if tier == "tests" else n for n, (tier, names) in enumerate(rows(text).items()) for crate in names}

def upward(crates, text):
    """The first dependency on a tier above, or a crate without a tier, if there is one."""
    ranks = tiers(text)
    for crate, deps in crates.items():
        if crate not in ranks:
            return f"the table of tiers in docs/MAP.md lacks {crate}"
        for dep in deps:
            if dep in ranks and ranks[dep] < ranks[crate]:
                return f"{crate} depends on {dep}, whose tier in docs/MAP.md is above its own"
    return None

def waiting(crates, text):
    """The first crate of the promise that waits for a check, if there is one."""
    told = rows(text)
    for crate in told["promise"]:
        for dep in sorted(all_below(crates, crate) & {*told["plans"], *told["rules"]} - DEFINED):
            return f"{crate} stands on {dep}, and definitions do not wait for checks: what it takes of it goes down (docs/MAP.md)"
    return None

if sys.argv[1:] not in ([], ["--check"]):
    sys.exit("usage: docs/map.sh [--check]")
text = open("MAP.md", encoding="utf-8").read()
before, _, rest = text.partition(BEGIN)
_, mark, after = rest.partition(END)
if not mark:
    sys.exit("docs/MAP.md has not the two marks of the picture")
crates = crates_of("../crates.txt")
made = f"{before}{BEGIN}{picture(crates)}{END}{after}"
if sys.argv[1:] == ["--check"]:
    if made != text:
        sys.exit("the picture in docs/MAP.md is not that of crates.txt: run docs/map.sh")
    if upward(crates, text):
        sys.exit(upward(crates, text))
    if waiting(crates, text):
        sys.exit(waiting(crates, text))
    if all_ways(crates) > MOST_WAYS:
        sys.exit(f"crates.txt has {all_ways(crates):,} ways from one crate down to another, more than {MOST_WAYS:,}: "
                 "let crates list fewer, and take what is below from those that they list (docs/MAP.md)")
else:
    open("MAP.md", "w", encoding="utf-8").write(made)
END
