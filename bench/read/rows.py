"""Reads, five to a script, and fifty of a wide record: lists of links, masked and inline fragments in them, and a cycle of records 60 deep.

The script without reads is subtracted. What is left is compared with a program that prints the data of the same line as often by serde_json
alone; the reading of it is subtracted. It prints ten times as often, and takes a tenth of the time for it, so that short times are measured
well."""

from scripts import Row, answer, payload, read, retain, shown

READS, TIMES = 5, 10

def with_reads(reads, documents, before, data, seen, handle="h"):
    """The lines before, and then reads, of which the last shows this."""
    return documents, before + [read(handle)] * reads, shown(len(before) + reads, data, seen)

def before_reads(documents, before, *_):
    """The lines before the reads alone."""
    return documents, before, answer(len(before), "retain" if '"do":"retain"' in before[-1] else "payload")

def users(count):
    return [{"id": f"u{n}", "name": f"n{n}"} for n in range(count)]

def seen_of(team):
    return ["client:root"] + [it["id"] for it in team]

def links(count):
    """A list of `count` links."""
    team = users(count)
    return "query Q{team{id name}}", [retain("Q"), payload({"team": team})], {"team": team}, seen_of(team)

def pointers(count):
    """A list of `count` links, of which each has a masked fragment."""
    team = users(count)
    data = {"team": [{"__fragments": {"P": {}}, "__id": it["id"], "__owner": "h"} for it in team]}
    return "query Q{team{...P}} fragment P on User{name}", [retain("Q"), payload({"team": team})], data, seen_of(team)

def inline(count):
    """A list of `count` links, of which each has an inline fragment."""
    team = users(count)
    data = {"team": [{"__fragments": {"P": {"name": it["name"]}}, "__id": it["id"], "__owner": "h"} for it in team]}
    return "query Q{team{...P}} fragment P on User@inline{name}", [retain("Q"), payload({"team": team})], data, seen_of(team)

def wide(count):
    """A record of `count` fields."""
    fields = " ".join(f"a{n}:age(n:{n})" for n in range(count))
    values = {f"a{n}": n for n in range(count)}
    return f"query Q{{me{{{fields}}}}}", [retain("Q"), payload({"me": {"id": "4", **values}})], {"me": values}, ["4", "client:root"]

def deep(count):
    """`count` records that each have 58 more below one another, which are one record that links to itself."""
    inside, below = "name", {"name": "n"}
    for _ in range(57):
        inside, below = f"friend{{{inside}}}", {"friend": below}
    documents = f"query W{{team{{friend{{name}}}}}} query C{{me{{friend{{id}}}}}} query Q{{team{{{inside}}}}}"
    before = [retain("W"), payload({"team": [{"id": f"u{n}", "friend": {"id": "c", "name": "n"}} for n in range(count)]}),
              retain("C", "i"), payload({"me": {"id": "c", "friend": {"id": "c"}}}, "i"), retain("Q", "j")]
    return documents, before, {"team": [below] * count}, ["c", "client:root"] + [f"u{n}" for n in range(count)], "j"

def row(name, counts, make, reads=READS):
    def printing(count):
        """The arguments that print the data of the last line, and those that read it alone."""
        return ["./printer", "{count}/due", str(reads * TIMES)], ["./printer", "{count}/due", "0"]
    return Row(name, counts, lambda count: with_reads(reads, *make(count)), without=lambda count: before_reads(*make(count)), beside=printing, beside_times=TIMES)

ROWS = [
    row("a list of links", (25_000, 50_000, 100_000), links),
    row("masked fragments in a list", (25_000, 50_000, 100_000), pointers),
    row("inline fragments in a list", (25_000, 50_000, 100_000), inline),
    row("a record of many fields", (5_000, 10_000, 20_000), wide, reads=50),
    row("sixty deep, in a cycle", (500, 1_000, 2_000), deep),
]
