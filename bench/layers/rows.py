"""Layers that are reverted, updates with and without a layer, an entry of many commands, wide records, and many records.

The reading of the lines is subtracted: a script of as many lines of about the same length, each of which is refused after it was read,
since its command names no type of the schema, or since its layer is not live. What is left is compared with a plain program with a map and undo lists,
which makes the same changes from lists of its own, ten times over."""

from scripts import Row, add, answer, begin, line, payload, read, retain, revert, shown, update

AGED = "query Q{me{age}}"
AGE = [retain("Q"), payload({"me": {"id": "4", "age": 5}})]
# As long as a command that adds
NO_TYPE = {"create": {"id": "4", "type": "Nonesuch"}}
NONE = "none"
TIMES = 10

def script(documents, before, lines, data, seen, handle="h"):
    """The lines before, the lines that are timed, and a read."""
    lines = before + lines + [read(handle)]
    return documents, lines, shown(len(lines), data, seen)

def aged(lines, age):
    """The lines that are timed, over one record, whose age is this in the end."""
    return script(AGED, AGE, lines, {"me": {"age": age}}, ["4", "client:root"])

def refused(documents, before, count, lines, handle="h"):
    """The lines before, as many lines that are refused once they were read, and no read."""
    due = line(code=14, error="UnknownType", n=len(before) + count, name="Nonesuch")
    if lines[-1] == revert(NONE):
        due = line(code=10, error="UnknownLayer", n=len(before) + count, name=NONE)
    return documents, before + lines, due

def from_newest(count):
    """`count` layers, then each reverted again, the newest first."""
    return aged([begin(f"l{n}", add()) for n in range(count)] + [revert(f"l{n}") for n in reversed(range(count))], 5)

def from_oldest(count):
    """`count` layers, then each reverted again, the oldest first: each applies all that are left."""
    return aged([begin(f"l{n}", add()) for n in range(count)] + [revert(f"l{n}") for n in range(count)], 5)

def no_layers(count):
    return refused(AGED, AGE, 2 * count, [begin(f"l{n}", NO_TYPE) for n in range(count)] + [revert(NONE)] * count)

def updates(count):
    """`count` updates of one field, with no layer."""
    return aged([update(add())] * count, 5 + count)

def updates_below(count):
    """`count` updates of one field, under a layer."""
    return script(AGED, AGE + [begin("l", add(100))], [update(add())] * count, {"me": {"age": 105 + count}}, ["4", "client:root"])

def no_updates(count):
    return refused(AGED, AGE, count, [update(NO_TYPE)] * count)

def commands(count):
    """An entry of `count` commands on one record."""
    return aged([update(*[add()] * count)], 5 + count)

def no_commands(count):
    return refused(AGED, AGE, 1, [update(*[NO_TYPE] * count)])

def wide(count):
    """A record of `count` fields, before a thousand updates of one of them."""
    names = " ".join(f"a{n}:age(n:{n})" for n in range(count))
    values = {f"a{n}": n for n in range(count)}
    return f"query W{{me{{age {names}}}}} {AGED}", [retain("W"), payload({"me": {"id": "4", "age": 5, **values}}), retain("Q", "i")]

def fields(count):
    return script(*wide(count), [update(add())] * 1_000, {"me": {"age": 1_005}}, ["4", "client:root"], "i")

def no_fields(count):
    return refused(*wide(count), 1_000, [update(NO_TYPE)] * 1_000)

def many(count):
    """`count` records, and a handle that reads one of them."""
    team = [{"id": f"u{n:06}", "age": n} for n in range(count)]
    return f"query W{{team{{id age}}}} {AGED}", [retain("W"), payload({"team": team}), retain("Q", "i"), payload({"me": {"id": "u000000", "age": 0}}, "i")]

def ids(count):
    """`count` records, and as many updates, each of another one."""
    return script(*many(count), [update(add(id=f"u{n:06}")) for n in range(count)], {"me": {"age": 1}}, ["client:root", "u000000"], "i")

def no_ids(count):
    return refused(*many(count), count, [update(NO_TYPE)] * count)

def row(name, counts, make, without, beside, parts):
    return Row(name, counts, make, without=without, without_status=1, parts=parts,
               beside=lambda count: (["./plain", beside, "{count}", str(TIMES)], ["./plain", f"{beside}-before", "{count}", str(TIMES)]),
               beside_times=TIMES)

ROWS = [
    row("layers, the newest reverted first", (250, 500, 1_000), from_newest, no_layers, "newest", lambda count: 2 * count),
    row("layers, the oldest reverted first", (250, 500, 1_000), from_oldest, no_layers, "oldest", lambda count: 2 * count),
    row("updates without a layer", (25_000, 50_000, 100_000), updates, no_updates, "updates", lambda count: count),
    row("updates below a layer", (25_000, 50_000, 100_000), updates_below, no_updates, "below", lambda count: count),
    row("an entry of many commands", (5_000, 10_000, 20_000), commands, no_commands, "commands", lambda count: count),
    row("a record of many fields", (2_500, 5_000, 10_000), fields, no_fields, "fields", lambda count: 1_000),
    row("updates of many records", (25_000, 50_000, 100_000), ids, no_ids, "records", lambda count: count),
]
