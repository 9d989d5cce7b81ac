"""Watches: many of which one is touched, their beginnings and ends, many handles, layers below a watch, and watches of long lists.

The script without what is timed is subtracted; microseconds are given for each line that is timed."""

from scripts import Row, add, answer, begin, line, noticed, payload, release, retain, revert, update

TIMES = 1_000

def watch(name, handle="h", **more):
    return line(do="watch", watch=name, handle=handle, **more)

def unwatch(name):
    return line(do="unwatch", watch=name)

def started(n, data, seen):
    return line(data=data, missing=False, n=n, ok="watch", seen=seen)

# ---- many watches

FRAGMENT = "query Q{team{...P}} fragment P on User{age}"

def users(count):
    """`count` records."""
    return [retain("Q"), payload({"team": [{"id": f"u{n:06}", "age": n} for n in range(count)]})]

def watches(count, records):
    """`records` records, and watches of the first `count` of them."""
    return users(records) + [watch(f"w{n}", fragment="P", id=f"u{n:06}") for n in range(count)]

def started_last(lines, count):
    return FRAGMENT, lines, started(len(lines), {"age": count - 1}, [f"u{count - 1:06}"])

def touched(count):
    """`count` watches, of which the last is touched again and again."""
    lines = watches(count, count) + [update(add(id=f"u{count - 1:06}"))] * TIMES
    return FRAGMENT, lines, noticed(len(lines), f"w{count - 1}", {"age": count - 1 + TIMES}, [f"u{count - 1:06}"])

def untouched(count):
    """`count` watches, and a record that none of them saw, touched again and again."""
    lines = watches(count, count + 1) + [update(add(id=f"u{count:06}"))] * TIMES
    return FRAGMENT, lines, answer(len(lines), "update")

def no_updates(count):
    return started_last(watches(count, count), count)

def no_updates_beside(count):
    return started_last(watches(count, count + 1), count)

def no_watches(count):
    return FRAGMENT, users(count), answer(2, "payload")

def of_one(count):
    """`count` watches of one record, which is touched ten times: each is notified each time."""
    lines = users(1) + [watch(f"w{n}", fragment="P", id="u000000") for n in range(count)] + [update(add(id="u000000"))] * 10
    return FRAGMENT, lines, noticed(len(lines), f"w{count - 1}", {"age": 10}, ["u000000"])

def of_one_untouched(count):
    lines = users(1) + [watch(f"w{n}", fragment="P", id="u000000") for n in range(count)]
    return FRAGMENT, lines, started(len(lines), {"age": 0}, ["u000000"])

def ended(order):
    """`count` watches, and the end of each."""
    def make(count):
        lines = watches(count, count) + [unwatch(f"w{n}") for n in order(range(count))]
        return FRAGMENT, lines, answer(len(lines), "unwatch")
    return make

# ---- many handles

def handles(count):
    """`count` handles, each of which is released."""
    lines = [retain("Q", f"h{n}") for n in range(count)] + [release(f"h{n}") for n in range(count)]
    return FRAGMENT, lines, answer(len(lines), "release")

def retained(count):
    lines = [retain("Q", f"h{n}") for n in range(count)]
    return FRAGMENT, lines, answer(len(lines), "retain")

def handles_beside(count):
    """`count` watches, and as many handles that are released beside them."""
    lines = watches(count, count) + [retain("Q", f"h{n}") for n in range(count - 1)] + [release(f"h{n}") for n in range(count - 1)]
    return FRAGMENT, lines, answer(len(lines), "release")

def handles_kept_beside(count):
    lines = watches(count, count) + [retain("Q", f"h{n}") for n in range(count - 1)]
    return FRAGMENT, lines, answer(len(lines), "retain")

# ---- layers below a watch

AGED = "query Q{me{age}}"

def layers(count):
    """A watch, `count` layers, and the end of each, the newest first: each line is reported."""
    lines = [retain("Q"), payload({"me": {"id": "4", "age": 5}}), watch("w")]
    lines += [begin(f"l{n}", add()) for n in range(count)] + [revert(f"l{n}") for n in reversed(range(count))]
    return AGED, lines, noticed(len(lines), "w", {"me": {"age": 5}}, ["4", "client:root"])

def below_layers(count):
    """`count` layers, and ten updates below them, all of which are reported to a watch."""
    lines = [retain("Q"), payload({"me": {"id": "4", "age": 5}}), watch("w")] + [begin(f"l{n}", add()) for n in range(count)] + [update(add())] * 10
    return AGED, lines, noticed(len(lines), "w", {"me": {"age": 15 + count}}, ["4", "client:root"])

def layers_alone(count):
    lines = [retain("Q"), payload({"me": {"id": "4", "age": 5}}), watch("w")] + [begin(f"l{n}", add()) for n in range(count)]
    return AGED, lines, noticed(len(lines), "w", {"me": {"age": 5 + count}}, ["4", "client:root"])

# ---- watches of long lists

LISTED = "query Q{team{age}} query M{me{age}}"

def listed(count):
    """A watch of a list of `count` records, and beside it a record that it did not see."""
    team = [{"id": f"u{n:06}", "age": n} for n in range(count)]
    return [retain("Q"), payload({"team": team}), retain("M", "m"), payload({"me": {"id": "m", "age": 0}}, "m"), watch("w")]

def list_touched(times):
    """The last of the list is touched again and again."""
    def make(count):
        lines = listed(count) + [update(add(id=f"u{count - 1:06}"))] * times
        data = [{"age": n} for n in range(count - 1)] + [{"age": count - 1 + times}]
        return LISTED, lines, noticed(len(lines), "w", {"team": data}, ["client:root"] + [f"u{n:06}" for n in range(count)])
    return make

def list_beside(times):
    """The record beside it is touched again and again."""
    def make(count):
        lines = listed(count) + [update(add(id="m"))] * times
        return LISTED, lines, answer(len(lines), "update")
    return make

MANY, LONG = (2_500, 5_000, 10_000), (25_000, 50_000, 100_000)
each = lambda lines: lambda count: lines

ROWS = [
    Row("watches that start", MANY, no_updates, without=no_watches, parts=lambda count: count),
    Row("one of them touched, 1,000 times", MANY, touched, without=no_updates, parts=each(TIMES)),
    Row("none of them touched, 1,000 times", MANY, untouched, without=no_updates_beside, parts=each(TIMES)),
    Row("all of them touched, ten times", MANY, of_one, without=of_one_untouched, parts=lambda count: 10 * count),
    Row("watches that end, oldest first", MANY, ended(list), without=no_updates, parts=lambda count: count),
    Row("watches that end, newest first", MANY, ended(reversed), without=no_updates, parts=lambda count: count),
    Row("handles that are released", MANY, handles, without=retained, parts=lambda count: count),
    Row("the same beside as many watches", MANY, handles_beside, without=handles_kept_beside, parts=lambda count: count),
    Row("layers below a watch", (250, 500, 1_000), layers, parts=lambda count: 2 * count),
    Row("ten updates below layers", (250, 500, 1_000), below_layers, without=layers_alone, parts=each(10)),
    Row("a long list, touched five times", LONG, list_touched(6), without=list_touched(1), parts=each(5)),
    Row("beside it touched, 10,000 times", LONG, list_beside(10 * TIMES + 1), without=list_beside(1), parts=each(10 * TIMES)),
]
