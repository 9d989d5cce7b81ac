"""Payloads of a given number of parts: the text, and how many facts it says, the same at each run.

The numbers are counted here by hand for each form, and never taken from the program. As a program: the number of a row, a count and a
path; the text is written there, and the number of facts is printed."""

import json
import sys

def response(data):
    return json.dumps({"data": data}, separators=(",", ":"))

def many(count):
    """A list of `count` objects with ids: two facts of the root, and four of each object."""
    return response({"team": [{"id": f"u{n:06}", "age": n, "name": "Ann"} for n in range(count)]}), 2 + 4 * count

def made(count):
    """A list of `count` objects without ids, which are made: two facts of the root, and three of each object."""
    return response({"team": [{"name": f"Ann {n:06}", "age": n} for n in range(count)]}), 2 + 3 * count

def aliases(count):
    """An object of `count` aliases, each with an argument of its own."""
    return response({"me": {"id": "u", **{f"a{n}": f"{n:0185}" for n in range(count)}}}), 2 + 2 + count

def same(count):
    """An object of `count` aliases of one field."""
    return response({"me": {"id": "u", **{f"a{n}": "x" * 185 for n in range(count)}}}), 2 + 3

def deep(count):
    """A list of `count` objects, each the first of 60 below one another."""
    def chain(n):
        below = None
        for level in reversed(range(60)):
            below = {"id": f"u{n}-{level}", "friend": below}
        return below
    return response({"team": [chain(n) for n in range(count)]}), 2 + count * 60 * 3

def meeting(count):
    """A list of `count` objects of one id, with equal values: those of the root, and of one object."""
    return response({"team": [{"id": "u", "age": 37, "name": "Ann Bo"} for n in range(count)]}), 2 + 4

def text(count):
    """One text of `count` bytes."""
    return response({"me": {"id": "u", "name": "x" * count}}), 2 + 3

# The name, the plan that the program makes, the payload, and the counts that come to 1, 2 and 4 MB.
PAYLOADS = [
    ("objects with ids", "many", many, (25_000, 50_000, 100_000)),
    ("objects without ids", "many", made, (25_000, 50_000, 100_000)),
    ("aliases of many fields", "aliases", aliases, (5_000, 10_000, 20_000)),
    ("aliases of one field", "same", same, (5_000, 10_000, 20_000)),
    ("60 deep", "deep", deep, (650, 1_300, 2_600)),
    ("objects of one id", "many", meeting, (25_000, 50_000, 100_000)),
    ("one text", "many", text, (1_000_000, 2_000_000, 4_000_000)),
]

if __name__ == "__main__":
    written, facts = PAYLOADS[int(sys.argv[1])][2](int(sys.argv[2]))
    open(sys.argv[3], "w").write(written)
    print(facts)
