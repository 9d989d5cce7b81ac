"""What the rows of the benches over the built program have in common: a schema, and the lines that go in and come out.

A row of a bench makes the documents, the lines of a script of a given number of parts, and the expected last line, the same at each run. The
last lines are written by hand for each form, and never taken from the program."""

import dataclasses
import json
import typing

SCHEMA = """interface Node { id: ID! }
interface Spot { id: ID! name: String next: Spot spots: [Spot] }
type Query { me: User node(id: ID!): Node team(size: Int): [User] spot: Spot }
type User implements Node {
  id: ID! name: String age(n: Int): Int friend: User team: [User]
  friends(first: Int, after: String, last: Int, before: String): UserConnection
}
type X implements Spot { id: ID! name: String next: Spot spots: [Spot] friends(first: Int, after: String, last: Int, before: String): UserConnection }
type Y implements Spot { id: ID! name: String next: Spot spots: [Spot] }
type UserConnection { edges: [UserEdge] pageInfo: PageInfo! }
type UserEdge { cursor: String node: User }
type PageInfo { hasNextPage: Boolean! hasPreviousPage: Boolean! startCursor: String endCursor: String }
"""
# The arguments of the program: how many released operations it keeps
BUFFER = 10

@dataclasses.dataclass
class Row:
    """A row of a bench: what it is called, its sizes, and what makes the script of a size."""
    name: str
    counts: tuple
    make: typing.Callable
    # Makes the script whose time is subtracted
    without: typing.Callable = None
    # How many parts what is left has; microseconds are given for each of them
    parts: typing.Callable = None
    # The arguments of a program that does the same as often, and of one whose time is subtracted from its; the expected last line
    # stands in the file {count}/due
    beside: typing.Callable = None
    beside_times: int = 1
    # The expected statuses, of the script and of that whose time is subtracted
    status: int = 0
    without_status: int = 0

def line(**members):
    return json.dumps(members, separators=(",", ":"), sort_keys=True)

def retain(op, handle="h", **more):
    return line(do="retain", handle=handle, op=op, **more)

def release(handle):
    return line(do="release", handle=handle)

def payload(data, handle="h"):
    return line(do="payload", handle=handle, response={"data": data})

def read(handle="h"):
    return line(do="read", handle=handle)

def update(*commands):
    return line(do="update", updates=list(commands))

def add(by=1, field="age", id="4", **more):
    return {"add": {"id": id, "field": field, "by": by, **more}}

def begin(layer, *commands):
    return line(do="begin", layer=layer, updates=list(commands))

def revert(layer):
    return line(do="revert", layer=layer)

def collect():
    return line(do="collect")

def shown(n, data, seen, missing=False):
    return line(data=data, missing=missing, n=n, ok="read", seen=in_order(seen))

def noticed(n, watch, data, seen, missing=False):
    return line(data=data, missing=missing, n=n, notice=watch, seen=in_order(seen))

def answer(n, do):
    return line(n=n, ok=do)

def collected(n, dropped):
    return line(dropped=dropped, n=n, ok="collect", waiting=False)

def in_order(ids):
    """The ids in byte order."""
    return sorted(set(ids), key=lambda it: it.encode())
