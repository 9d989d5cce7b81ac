"""Connections: pages of 100 after and before a long one, a long one fetched again whole, and edges put in front one by one.

The script that makes the connection alone is subtracted, so that what is left is the pages; microseconds are given for each page, or edge."""

from scripts import Row, payload, read, retain, shown, update

PAGED = 'query K($first:Int,$after:String,$last:Int,$before:String){me{friends(first:$first,after:$after,last:$last,before:$before)@connection(key:"K_friends"){edges{cursor}}}}'
PAGE = 100
PAGES = 10
HANDLE = "client:4:__K_friends_connection"
# The number of the first edge, where pages stand in front of it
START = 1_000_000
SMALL, LARGE = (1_000, 10_000, 100_000), (25_000, 50_000, 100_000)

def page(first, count):
    """The data of a page of edges whose numbers follow one another."""
    edges = [{"cursor": f"c{n}", "node": {"id": f"u{n}"}} for n in range(first, first + count)]
    info = {"startCursor": f"c{first}", "endCursor": f"c{first + count - 1}", "hasNextPage": True, "hasPreviousPage": True}
    return {"me": {"id": "4", "friends": {"edges": edges, "pageInfo": info}}}

def seen_of(places):
    return ["4", "client:root", HANDLE] + [f"{HANDLE}:edges:{k}" for k in places]

def paged(pages, numbers, places):
    """Pages with their variables one after another, each under a handle of its own, and then a read of the first handle."""
    lines = []
    for n, (variables, data) in enumerate(pages):
        handle = f"h{n}"
        lines += [retain("K", handle, vars=variables), payload(data, handle)]
    lines.append(read("h0"))
    return PAGED, lines, shown(len(lines), {"me": {"friends": {"edges": [{"cursor": f"c{n}"} for n in numbers]}}}, seen_of(places))

def next_pages(count, pages=PAGES):
    """A connection of `count` edges, and pages of 100 after them."""
    more = [({"first": PAGE, "after": f"c{count + PAGE * n - 1}"}, page(count + PAGE * n, PAGE)) for n in range(pages)]
    return paged([({"first": count}, page(0, count))] + more, range(count + pages * PAGE), range(count + pages * PAGE))

def previous_pages(count, pages=PAGES):
    """A connection of `count` edges, and pages of 100 before them."""
    more = [({"last": PAGE, "before": f"c{START - PAGE * n}"}, page(START - PAGE * (n + 1), PAGE)) for n in range(pages)]
    return paged([({"first": count}, page(START, count))] + more, range(START - pages * PAGE, START + count), range(count + pages * PAGE))

def refetches(count, times=2):
    """A connection of `count` edges that is fetched again, whole: its edges get ever new ids."""
    return paged([({"first": count}, page(0, count)) for _ in range(times + 1)], range(count), range(times * count, (times + 1) * count))

def first_pages(count):
    """A connection of `count` edges, and then its first page alone, which takes its place."""
    return paged([({"first": count}, page(0, count)), ({"first": PAGE}, page(0, PAGE))], range(PAGE), range(count, count + PAGE))

def prepended(count):
    """A connection of one edge, and `count` put in front one by one."""
    return put_in_front(1, count)

def prepended_to(count):
    """A connection of `count` edges, and ten put in front one by one."""
    return put_in_front(count, 10)

def put_in_front(count, more):
    lines = [retain("K", "h"), payload(page(0, count))]
    for n in range(1, more + 1):
        lines.append(update({"prepend_node": {"id": "4", "key": "K_friends", "node": f"v{n}", "edge_type": "UserEdge", "cursor": f"d{n}"}}))
    lines.append(read())
    edges = [{"cursor": f"d{n}"} for n in range(more, 0, -1)] + [{"cursor": f"c{n}"} for n in range(count)]
    return PAGED, lines, shown(len(lines), {"me": {"friends": {"edges": edges}}}, seen_of(range(count + more)))

def alone(count):
    """The connection of `count` edges, read."""
    return next_pages(count, 0)

def begun(count):
    return put_in_front(count, 0)

ROWS = [
    Row("ten pages more after the end", SMALL, next_pages, without=alone, parts=lambda count: PAGES),
    Row("ten pages more after the end", LARGE, next_pages, without=alone, parts=lambda count: PAGES),
    Row("ten pages more before the start", SMALL, previous_pages, without=alone, parts=lambda count: PAGES),
    Row("ten pages more before the start", LARGE, previous_pages, without=alone, parts=lambda count: PAGES),
    Row("fetched again twice", SMALL, refetches, without=alone, parts=lambda count: 2),
    Row("fetched again twice", LARGE, refetches, without=alone, parts=lambda count: 2),
    Row("its first page fetched again", SMALL, first_pages, without=alone, parts=lambda count: 1),
    Row("made and read", LARGE, alone),
    Row("edges put in front one by one", (2_500, 5_000, 10_000), prepended, parts=lambda count: count),
    Row("ten put in front of many", SMALL, prepended_to, without=begun, parts=lambda count: 10),
    Row("ten put in front of many", LARGE, prepended_to, without=begun, parts=lambda count: 10),
]
