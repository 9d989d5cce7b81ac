"""Sweeps: stores of which a part is kept, sweeps that drop nothing, live layers, many retained operations over the same records, and plans
that are made to be hard for the walk along what is retained.

The script without what is timed is subtracted; microseconds are given for each sweep."""

from scripts import BUFFER, Row, add, answer, begin, collect, collected, payload, release, retain, update

AGAIN = 5

def users(count):
    return [{"id": f"u{n:06}", "age": n} for n in range(count)]

def drop_operation(handle):
    """Releases a handle, and as many others after it as are kept, so that its operation is retained no more."""
    others = [line for n in range(BUFFER) for line in (retain("N", f"n{n}"), release(f"n{n}"))]
    return [release(handle)] + others

def store(count, kept):
    """A store of `count` records, of which the first are kept."""
    team = users(count)
    documents = "query A{team(size:1){id age}} query B{team{id age}} query N{me{id}}"
    return documents, [retain("A", "a"), payload({"team": team[:kept]}, "a"), retain("B", "b"), payload({"team": team}, "b")] + drop_operation("b")

def swept(before, times, dropped, last="release"):
    """The lines before, of which the last is of the event `last`, and then sweeps, of which the first drops `dropped` records."""
    documents, lines = before
    n = len(lines) + times
    if times == 0:
        return documents, lines, answer(n, last)
    return documents, lines + [collect()] * times, collected(n, dropped if times == 1 else 0)

def a_part(name, share):
    make = lambda times: lambda count: swept(store(count, count // share), times, count - count // share)
    return Row(name, (10_000, 20_000, 40_000), make(1), without=make(0), parts=lambda count: 1)

def once_more(name, share):
    make = lambda times: lambda count: swept(store(count, count // share), times, count - count // share)
    return Row(name, (10_000, 20_000, 40_000), make(1 + AGAIN), without=make(1), parts=lambda count: AGAIN)

def under_a_layer(before):
    """The lines before, and then a layer that names the first user."""
    documents, lines = before
    return documents, lines + [begin("a", add(id="u000000"))]

def create(id):
    return {"create": {"id": id, "type": "User"}}

def chain(count):
    """A store of `count` records that no operation keeps, each of which links to the next one."""
    ids = [it["id"] for it in users(count)]
    commands = [it for one, other in zip(ids, ids[1:] + [None]) for it in (create(one), {"link": {"id": one, "field": "friend", "to": other}})]
    return "query N{me{id}}", [update(*commands[at:at + 2_000]) for at in range(0, len(commands), 2_000)]

def half_under_a_layer():
    make = lambda times: lambda count: swept(under_a_layer(store(count, count // 2)), times, count - count // 2, "begin")
    return Row("half kept, under a layer", (10_000, 20_000, 40_000), make(1), without=make(0), parts=lambda count: 1)

def tenth_under_layers(live):
    """A tenth is kept, and the rest is dropped under layers. Each links a kept record to the next one, so that they keep no other."""
    def before(count):
        documents, lines = store(count, count // 10)
        link = lambda n: {"link": {"id": f"u{n % (count // 10):06}", "field": "friend", "to": f"u{(n + 1) % (count // 10):06}"}}
        return documents, lines + [begin(f"l{n}", link(n)) for n in range(live)]
    make = lambda times: lambda count: swept(before(count), times, count - count // 10, "begin")
    return Row(f"a tenth kept, {live:,} live layers", (10_000, 20_000, 40_000), make(1), without=make(0), parts=lambda count: 1)

def all_led_to():
    make = lambda times: lambda count: swept(under_a_layer(chain(count)), times, 0, "begin")
    return Row("all kept for a layer, five times", (10_000, 20_000, 40_000), make(AGAIN), without=make(0), parts=lambda count: AGAIN)

def under_layers():
    """Each sweep drops one record, so that all layers are applied again."""
    def make(ends):
        begun = lambda count: [begin(f"l{n}", create(f"u{n:06}")) for n in range(count)]
        lines = lambda count: begun(count) + [update(create("x")), *ends] * AGAIN
        last = lambda count: (collected(len(lines(count)), 1) if ends else answer(len(lines(count)), "update"))
        return lambda count: ("query N{me{id}}", lines(count), last(count))
    return Row("one dropped under layers, five times", (250, 500, 1_000), make([collect()]), without=make([]), parts=lambda count: AGAIN)

def operations(count, records):
    """`count` retained operations over the same records."""
    lines = [retain("R", f"r{n}") for n in range(count)] + [payload({"team": [{"id": it["id"], "friend": {"id": it["id"]}} for it in users(records)]}, "r0")]
    return "query R{team{id friend{id}}} query N{me{id}}", lines + [retain("N", "n"), release("n")]

def over_records(name, counts, size):
    make = lambda times: lambda count: swept(operations(*size(count)), times, 0)
    return Row(name, counts, make(AGAIN), without=make(0), parts=lambda count: AGAIN)

def fragments(each, depth):
    """A fragment that is spread `each` times in each of `depth` nested sets, over one record that links to itself."""
    spread = lambda n: " ".join([f"...F{n}"] * each) if n < depth else "name"
    documents = f"query H{{me{{{spread(0)}}}}} query C{{me{{id friend{{id}}}}}} query N{{me{{id}}}}"
    documents += "".join(f" fragment F{n} on User{{friend{{{spread(n + 1)}}}}}" for n in range(depth))
    return documents, [retain("C", "c"), payload({"me": {"id": "c", "friend": {"id": "c"}}}, "c"), retain("H"), retain("N", "n"), release("n")]

def conditions(depth, ends=("", "")):
    """Two records of two types that both link to both, and nested conditions, `depth` of them, on one of the types. At the innermost level stands
    one of the ends on the way along the conditions, and the other on the ways that leave it."""
    plain, inner = f"name {ends[1]}", f"name {ends[0]}"
    for _ in range(depth):
        inner = f"spots{{{inner}}} ...on X{{spots{{{plain}}}}}"
        plain = f"spots{{{plain}}}"
    documents = f"query E{{spot{{{inner}}}}} query D{{spot{{id spots{{id spots{{id}}}}}}}} query N{{me{{id}}}}"
    both = [{"__typename": "X", "id": "x"}, {"__typename": "Y", "id": "y"}]
    spot = {"__typename": "X", "id": "x", "spots": [{**it, "spots": both} for it in both]}
    return documents, [retain("D", "d"), payload({"spot": spot}, "d"), retain("E"), retain("N", "n"), release("n")]

CONNECTION = '...on X{friends(first:1)@connection(key:"E_friends"){edges{cursor}}}', "...on X{friends(first:1){edges{cursor}}}"

def hard(name, counts, before):
    make = lambda times: lambda count: swept(before(count), times, 0)
    return Row(name, counts, make(AGAIN), without=make(0), parts=lambda count: AGAIN)

ROWS = [
    a_part("a tenth kept", 10),
    a_part("half kept", 2),
    a_part("all kept", 1),
    once_more("nothing dropped, a tenth was kept", 10),
    once_more("nothing dropped, all were kept", 1),
    half_under_a_layer(),
    tenth_under_layers(10),
    tenth_under_layers(1_000),
    all_led_to(),
    under_layers(),
    over_records("operations over 100 records", (250, 500, 1_000), lambda count: (count, 100)),
    over_records("1,000 operations, records", (100, 200, 400), lambda count: (1_000, count)),
    # How many steps their plans have
    hard("a fragment twice in nested sets", (2_048, 4_096, 8_192), lambda count: fragments(2, count.bit_length() - 1)),
    hard("a fragment eight times", (512, 4_096), lambda count: fragments(8, (count.bit_length() - 1) // 3)),
    hard("conditions nested so deep", (6, 8, 10, 12), conditions),
    hard("the same, and a connection", (6, 8, 10, 12), lambda count: conditions(count, CONNECTION)),
]
