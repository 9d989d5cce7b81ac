"""Projects for the rules of documents: a schema, and documents of a given number of definitions, the same at each run."""

SCHEMA = """interface Node { id: ID! }
type User implements Node { id: ID! name: String friend: User friends(first: Int, after: String): Friends }
type Friends { edges: [Friend] }
type Friend { cursor: String node: User }
type Query { me: User node(id: ID!): Node team(size: Int! = 10, like: Like): [User] }
type Subscription { changed: User }
input Like { name: String, ids: [ID!], more: Like }
"""

def operations(count):
    """Operations, each with variables, arguments, a directive and two fragments of its own."""
    for n in range(count):
        yield (f"query Q{n}($id: ID!, $first: Int = 10, $skip: Boolean!, $name: String) {{\n"
               f"  node(id: $id) {{ ...A{n} ... on User @skip(if: $skip) {{ friends(first: $first) {{ edges {{ node {{ ...A{n} }} }} }} }} }}\n"
               f"  team(size: 3, like: {{name: $name, ids: [$id, {n}], more: {{name: \"n{n}\"}}}}) {{ id ...B{n} }}\n}}\n"
               f"fragment A{n} on User {{ id name friend {{ name ...B{n} }} }}\n"
               f"fragment B{n} on Node {{ id ... on User {{ friends(first: $first, after: \"{n}\") {{ edges {{ cursor }} }} }} }}\n")

def chain(count):
    """An operation, and fragments of which each spreads the next."""
    yield "query Q { me { ...F0 } }\n"
    for n in range(count - 1):
        yield f"fragment F{n} on User {{ ...F{n + 1} }}\n"
    yield f"fragment F{count - 1} on User {{ name }}\n"

def subscription(count):
    """The same at the root of a subscription."""
    yield "subscription S { ...F0 }\n"
    for n in range(count - 1):
        yield f"fragment F{n} on Subscription {{ changed {{ id }} ...F{n + 1} }}\n"
    yield f"fragment F{count - 1} on Subscription {{ changed {{ id }} }}\n"

def subscriptions(count):
    """`count` operations, and below all of them a chain of `count` fragments, the last of which has the one field."""
    for n in range(count):
        yield f"subscription S{n} {{ ...F0 }}\n"
    for n in range(count - 1):
        yield f"fragment F{n} on Subscription {{ ...F{n + 1} }}\n"
    yield f"fragment F{count - 1} on Subscription {{ changed {{ id }} }}\n"

def kinds(count):
    """A schema with a union and an interface of `count` objects, which have the last one in common."""
    yield SCHEMA.replace("type Query {", "type Query { any: Any")
    yield "interface Late { id: ID! }\n"
    for n in range(count):
        yield f"type A{n} {{ id: ID! }} type B{n} implements Late {{ id: ID! }}\n"
    yield "type Z implements Late { id: ID! }\nunion Any = Z" + "".join(f" | A{n}" for n in range(count)) + "\n"

def conditions(count):
    """A selection with `count` conditions on the interface inside the union."""
    yield "query Q { any { __typename\n"
    for n in range(count):
        yield "  ... on Late { id }\n"
    yield "} }\n"

def cycle(count):
    """Fragments of which each spreads the next, and the last one itself."""
    yield "query Q { me { ...F0 } }\n"
    for n in range(count - 1):
        yield f"fragment F{n} on User {{ ...F{n + 1} }}\n"
    yield f"fragment F{count - 1} on User {{ ...F{count - 1} }}\n"

def over_one_chain(count):
    """Operations of one variable, all over one chain of as many fragments, of which the last one uses it."""
    for n in range(count):
        yield f"query Q{n}($first: Int) {{ me {{ ...F0 }} }}\n"
    for n in range(count - 1):
        yield f"fragment F{n} on User {{ ...F{n + 1} }}\n"
    yield f"fragment F{count - 1} on User {{ friends(first: $first) {{ edges {{ cursor }} }} }}\n"

def without_variable(count):
    """The same, and no operation has the variable."""
    for n in range(count):
        yield f"query Q{n} {{ me {{ ...F0 }} }}\n"
    for n in range(count - 1):
        yield f"fragment F{n} on User {{ ...F{n + 1} }}\n"
    yield f"fragment F{count - 1} on User {{ friends(first: $first) {{ edges {{ cursor }} }} }}\n"

def many_variables(count):
    """An operation of many variables, and a chain of fragments of which each uses one."""
    yield "query Q(" + ", ".join(f"$v{n}: Int" for n in range(count)) + ") { me { ...F0 } }\n"
    for n in range(count - 1):
        yield f"fragment F{n} on User {{ a{n}: friends(first: $v{n}) {{ edges {{ cursor }} }} ...F{n + 1} }}\n"
    yield f"fragment F{count - 1} on User {{ friends(first: $v{count - 1}) {{ edges {{ cursor }} }} }}\n"

LOCAL = '@argumentDefinitions(first: {type: "Int", defaultValue: 10})'

def given_on(count):
    """A chain of fragments of one local variable each, of which each gives its own to the next."""
    yield "query Q { me { ...F0 @arguments(first: 1) } }\n"
    for n in range(count - 1):
        yield f"fragment F{n} on User {LOCAL} {{ ...F{n + 1} @arguments(first: $first) }}\n"
    yield f"fragment F{count - 1} on User {LOCAL} {{ friends(first: $first) {{ edges {{ cursor }} }} }}\n"

def given_to_one(count):
    """Operations of one variable, all over one chain of as many fragments, of which the last one gives it to a local variable."""
    for n in range(count):
        yield f"query Q{n}($first: Int) {{ me {{ ...F0 }} }}\n"
    for n in range(count - 1):
        yield f"fragment F{n} on User {{ ...F{n + 1} }}\n"
    yield f"fragment F{count - 1} on User {{ ...Last @arguments(first: $first) }}\n"
    yield f"fragment Last on User {LOCAL} {{ friends(first: $first) {{ edges {{ cursor }} }} }}\n"

def pages(count):
    """The schema with types of connections."""
    yield SCHEMA.replace("edges: [Friend]", "edges: [Friend] pageInfo: PageInfo!")
    yield "type PageInfo { hasNextPage: Boolean hasPreviousPage: Boolean startCursor: String endCursor: String }\n"

def connections(count):
    """A selection with `count` connections."""
    yield "query Q { me {\n"
    for n in range(count):
        yield f'  a{n}: friends(first: {n}) @connection(key: "Q_a{n}", filters: ["first", "after"]) {{ edges {{ cursor }} }}\n'
    yield "} }\n"

LAST = 'query Last { me { friend @connection(key: "Last_friend") { name } } }\n'

def broken_at_last(make):
    """The same, and after it a connection that is none: all rules on documents are asked, and V22 is violated.
    What the operations and fragments become is not asked then: chains are deeper than that may be."""
    def whole(count):
        yield from make(count)
        yield LAST
    whole.lines = lambda count: sum(line.count("\n") for line in make(count)) + 1
    return whole

def fault(rule, line, column):
    """The line that a project with a fault in its document is refused by."""
    return f'{{"column":{column},"file":"d.graphql","line":{line},"rule":"{rule}"}}\n'

# Where every rule holds, a script of no line has no answer.
TAKEN = ""

def last_spread(count):
    return fault("V5", count + 1, len(f"fragment F{count - 1} on User {{ ...") + 1)

def last_use(count):
    return fault("V16", 2 * count, len(f"fragment F{count - 1} on User {{ friends(first: $") + 1)

def last_connection(make):
    return lambda count: fault("V22", make.lines(count), LAST.index("connection") + 1)

def plain(count):
    """The schema of all projects but one."""
    yield SCHEMA

# name, schema, documents, how many definitions, and the expected answer
BROKEN_AT_LAST = [
    (name, schema, broken_at_last(make), counts)
    for name, schema, make, counts in [
        ("fragments in a chain", plain, chain, [10_000, 20_000, 40_000]),
        ("below a subscription", plain, subscription, [10_000, 20_000, 40_000]),
        ("many subscriptions", plain, subscriptions, [1_000, 2_000, 4_000]),
        ("all over one chain", plain, over_one_chain, [1_000, 2_000, 4_000]),
        ("given on and on", plain, given_on, [5_000, 10_000, 20_000]),
        ("given below a chain", plain, given_to_one, [1_000, 2_000, 4_000]),
        ("connections", pages, connections, [5_000, 10_000, 20_000]),
        ("many variables", plain, many_variables, [1_000, 2_000, 4_000]),
    ]
]

PROJECTS = [
    ("operations", plain, operations, [1_000, 2_000, 4_000], lambda count: TAKEN),
    ("late common types", kinds, conditions, [2_000, 4_000, 8_000], lambda count: TAKEN),
    ("a cycle at the end", plain, cycle, [10_000, 20_000, 40_000], last_spread),
    ("without a variable", plain, without_variable, [1_000, 2_000, 4_000], last_use),
    *((name, schema, make, counts, last_connection(make)) for name, schema, make, counts in BROKEN_AT_LAST),
]
