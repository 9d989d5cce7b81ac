"""Projects for the arguments `compile`: a schema, documents of a given number of parts, and the expected lines, the same at each run.

The lines are written here by hand for each form, and never taken from the program."""

import json

SCHEMA = """interface Node { id: ID! }
type User implements Node { id: ID! name: String friend: User friends(first: Int, after: String): Friends }
type Friends { edges: [Edge] pageInfo: PageInfo! }
type Edge { cursor: String node: User }
type PageInfo { hasNextPage: Boolean hasPreviousPage: Boolean startCursor: String endCursor: String }
type Query { me: User node(id: ID!): Node team(size: Int! = 10, like: Like): [User] }
input Like { name: String, ids: [ID!], more: Like }
"""

def plain(count):
    return SCHEMA

def wide(count):
    """The schema with a thousand more objects below its interface."""
    return SCHEMA + "".join(f"type T{n} implements Node {{ id: ID! }}\n" for n in range(1_000))

def narrowing(count):
    """A schema whose interface is implemented by four objects, on which a field leads to one or the other of two narrower interfaces. Each of
    these has objects of both kinds."""
    objects = [("A", "J & K", "J"), ("B", "J & K", "K"), ("C", "J", "J"), ("D", "K", "K")]
    return ("interface I { n: I }\ninterface J implements I { n: I }\ninterface K implements I { n: I }\ntype Query { i: I }\n"
            + "".join(f"type {name} implements I & {others} {{ n: {of} }}\n" for name, others, of in objects))

def line(**members):
    return json.dumps(members, separators=(",", ":"), sort_keys=True) + "\n"

def query(name, text):
    return line(kind="query", name=name, text=text)

def fragment(name, of):
    return line(kind="fragment", name=name, type=of)

def refusal(rule, at_line, column):
    return line(column=column, file="d.graphql", line=at_line, rule=rule)

def operations(count):
    """Operations, each with variables, arguments, a directive and two fragments of its own."""
    for n in range(count):
        source = (f"query Q{n}($id: ID!, $first: Int = 10, $skip: Boolean!, $name: String) {{\n"
                  f"  node(id: $id) {{ ...A{n} ... on User @skip(if: $skip) {{ friends(first: $first) {{ edges {{ node {{ ...A{n} }} }} }} }} }}\n"
                  f"  team(size: 3, like: {{name: $name, ids: [$id, {n}], more: {{name: \"n{n}\"}}}}) {{ id ...B{n} }}\n}}\n"
                  f"fragment A{n} on User {{ id name friend {{ name ...B{n} }} }}\n"
                  f"fragment B{n} on Node {{ id ... on User {{ a: friends(first: $first, after: \"{n}\") {{ edges {{ cursor }} }} }} }}\n")
        b = f'...on Node{{id ...on User{{a:friends(after:"{n}",first:$first){{edges{{cursor}}}}}}}}'
        a = f"...on User{{id name friend{{name {b} id}}}}"
        text = (f"query Q{n}($id:ID!,$first:Int=10,$skip:Boolean!,$name:String){{"
                f"node(id:$id){{{a} ...on User@skip(if:$skip){{friends(first:$first){{edges{{node{{{a} id}}}}}}}} id __typename}} "
                f'team(like:{{ids:[$id,{n}],more:{{name:"n{n}"}},name:$name}},size:3){{id {b}}}}}')
        yield source, query(f"Q{n}", text) + fragment(f"A{n}", "User") + fragment(f"B{n}", "Node")

def product(count):
    """A project in `count` files, each of some 4 KB with two operations and two fragments: arguments, directives, a connection, and spreads
    with arguments."""
    for n in range(count):
        sources, lines = [], []
        for k in (2 * n, 2 * n + 1):
            added = "edges{cursor node{id}} pageInfo{endCursor hasNextPage hasPreviousPage startCursor}"
            sources.append(f"query Screen{k}($id: ID!, $count: Int = 10, $after: String, $wide: Boolean!) {{\n"
                           + "".join(f"  part{j}: node(id: $id) {{\n    ... on User {{\n      name\n      ...Card{n} @arguments(size: {j}) @include(if: $wide)\n    }}\n  }}\n" for j in range(12))
                           + f"  me {{\n    friends(first: $count, after: $after) @connection(key: \"Screen{k}_friends\") {{ edges {{ node {{ id name }} }} }}\n  }}\n}}\n")
            card = lambda j: (f"...on User@include(if:$wide){{id title:name friend{{name id}} small:friends(first:{j}){{edges{{cursor node{{...on User{{name}} id}}}}}}}}")
            text = (f"query Screen{k}($id:ID!,$count:Int=10,$after:String,$wide:Boolean!){{"
                    + " ".join(f"part{j}:node(id:$id){{...on User{{name {card(j)}}} id __typename}}" for j in range(12))
                    + f" me{{friends(after:$after,first:$count){{edges{{node{{id name}}}} {added}}} id}}}}")
            lines.append(query(f"Screen{k}", text))
        sources.append(f"fragment Card{n} on User @argumentDefinitions(size: {{type: \"Int\", defaultValue: 1}}) {{\n  id\n  title: name\n  friend {{ name }}\n"
                       f"  small: friends(first: $size) {{ edges {{ cursor node {{ ...Name{n} }} }} }}\n}}\n"
                       f"fragment Name{n} on User {{\n  name\n}}\n")
        lines.append(fragment(f"Card{n}", "User") + fragment(f"Name{n}", "User"))
        yield "".join(sources), "".join(lines)

def one_set(name, parts, texts):
    """An operation with these selections below `me`, one in a line."""
    yield f"query {name} {{ me {{\n" + "".join(f"{part}\n" for part in parts) + "} }\n", query(name, f"query {name}{{me{{" + " ".join(texts) + " id}}")

def typenames(count):
    """An operation of `count` fields `__typename`, each under a name of its own."""
    parts = [f"a{n}:__typename" for n in range(count)]
    yield "query Q {\n" + "\n".join(parts) + "\n}\n", query("Q", "query Q{" + " ".join(parts) + "}")

def same_field(count):
    """An operation that has one field `count` times."""
    yield from one_set("Q", ["name"] * count, ["name"] * count)

def abstract(count):
    """`count` fields of an interface that a thousand objects implement."""
    yield ("query Q {\n" + "".join(f'a{n}: node(id: "{n}") {{ id }}\n' for n in range(count)) + "}\n",
           query("Q", "query Q{" + " ".join(f'a{n}:node(id:"{n}"){{id __typename}}' for n in range(count)) + "}"))

def spreads(count):
    """An operation that spreads `count` fragments side by side."""
    yield from one_set("Q", [f"...F{n}" for n in range(count)], ["...on User{name}"] * count)
    for n in range(count):
        yield f"fragment F{n} on User {{ name }}\n", fragment(f"F{n}", "User")

def local_values(count):
    """The same with one fragment of a local variable, which gets another value each time."""
    yield from one_set("Q", [f"... {{ a{n}: friend {{ ...F @arguments(n: {n}) }} }}" for n in range(count)],
                       [f"...{{a{n}:friend{{...on User{{friends(first:{n}){{edges{{cursor}}}}}} id}}}}" for n in range(count)])
    yield 'fragment F on User @argumentDefinitions(n: {type: "Int"}) { friends(first: $n) { edges { cursor } } }\n', fragment("F", "User")

def nested(count):
    """Sixty sets in one another, and at each level as many fields, and the spread of a fragment of as many."""
    each = count // 60
    inside = lambda level: " ".join(f"a{level}_{n}:name" for n in range(each))
    source, text = "", ""
    for level in range(58, 0, -1):
        below = f"friend{{{source}}}" if level < 58 else ""
        source = f"{inside(level)} ...F{level % 4} {below}\n"
        text = " ".join(filter(None, [inside(level), f"...on User{{{inside(99)} n{level % 4}:name}}", f"friend{{{text}}}" if level < 58 else "", "id"]))
    yield f"query Q {{ me {{ {source} }} }}\n", query("Q", f"query Q{{me{{{text}}}}}")
    for n in range(4):
        yield f"fragment F{n} on User {{ {inside(99)} n{n}:name }}\n", fragment(f"F{n}", "User")

def narrowed(count):
    """A field that object types narrow, a number of times below itself."""
    text = "__typename"
    for _ in range(count):
        text = f"n{{{text}}} __typename"
    yield "query Q { i { " + "n { " * count + "__typename" + " }" * count + " } }\n", query("Q", f"query Q{{i{{{text}}}}}")

def conditions(count):
    """A number of fields under 57 conditions in one another."""
    fields = " ".join(f"a{n}:name" for n in range(count))
    yield ("query Q($v: Boolean!) { me { " + "... @include(if: $v) { " * 57 + fields + " }" * 57 + " } }\n",
           query("Q", "query Q($v:Boolean!){me{" + "...@include(if:$v){" * 57 + fields + "}" * 57 + " id}}"))

def over_one(count):
    """`count` operations that spread one large fragment."""
    body = " ".join(f"a{n}:name" for n in range(200))
    for n in range(count):
        yield f"query Q{n} {{ me {{ ...F }} }}\n", query(f"Q{n}", f"query Q{n}{{me{{...on User{{{body}}} id}}}}")
    yield f"fragment F on User {{ {body} }}\n", fragment("F", "User")

def connections(count):
    """`count` connections, each with filters."""
    added = "edges{cursor} edges{cursor node{id}} pageInfo{endCursor hasNextPage hasPreviousPage startCursor}"
    yield from one_set("Q", [f'a{n}: friends(first: {n}) @connection(key: "Q_a{n}", filters: ["first", "after"]) {{ edges {{ cursor }} }}' for n in range(count)],
                       [f"a{n}:friends(first:{n}){{{added}}}" for n in range(count)])

def twice(count):
    """A chain of `count` fragments, of which each spreads the next twice: the first have too many nodes."""
    yield "query Q { me { ...F0 } }\n", ""
    for n in range(count - 1):
        yield f"fragment F{n} on User {{ ...F{n + 1} ...F{n + 1} }}\n", ""
    yield f"fragment F{count - 1} on User {{ name }}\n", refusal("E1", 1, 7)

def chain(count):
    """A chain of `count` fragments: the first nest too deep."""
    yield "query Q { me { ...F0 } }\n", ""
    for n in range(count - 1):
        yield f"fragment F{n} on User {{ ...F{n + 1} }}\n", ""
    yield f"fragment F{count - 1} on User {{ name }}\n", refusal("E2", 1, 7)

# name, schema, parts, how many, whether each part is a file, and the expected status
PROJECTS = [
    ("a product, in files", plain, product, [250, 500, 1_000], True, 0),
    ("operations", plain, operations, [1_000, 2_000, 4_000], False, 0),
    ("fields __typename", plain, typenames, [25_000, 50_000, 100_000], False, 0),
    ("one response key", plain, same_field, [12_500, 25_000, 50_000], False, 0),
    ("sixty sets, fragments", plain, nested, [6_000, 12_000, 24_000], False, 0),
    ("narrowed at each level", narrowing, narrowed, [10, 20, 40], False, 0),
    ("under 57 conditions", plain, conditions, [12_375, 24_750, 49_500, 99_000], False, 0),
    ("over one large fragment", plain, over_one, [2_500, 5_000, 10_000], False, 0),
    ("below an interface", wide, abstract, [6_000, 12_000, 24_000], False, 0),
    ("fragments, side by side", plain, spreads, [10_000, 20_000, 40_000], False, 0),
    ("local values", plain, local_values, [2_500, 5_000, 10_000], False, 0),
    ("connections", plain, connections, [1_500, 3_000, 6_000], False, 0),
    ("each next twice", plain, twice, [30, 60, 120], False, 3),
    ("a chain, too deep", plain, chain, [1_000, 2_000, 4_000], False, 3),
]
