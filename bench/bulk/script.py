"""The script of the arguments `bulk SEED COUNT`, and the script of many updates under one watch: script.py bulk SEED COUNT, or script.py updates COUNT.

The first is defined in crates/relay_machine/specs/Bulk.antt; it is written here once more, line by line. The project stands beside the
script: s.graphql and d.graphql."""

import sys

SCHEMA = "type Query{me:User} type User{id:ID! age:Int friend:User}"
DOCUMENT = "query B{me{age friend{age}}}"
BUFFER = 10

UPDATE_SCHEMA = "type Query{me:User} type User{id:ID! age:Int}"
UPDATE_DOCUMENT = "query G{me{age}}"

def bulk(seed, count):
    """`count` lines."""
    first = ['{"do":"retain","handle":"h","op":"B"}', '{"do":"watch","handle":"h","watch":"w"}']
    yield from first[:count]
    drawn, live = seed, False
    for _ in range(count - 2):
        drawn = (drawn * 6364136223846793005 + 1442695040888963407) % 2**64
        number = drawn // 2**33
        age, kind = number % 1000, number // 1000 % 4
        if kind == 0:
            yield f'{{"do":"payload","handle":"h","response":{{"data":{{"me":{{"age":{age},"friend":{{"age":{age},"id":"u{age}"}},"id":"m"}}}}}}}}'
        elif kind == 1:
            yield f'{{"do":"payload","handle":"h","response":{{"data":{{"me":{{"age":{age},"id":"m"}}}}}}}}'
        elif kind == 2:
            yield '{"do":"revert","layer":"t"}' if live else '{"do":"begin","layer":"t","updates":[{"add":{"by":1,"field":"age","id":"m"}}]}'
            live = not live
        else:
            yield '{"do":"collect"}'

def updates(count):
    """A record, a watch of its age, and `count` updates of it."""
    yield '{"do":"retain","handle":"h","op":"G"}'
    yield '{"do":"payload","handle":"h","response":{"data":{"me":{"id":"4","age":5}}}}'
    yield '{"do":"watch","watch":"w","handle":"h"}'
    for _ in range(count):
        yield '{"do":"update","updates":[{"add":{"id":"4","field":"age","by":1}}]}'

def last_of_updates(count):
    """The expected last two lines."""
    n = count + 3
    return [f'{{"n":{n},"ok":"update"}}', f'{{"data":{{"me":{{"age":{5 + count}}}}},"missing":false,"n":{n},"notice":"w","seen":["4","client:root"]}}']

def summary(path, count):
    """The summary of what was written into a file for `count` lines, none of them refused."""
    written = lines = 0
    with open(path, "rb") as file:
        while piece := file.read(2**16):
            written, lines = written + len(piece), lines + piece.count(10)
    return f'{{"bytes":{written},"lines":{count},"notices":{lines - count},"refused":0}}'

if __name__ == "__main__":
    lines = bulk(int(sys.argv[2]), int(sys.argv[3])) if sys.argv[1] == "bulk" else updates(int(sys.argv[2]))
    sys.stdout.writelines(f"{line}\n" for line in lines)
