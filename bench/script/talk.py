#!/usr/bin/env python3
"""talk.py [PROGRAM] [LINES]: talks to the built program over pipes: a line, its answer, the next line; 10,000 lines where no number is given.

It prints the time of a line, from its writing until its answer is there, and fails where an answer is another one or is not there within 10
seconds, as it would not be from a program that reads on before it answers. The answer of every second line is a notification longer, since a watch
is live. Beside it, a process that gives each line back as it came shows what the pipes alone take.
"""
import os
import select
import subprocess
import sys
import tempfile
import time

HERE = os.path.dirname(os.path.realpath(__file__))
PROGRAM = f"{HERE}/../../crates/relay_run/out/relay_run"
SCHEMA = "type Query{me:User} type User{id:ID! age:Int}"
DOCUMENT = "query G{me{age}}"
BEGIN = [
    ('{"do":"retain","handle":"h","op":"G"}', ['{"n":1,"ok":"retain"}']),
    ('{"do":"payload","handle":"h","response":{"data":{"me":{"id":"4","age":5}}}}', ['{"n":2,"ok":"payload"}']),
    (
        '{"do":"watch","watch":"w","handle":"h"}',
        ['{"data":{"me":{"age":5}},"missing":false,"n":3,"ok":"watch","seen":["4","client:root"]}'],
    ),
]
ECHO = [sys.executable, "-c", "import os\nwhile b := os.read(0, 65536):\n    os.write(1, b)"]

def talked(n):
    """The line n, after the three first, and the lines of its answer."""
    if n % 2:
        return '{"do":"collect"}', [f'{{"dropped":0,"n":{n},"ok":"collect","waiting":false}}']
    age = 5 + (n - 2) // 2
    notice = f'{{"data":{{"me":{{"age":{age}}}}},"missing":false,"n":{n},"notice":"w","seen":["4","client:root"]}}'
    return '{"do":"update","updates":[{"add":{"id":"4","field":"age","by":1}}]}', [f'{{"n":{n},"ok":"update"}}', notice]

def answer(out, size):
    """`size` bytes of a pipe."""
    found = b""
    while len(found) < size:
        if not select.select([out], [], [], 10)[0]:
            sys.exit(f"no answer within 10 seconds; so far: {found!r}")
        part = os.read(out.fileno(), 65536)
        if not part:
            sys.exit(f"the output ended after {found!r}")
        found += part
    return found

def times(words, lines):
    """The time of each line, in microseconds, in a talk with a process that has to answer so."""
    talk = subprocess.Popen(words, stdin=subprocess.PIPE, stdout=subprocess.PIPE, bufsize=0)
    found = []
    for line, wanted in lines:
        begun = time.perf_counter()
        talk.stdin.write(line)
        got = answer(talk.stdout, len(wanted))
        found.append((time.perf_counter() - begun) * 1e6)
        if got != wanted:
            sys.exit(f"the answer of {line!r} is {got!r}, not {wanted!r}")
    talk.stdin.close()
    if talk.stdout.read() or talk.wait():
        sys.exit("the process wrote more than its answers, or did not end well")
    return sorted(found)

def tell(name, found):
    part = lambda share: found[min(len(found) - 1, int(len(found) * share))]
    print(f"{name}: {len(found):,} lines, a line {sum(found) / len(found):.1f} microseconds; half within {part(0.5):.1f}, 99 of 100 within {part(0.99):.1f}, at most {found[-1]:.0f}")

def main():
    program = os.path.realpath(sys.argv[1] if len(sys.argv) > 1 else PROGRAM)
    count = int(sys.argv[2]) if len(sys.argv) > 2 else 10_000
    told = BEGIN + [talked(n) for n in range(4, count + 1)]
    lines = [(f"{line}\n".encode(), "".join(f"{it}\n" for it in wanted).encode()) for line, wanted in told]
    with tempfile.TemporaryDirectory(prefix="talk-") as room:
        for name, text in (("schema.graphql", SCHEMA), ("query.graphql", DOCUMENT)):
            with open(f"{room}/{name}", "w", encoding="utf-8") as file:
                file.write(text)
        tell("the program", times([program, "run", "1", f"{room}/schema.graphql", f"{room}/query.graphql"], lines))
    tell("an echo", times(ECHO, [(line, line) for line, _ in lines]))

if __name__ == "__main__":
    main()
