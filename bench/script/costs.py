#!/usr/bin/env python3
"""costs.py [PROGRAM]: the requests for memory that lines of several kinds make, and the bytes that a record takes.

Requests are counted over 1,000 and 2,000 lines of a kind after the same beginning, so a number is that of one line, with its reading and its
answer. The bytes are the most resident memory with 40,000 records less that with 20,000, for each record; ids and texts have six bytes. It wants
a C compiler, `cc`.
"""
import os
import subprocess
import sys
import tempfile

HERE = os.path.dirname(os.path.realpath(__file__))
PROGRAM = f"{HERE}/../../crates/relay_run/out/relay_run"
SCHEMA = "type Query{me:User} type User{id:ID! a:String b:String c:String d:String e:String age:Int friend:User}"
DOCUMENT = "query G{me{a age friend{a}}}"
BEGIN = """{"do":"retain","handle":"h","op":"G"}
{"do":"payload","handle":"h","response":{"data":{"me":{"id":"4","a":"Ann","age":5,"friend":{"id":"9","a":"Zoe"}}}}}
"""
WATCH = '{"do":"watch","watch":"w","handle":"h"}\n'
LAYER = '{"do":"begin","layer":"a","updates":[{"set":{"id":"9","field":"a","value":"Zoe"}}]}\n'
UPDATE = '{"do":"update","updates":[{"add":{"id":"4","field":"age","by":1}}]}\n'
REVERT = '{"do":"revert","layer":"a"}\n'
PAYLOAD = '{"do":"payload","handle":"h","response":{"data":{"me":{"id":"4","a":"Ann","age":%d,"friend":{"id":"9","a":"Zoe"}}}}}\n'

def kinds():
    """The name of a kind, what its script begins with, and the line of a number."""
    yield "`read` of three fields of two records", BEGIN, lambda n: '{"do":"read","handle":"h"}\n'
    yield "`update` of a field", BEGIN, lambda n: UPDATE
    yield "the same below a layer", BEGIN + LAYER, lambda n: UPDATE
    yield "the same, notifying a watch", BEGIN + WATCH, lambda n: UPDATE
    yield "`payload` that changes a field", BEGIN, lambda n: PAYLOAD % n
    yield "`payload` that changes nothing", BEGIN, lambda n: PAYLOAD % 5
    yield "`begin` and `revert`, two lines", BEGIN, lambda n: LAYER + REVERT
    yield "`collect` that drops nothing", BEGIN, lambda n: '{"do":"collect"}\n'
    yield "the same below a layer", BEGIN + LAYER, lambda n: '{"do":"collect"}\n'

def record(n, fields):
    """A line that makes a record with a number of fields."""
    sets = "".join(f',{{"set":{{"id":"{n:06}","field":"{key}","value":"{n:06}"}}}}' for key in "abcde"[:fields])
    return f'{{"do":"update","updates":[{{"create":{{"id":"{n:06}","type":"User"}}}}{sets}]}}\n'

def run(words, script, env):
    """The most resident bytes of a run."""
    with subprocess.Popen(words, stdin=subprocess.PIPE, stdout=subprocess.DEVNULL, env=env) as child:
        child.stdin.write(script.encode())
        child.stdin.close()
        _, code, usage = os.wait4(child.pid, 0)
        child.returncode = os.waitstatus_to_exitcode(code)
    if child.returncode:
        sys.exit(f"the program ended with {child.returncode}")
    return usage.ru_maxrss * 1024

def requests(words, script, room):
    count = f"{room}/count"
    run(words, script, {**os.environ, "LD_PRELOAD": f"{room}/refused.so", "REFUSED_CALL": "0", "REFUSED_COUNT": count})
    with open(count, encoding="utf-8") as file:
        return int(file.read())

def main():
    program = os.path.realpath(sys.argv[1] if len(sys.argv) > 1 else PROGRAM)
    with tempfile.TemporaryDirectory(prefix="costs-") as room:
        subprocess.run(["cc", "-O2", "-shared", "-fPIC", "-o", f"{room}/refused.so", f"{HERE}/refused.c", "-ldl"], check=True)
        for name, text in (("schema", SCHEMA), ("document", DOCUMENT)):
            with open(f"{room}/{name}", "w", encoding="utf-8") as file:
                file.write(text)
        words = [program, "run", "1", f"{room}/schema", f"{room}/document"]
        for name, begin, line in kinds():
            few, many = (requests(words, begin + "".join(map(line, range(count))), room) for count in (1000, 2000))
            print(f"{name}: {(many - few) / 1000:.1f} requests")
        for fields in (0, 1, 5):
            few, many = (run(words, "".join(record(n, fields) for n in range(count)), os.environ) for count in (20_000, 40_000))
            print(f"a record of {fields} fields: {(many - few) / 20_000:.0f} bytes")

if __name__ == "__main__":
    main()
