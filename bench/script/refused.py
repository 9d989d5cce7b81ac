#!/usr/bin/env python3
"""refused.py [PROGRAM [TESTS]]: runs scripts of the tests with each of their requests for memory refused in turn, one a run.

The scripts are those of crates/run_tests/src/rows.rt: a watch with a layer, pages of a connection, and operations that are released and swept.
A run may end as it does with ample memory, where the program asked again; else it ends with status 6, and what it wrote is the beginning of the
answers with ample memory, empty or up to an LF. Prints for each script the number of runs, and how many of them ended so and so; a run that ends
otherwise is reported, and the status is 1. TESTS is the built program of engine_tests (`rt test` makes it): the test that gives a line once
more where memory is lacking is run in the same way. It passes, or had itself no memory: for its engine, or for its text. It wants a C compiler,
`cc`.
"""
import collections
import os
import re
import subprocess
import sys
import tempfile

HERE = os.path.dirname(os.path.realpath(__file__))
TOP = os.path.dirname(os.path.dirname(HERE))
PROGRAM = f"{TOP}/crates/relay_run/out/relay_run"
AGAIN = "memory::a_line_is_given_again_where_memory_is_lacking"
WANTED = ["query G{me{age}}", "query K($after:String)", "query O($id:ID!)"]

def text_of(path):
    with open(path, encoding="utf-8") as file:
        return file.read()

def schema():
    return re.search(r'CONNECTIONS: &str = "(.*?)";', text_of(f"{TOP}/crates/run_tests/src/running.rt"), re.S)[1]

def rows():
    """The rows of the tests that are wanted: the document, the script, and the answers."""
    texts = re.findall(r'&str = r#"(.*?)"#;', text_of(f"{TOP}/crates/run_tests/src/rows.rt"), re.S)
    for row in (row for text in texts for row in text.split("=\n")):
        document, script, answers = row.split("\n\n", 2)
        if any(document.startswith(it) for it in WANTED):
            yield document, f"{script}\n", answers

def run(words, given, refuse, room, call):
    """Runs a program with one request for memory refused, and returns it with the number of its requests."""
    count = f"{room}/count"
    how = {"LD_PRELOAD": refuse, "REFUSED_CALL": str(call), "REFUSED_COUNT": count}
    ran = subprocess.run(words, input=given, capture_output=True, env={**os.environ, **how}, check=False)
    return ran, int(text_of(count)) if os.path.isfile(count) else 0

def end_of(ran, status, answers):
    """How a run ended."""
    if (ran.returncode, ran.stdout) == (status, answers):
        return "as with ample memory"
    if ran.returncode == 6 and answers.startswith(ran.stdout) and (not ran.stdout or ran.stdout.endswith(b"\n")):
        return "out of memory, after whole lines" if ran.stdout else "out of memory, before any line"
    return f"WRONG: status {ran.returncode}, {len(ran.stdout)} bytes, {ran.stderr[-200:]!r}"

def tell(name, ends):
    print(f"{name}: {sum(ends.values()):,} runs: {'; '.join(f'{count:,} {end}' for end, count in sorted(ends.items()))}", flush=True)
    return any(it.startswith("WRONG") for it in ends)

def of_program(program, refuse, room):
    wrong = False
    for document, script, answers in rows():
        for name, text in (("schema", schema()), ("document", document)):
            with open(f"{room}/{name}", "w", encoding="utf-8") as file:
                file.write(text)
        words, given, wanted = [program, "run", "10", f"{room}/schema", f"{room}/document"], script.encode(), answers.encode()
        ample, asked = run(words, given, refuse, room, 0)
        if ample.stdout != wanted or ample.returncode not in (0, 1) or not asked:
            sys.exit(f"{document}: status {ample.returncode}, {asked} requests; with ample memory the answers are not those of the row")
        ends = collections.Counter(end_of(run(words, given, refuse, room, call)[0], ample.returncode, wanted) for call in range(1, asked + 1))
        wrong |= tell(document.split(" ")[1].split("{")[0].split("(")[0], ends)
    return wrong

def end_of_test(ran):
    """How a run of the test ended."""
    said = ran.stdout + ran.stderr
    if ran.returncode == 0:
        return "as with ample memory"
    if b"error: NoMemory" in said:
        return "out of memory, before the engine is made"
    if b"error: AllocError" in said:
        return "out of memory, for the test's own text"
    return f"WRONG: status {ran.returncode}, {said[-200:]!r}"

def of_test(tests, refuse, room):
    words = [tests, AGAIN]
    ample, asked = run(words, b"", refuse, room, 0)
    if ample.returncode or not asked:
        sys.exit(f"{AGAIN}: status {ample.returncode}, {asked} requests with ample memory")
    ends = [end_of_test(run(words, b"", refuse, room, call)[0]) for call in range(1, asked + 1)]
    made = max((at for at, end in enumerate(ends, 1) if end.endswith("is made")), default=0)
    print(f"{AGAIN}: its project and engine are made with the first {made:,} requests at most")
    return tell(AGAIN, collections.Counter(ends))

def main():
    with tempfile.TemporaryDirectory(prefix="refused-") as room:
        refuse = f"{room}/refused.so"
        subprocess.run(["cc", "-O2", "-shared", "-fPIC", "-o", refuse, f"{HERE}/refused.c", "-ldl"], check=True)
        program = os.path.realpath(sys.argv[1] if len(sys.argv) > 1 else PROGRAM)
        wrong = of_program(program, refuse, room)
        for tests in sys.argv[2:]:
            wrong |= of_test(os.path.realpath(tests), refuse, room)
        return wrong

if __name__ == "__main__":
    sys.exit(main())
