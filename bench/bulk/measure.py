"""Times the program on the scripts of this bench, beside a plain program where one is named: measure.py PROGRAM [BASELINE].

The whole output is compared with that of the plain program, byte for byte, and the last lines against the expected ones. Where the
program takes the arguments `bulk`, they are timed too, and their summary is compared with the one of that output."""

import os, subprocess, sys, time
import script

ROUNDS = int(os.environ.get("ROUNDS", "5"))
SEED = 7
# Seconds that no script may take
LONGEST = 60

def run(words, lines, output):
    """The processor time of a run, its time by the clock, its most memory in MiB, and its status."""
    with open(lines, "rb") as given, open(output, "wb") as taken:
        began = time.monotonic()
        child = subprocess.Popen(words, stdin=given, stdout=taken)
        _, code, usage = os.wait4(child.pid, 0)
        clock = time.monotonic() - began
    return usage.ru_utime + usage.ru_stime, clock, usage.ru_maxrss / 1024, os.waitstatus_to_exitcode(code)

def is_same(one, other):
    return subprocess.call(["cmp", "-s", one, other]) == 0

class Scripts:
    """The scripts of one kind, in all sizes."""

    def __init__(self, name, counts, lines, schema, document, plan):
        self.name, self.counts, self.plan = name, counts, plan
        open(f"{name}.graphqls", "w").write(schema)
        open(f"{name}.graphql", "w").write(document)
        for count in counts:
            with open(f"{name}{count}", "w") as file:
                file.writelines(f"{line}\n" for line in lines(count))
        self.words = [program, "run", str(script.BUFFER), f"{name}.graphqls", f"{name}.graphql"]

    def due(self, count, output):
        """What is wrong with the program's output, and the summary of it."""
        last = subprocess.check_output(["tail", "-n", "2", output], text=True).splitlines()
        wrong = []
        if self.name == "updates" and last != script.last_of_updates(count):
            wrong.append("the last lines are not the expected ones")
        if baseline and not is_same(output, f"{output}-plain"):
            wrong.append("the plain program writes otherwise")
        return wrong, script.summary(output, count)

    def measure(self):
        best, wrongs = {}, {}
        for at in range(ROUNDS):
            # Rounds over all sizes, so that what else the machine does meets each of them
            for count in self.counts:
                lines, output = f"{self.name}{count}", f"out-{self.name}{count}"
                ways = [("program", self.words, output)]
                if baseline:
                    ways.append(("plain", [baseline, self.plan], f"{output}-plain"))
                if self.name == "bulk" and has_bulk:
                    ways.append(("bulk", [program, "bulk", str(SEED), str(count)], f"{output}-summary"))
                for way, words, to in ways:
                    took = run(words, lines, to)
                    best[way, count] = tuple(map(min, took, best.get((way, count), took)))
                    wrongs.setdefault(count, [])
                    if took[3] != 0:
                        wrongs[count].append(f"{way} ends with status {took[3]}")
                    if took[1] > LONGEST:
                        wrongs[count].append(f"{way} took {took[1]:.0f} seconds")
                if at == 0:
                    wrong, summary = self.due(count, output)
                    wrongs[count] += wrong
                    if has_bulk and self.name == "bulk" and open(f"{output}-summary").read() != summary + "\n":
                        wrongs[count].append(f"the summary is not {summary}")
        self.tell(best, wrongs)
        return any(wrongs.values())

    def tell(self, best, wrongs):
        half = None
        for count in self.counts:
            took, clock, peak, _ = best["program", count]
            plain = best.get(("plain", count))
            words = best.get(("bulk", count))
            cells = [f"{self.name:8} {count:8} {took*1e3:7.0f} {clock*1e3:7.0f} {peak:6.0f} {f'{took/half:.2f}' if half else '':>6}",
                     f"{plain[0]*1e3:7.0f} {plain[2]:6.0f} {took/plain[0]:6.2f}" if plain else " " * 21,
                     f"{words[0]*1e3:7.0f} {words[1]*1e3:7.0f} {words[2]:6.0f}" + (f" {words[0]/plain[0]:6.2f}" if plain else "") if words else ""]
            print(" ".join(cells), "; ".join(wrongs[count]) or "as expected", flush=True)
            half = took

program, baseline = sys.argv[1], (sys.argv[2:] or [None])[0]
has_bulk = run([program, "bulk", str(SEED), "3"], os.devnull, "first")[3] == 0
if has_bulk and open("first").read() != '{"bytes":205,"lines":3,"notices":1,"refused":0}\n':
    sys.exit("the words bulk 7 3 give another summary than the expected one")
print("load", *open("/proc/loadavg").read().split()[:3], f"least of {ROUNDS} rounds;", "the words bulk are timed too" if has_bulk else "the program has no words bulk yet")
print("script      lines      ms   clock   peak  grown   plain   peak  ratio  | the words bulk: ms, clock, peak, ratio")
kinds = [Scripts("bulk", (50_000, 100_000, 200_000), lambda count: script.bulk(SEED, count), script.SCHEMA, script.DOCUMENT, "B"),
         Scripts("updates", (25_000, 50_000, 100_000), script.updates, script.UPDATE_SCHEMA, script.UPDATE_DOCUMENT, "G")]
wrong = [kind.measure() for kind in kinds]
print("load", *open("/proc/loadavg").read().split()[:3])
sys.exit(any(wrong))
