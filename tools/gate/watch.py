"""watch.py RECORDS ci: runs `rt ci` as it is, and writes a line into RECORDS for each prover
that it started.

A line: crate, phase (proof, tests, seed, mutant), mutant, processor seconds, peak memory in MiB; tabs
between them. The seed is the check of the crate as it stands, which follows on the mutants in must-fail/;
the first of these is checked from nothing. The numbers come from wait4(2): they hold what the process
and all its own children used, whatever ran beside it.
"""

import os
import subprocess
import sys
import threading

from kit import PLACE, rt

records, words = sys.argv[1], sys.argv[2:]
here, lock = threading.local(), threading.Lock()


def labelled(call, label_of):
    """The call, which labels what it starts in its thread, unless a call around it does."""

    def called(*given, **named):
        before = getattr(here, "label", None)
        here.label = before or label_of(*given)
        try:
            return call(*given, **named)
        finally:
            here.label = before

    return called


def waited(self, flags):
    """Stands for Popen._try_wait, and notes what the process used."""
    try:
        found, status, usage = os.wait4(self.pid, flags)
    except ChildProcessError:
        return self.pid, 0
    used = usage.ru_utime + usage.ru_stime
    line = [str(it) for it in self.args] if isinstance(self.args, (list, tuple)) else []
    if found and "--crate-name" in line:
        crate = line[line.index("--crate-name") + 1]
        phase, mutant = getattr(here, "label", None) or ("tests" if "--test" in line else "proof", "")
        with lock, open(records, "a", encoding="utf-8") as file:
            print(crate, phase, mutant, f"{used:.2f}", usage.ru_maxrss // 1024, sep="\t", file=file)
    return found, status


rt.must_fail = labelled(rt.must_fail, lambda crate, mutant, *more: ("mutant", os.path.basename(mutant)[: -len(".edit")]))
rt.checked = labelled(rt.checked, lambda crate, *more: ("seed", ""))
subprocess.Popen._try_wait = waited
sys.argv[0] = PLACE
status = rt.main(words)
sys.stdout.flush()
sys.exit(status)
