"""The kit's command `rt` as a module, for scripts that call parts of it, and whether that kit keeps what `rt ci` passed.

A kit that keeps results takes the name of a crate, `rt ci NAME`, and proves later only what changed. One that keeps none has `rt ci`
alone, which proves all from nothing each time; there `rt check` in a crate's folder, or `rt all check --jobs N` at the top, keep what
they proved in the crates' out/, and only `rt ci` is the verdict. Run as a script this prints the arguments of a run from nothing.
"""

import importlib.machinery
import importlib.util
import os
import shutil
import sys

PLACE = os.path.realpath(shutil.which("rt"))
loader = importlib.machinery.SourceFileLoader("rt", PLACE)
rt = importlib.util.module_from_spec(importlib.util.spec_from_loader("rt", loader))
sys.modules["rt"] = rt
loader.exec_module(rt)
rt.rtlib.Crate = rt.Crate
KEEPS = hasattr(rt, "Kept")

def want_kept():
    """Ends the script where the kit keeps nothing."""
    if not KEEPS:
        sys.exit("this kit keeps nothing of what `rt ci` passes: run `rt ci` alone, or `rt all check --jobs 4`, which keeps its work in out/")

if __name__ == "__main__":
    print("ci --anew" if KEEPS else "ci")
