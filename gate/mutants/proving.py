"""Proves crates unchanged."""
import os
import subprocess
import sys

from .crates import ROOT, jobs


def prove(named):
    """Proves the crates unchanged, which keeps their work and builds the libraries below them.
    Returns those that are not proved, or None where no edit can be tried. A named crate
    that is not proved is tried anyway, to show which mutants a changed contract accepts."""
    unproved = []
    steps = [(["rt", "check"], f"{ROOT}/crates/{it}") for it in named]
    for words, folder in steps or [(["rt", "all", "check", "--jobs", str(jobs())], ROOT)]:
        ran = subprocess.run(words, cwd=folder, stdin=subprocess.DEVNULL, stdout=subprocess.PIPE,
                             stderr=subprocess.STDOUT, text=True, errors="replace", check=False)
        if ran.returncode and not (named and "\nlogic=not-proved" in ran.stdout):
            print(f"{ran.stdout[-3000:]}\nwrong: the unchanged crates are not proved, so no "
                  "mutant was tried", file=sys.stderr)
            return None
        unproved += [os.path.basename(folder)] * bool(ran.returncode)
    return unproved
