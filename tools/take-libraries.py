#!/usr/bin/env python3
"""Takes over libraries that the gate has proved in another checkout, so that checks here need not prove them again.

    tools/take-libraries.py CHECKOUT LOG

CHECKOUT is where `rt ci` runs or ran, LOG what it printed. A crate's library is taken where the log says
that it was proved, and its sources, and those of all crates below it, are the same here. A first
`rt check` of a new crate then takes seconds where it would prove everything below first. Nothing rests
on what is taken: only `rt ci` is the verdict, and it uses none of it. Run it again as the gate goes on.
"""
import importlib.machinery
import importlib.util
import os
import re
import shutil
import sys

PARTS = ("src", "specs", "proofs")


def kit():
    """The kit's command `rt`, as a module: it knows the crates and what a library is made from."""
    loader = importlib.machinery.SourceFileLoader("rt", os.path.realpath(shutil.which("rt")))
    made = importlib.util.module_from_spec(importlib.util.spec_from_loader("rt", loader))
    loader.exec_module(made)
    made.Crate.allowed = ()
    return made


def texts(folder):
    """The bytes of each source file of a crate, by its path in the crate."""
    found = {}
    for part in PARTS:
        for at, _, names in os.walk(f"{folder}/{part}"):
            for name in names:
                with open(f"{at}/{name}", "rb") as it:
                    found[os.path.relpath(f"{at}/{name}", folder)] = it.read()
    return found


def take(crate, there):
    """Puts the library of a crate here, with the sum of what it is made from."""
    here = f"{crate.folder}/out/rlib"
    shutil.rmtree(here, ignore_errors=True)
    os.makedirs(f"{crate.folder}/out", exist_ok=True)
    shutil.copytree(f"{there}/out/rlib", here)
    with open(f"{here}/stamp", "w", encoding="utf-8") as it:
        it.write(crate.stamp())


def main(checkout, log):
    with open(log, encoding="utf-8", errors="replace") as it:
        proved = set(re.findall(r"^rt: (\w+) (?:proved$|is kept)", it.read(), re.M))
    other, taken = set(), []
    for crate in kit().crates_of(os.getcwd()):
        there = f"{checkout}/crates/{os.path.basename(crate.folder)}"
        if any(below.name in other for below in crate.below()) or texts(crate.folder) != texts(there):
            other.add(crate.name)
        elif crate.name in proved and not crate.is_built() and os.path.isdir(f"{there}/out/rlib/{crate.name}.rlib"):
            take(crate, there)
            taken.append(crate.name)
    print(f"{len(taken)} libraries taken: {' '.join(taken) or 'none'}")


if __name__ == "__main__":
    if len(sys.argv) != 3:
        sys.exit(__doc__)
    main(os.path.realpath(sys.argv[1]), sys.argv[2])
