#!/usr/bin/env python3
"""Looks whether each must-fail edit of the repository can be applied, in a second and without the prover.

    tools/look-at-edits.py [CRATE ..]

An edit names a file of its crate, and its old text stands exactly once in it. What it says of an edit is
what the gate would say after the proofs. The exit status is 1 where an edit cannot be applied.
"""
import importlib.machinery
import importlib.util
import os
import shutil
import sys
import types


def kit():
    """The kit's command `rt`, as a module: it reads edits as the gate does."""
    sys.dont_write_bytecode = True
    loader = importlib.machinery.SourceFileLoader("rt", os.path.realpath(shutil.which("rt")))
    made = importlib.util.module_from_spec(importlib.util.spec_from_loader("rt", loader))
    loader.exec_module(made)
    return made


def main(wanted):
    rt, looked, bad = kit(), 0, 0
    for name in sorted(wanted or os.listdir("crates")):
        folder = f"{os.getcwd()}/crates/{name}"
        good, odd = rt.edits_of(types.SimpleNamespace(folder=folder))
        told = [(it, "it is no edit right in must-fail/") for it in odd]
        told += [(it, rt.read_edit(it, folder)[1]) for it in good]
        looked += len(told)
        for edit, why in told:
            if why:
                bad += 1
                print(f"{os.path.relpath(edit)}: {why}")
    print(f"{looked} edits, {bad} cannot be applied")
    return 1 if bad else 0


if __name__ == "__main__":
    sys.exit(main(sys.argv[1:]))
