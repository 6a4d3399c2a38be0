#!/usr/bin/env python3
"""Says which crates a change proves again: those that stand on a crate, themselves or through others.

    tools/above.py NAME..

Run it at the top of the repository. It reads `crates.txt` and prints the crates in its order, one a
line, and behind them how many there are. A change of a definition or of a public contract proves all
of them again; the gate also tries their must-fail edits again.
"""
import sys


def standing():
    """The crates on which each crate of the repository stands, by its name, in the order of crates.txt."""
    found = {}
    with open("crates.txt", encoding="utf-8") as it:
        for line in it:
            name, colon, words = line.partition(":")
            if colon and not line.startswith("#"):
                found[name.split()[0]] = words.split()
    return found


def above(names):
    """The crates that stand on one of these, in the order of crates.txt, which has each crate behind those below it."""
    crates, reached = standing(), set(names)
    for name in names:
        if name not in crates:
            sys.exit(f"{name} is no crate of this repository")
    while True:
        more = {name for name, below in crates.items() if name not in reached and reached.intersection(below)}
        if not more:
            return [name for name in crates if name in reached and name not in names]
        reached |= more


def main(names):
    if not names:
        sys.exit(__doc__.strip())
    found = above(names)
    for name in found:
        print(name)
    print(f"{len(found)} of {len(standing())} crates")


if __name__ == "__main__":
    main(sys.argv[1:])
