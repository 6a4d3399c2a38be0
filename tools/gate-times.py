#!/usr/bin/env python3
"""Runs the gate and says what it cost, crate by crate.

    tools/gate-times.py [--out FILE] [WORDS OF rt ci ..]

It starts `rt ci` with the given words and looks, four times a second, at the processor time of each
prover below it. From that it makes a table: processor seconds of each crate's own proof, of the proof
of its tests, and of its must-fail edits, with the sum of the gate in processor minutes. `docs/GATE.md`
holds such a table. Times of runs that begin with nothing kept are the ones to compare; what was kept
costs nothing and is not in the table. The exit status is that of `rt ci`.
"""
import os
import subprocess
import sys
import time
from collections import defaultdict

TICK = os.sysconf("SC_CLK_TCK")
KINDS = ("proof", "tests", "edits")


def processes():
    """Yields number, parent, processor seconds and words of each process."""
    for name in os.listdir("/proc"):
        if not name.isdigit():
            continue
        try:
            with open(f"/proc/{name}/stat", encoding="utf-8", errors="replace") as it:
                fields = it.read().rsplit(")", 1)[1].split()
            with open(f"/proc/{name}/cmdline", encoding="utf-8", errors="replace") as it:
                words = it.read().split("\0")
            folder = os.readlink(f"/proc/{name}/cwd")
        except OSError:
            continue
        yield int(name), int(fields[1]), (int(fields[11]) + int(fields[12])) / TICK, words, folder


def is_below(number, parents, root):
    """Whether the process was started by `root`, or by one that was."""
    while number in parents and number > 1:
        if number == root:
            return True
        number = parents[number]
    return False


def kind_of(words, folder):
    """Which work of a crate a prover does."""
    if "rt-edit-" in folder:
        return "edits"
    if "--test" in words:
        return "tests"
    return "proof"


def look(root, spent):
    """Notes the processor time of each prover below `root`: the greatest that was seen of it."""
    found = list(processes())
    parents = {number: parent for number, parent, _, _, _ in found}
    for number, _, seconds, words, folder in found:
        if "--crate-name" not in words or not is_below(number, parents, root):
            continue
        crate = words[words.index("--crate-name") + 1]
        key = (number, crate, kind_of(words, folder))
        spent[key] = max(spent.get(key, 0), seconds)


def table(spent):
    """The lines of the table, the costliest crate first."""
    sums = defaultdict(lambda: defaultdict(float))
    for (_, crate, kind), seconds in spent.items():
        sums[crate][kind] += seconds
    lines = ["| crate | proof | tests | edits | sum |", "|---|---|---|---|---|"]
    for crate, kinds in sorted(sums.items(), key=lambda it: -sum(it[1].values())):
        cells = [f"{kinds[kind]:.0f}" for kind in KINDS]
        lines.append(f"| `{crate}` | {' | '.join(cells)} | {sum(kinds.values()):.0f} |")
    whole = sum(sum(kinds.values()) for kinds in sums.values())
    lines += ["", f"Sum: {whole / 60:.0f} processor minutes."]
    return lines


def main():
    words = sys.argv[1:]
    out = None
    if words[:1] == ["--out"]:
        out, words = words[1], words[2:]
    began = time.time()
    gate = subprocess.Popen(["rt", "ci", *words])
    spent = {}
    while gate.poll() is None:
        look(gate.pid, spent)
        time.sleep(0.25)
    lines = table(spent) + [f"Time: {(time.time() - began) / 60:.0f} minutes."]
    text = "\n".join(lines) + "\n"
    if out:
        with open(out, "w", encoding="utf-8") as it:
            it.write(text)
    print(text, end="")
    sys.exit(gate.returncode)


if __name__ == "__main__":
    main()
