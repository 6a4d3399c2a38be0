#!/usr/bin/env python3
"""Runs a program on scripts that users write, and makes the tables of docs/bench/runs.md.

usage: runs.py PROGRAM           whole runs of the scripts of scripts.py and of examples/, and of `load 200` and `load 2000`
       runs.py PROGRAM variety   1,000 calls on an object with few solutions: how many are seen, and the greatest share of one

The times are processor seconds (user and system) of the whole run, reading included, the least of three runs; memory is
the greatest of them. What a run asks is counted in the derivations that `--proofs` prints, and so only where there is
one: for an answer 0, for a soft item that is dropped and for a cycle that ends.
"""
import collections
import os
import pathlib
import re
import subprocess
import sys
import tempfile

sys.dont_write_bytecode = True
import scripts  # noqa: E402

EXAMPLES = pathlib.Path(__file__).resolve().parent.parent.parent / "examples"
SEED_1 = ["run", "--seed", "1"]


def run(words, file):
    """What the program prints, its processor seconds and its greatest memory in MB.

    A program begins with the memory of what starts it as its greatest; so `time`, which is small, starts it.
    """
    with open(file, "rb") as text, tempfile.NamedTemporaryFile("r") as told_by_time:
        child = subprocess.run(["time", "-q", "-f", "%U %S %M", "-o", told_by_time.name, *words], stdin=text, stdout=subprocess.PIPE)
        user, system, memory = told_by_time.read().split()
    return child.stdout.decode(), float(user) + float(system), int(memory) / 1024


def measured(words, file):
    runs = [run(words, file) for _ in range(3)]
    if len({told for told, _, _ in runs}) != 1:
        sys.exit(f"{file}: the runs differ")
    return runs[0][0], min(time for _, time, _ in runs), max(memory for _, _, memory in runs)


def counted(told):
    """How many calls a run has, answered 0 and given up; how many derivations, their clauses and steps."""
    calls = len(re.findall(r"^#", told, re.M))
    zeros = len(re.findall(r"^#\d+ \S+ 0 ", told, re.M))
    given_up = len(re.findall(r"^#\d+ \S+ gaveup ", told, re.M))
    kinds = collections.Counter(re.findall(r"^([pcs]) ", told, re.M))
    return calls, zeros, given_up, kinds["p"], kinds["c"], kinds["s"]


def row(program, name, file, words=None):
    told, seconds, memory = measured([program, *(words or SEED_1)], file)
    if words is None:
        proofs = run([program, *SEED_1, "--proofs"], file)[0]
        counts = counted(proofs)
    else:
        numbers = [int(number) for number in re.findall(r"\d+", told)]
        counts = (sum(numbers[1:]), *numbers[2:4], "", "", "")
    shown = " | ".join(f"{count:,}" if isinstance(count, int) else count for count in counts)
    print(f"| {name} | {seconds:.2f} | {memory:.0f} | {shown} |", flush=True)


def runs(program, folder):
    print("| script | seconds | MB | calls | answered 0 | given up | derivations | their clauses | their steps |")
    print("|---|---|---|---|---|---|---|---|---|")
    for name in [*scripts.RUNS, "searched", "preferred"]:
        row(program, f"`{name}.sv`", folder / f"{name}.sv")
    for file in sorted(EXAMPLES.glob("*.sv")):
        row(program, f"`examples/{file.name}`", file)
    for count in ("200", "2000"):
        row(program, f"`load {count}`", os.devnull, ["load", count])


def variety(program, folder):
    print("| script | solutions | answers seen | greatest share of one |")
    print("|---|---|---|---|")
    for name, (_, _, solutions) in scripts.VARIETY.items():
        told = run([program, *SEED_1], folder / f"{name}.sv")[0]
        answers = collections.Counter(re.findall(r"^#\d+ \S+ 1 (.*)$", told, re.M))
        if sum(answers.values()) != 1000:
            sys.exit(f"{name}: {sum(answers.values())} answers of 1,000 calls")
        print(f"| `{name}.sv` | {solutions} | {len(answers)} | {answers.most_common(1)[0][1] / 10:.1f} % |")


def main():
    program = os.path.abspath(sys.argv[1])
    with tempfile.TemporaryDirectory() as name:
        folder = pathlib.Path(name)
        scripts.write(folder)
        (variety if sys.argv[2:] == ["variety"] else runs)(program, folder)


if __name__ == "__main__":
    main()
