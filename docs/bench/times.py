#!/usr/bin/env python3
"""Runs a program on each instance three times and makes the table of the search benchmark.

The times are processor seconds (user and system) of the whole run, reading
included, the least of the three runs.

usage: times.py PROGRAM FOLDER
"""
import os
import pathlib
import re
import statistics
import subprocess
import sys

FAMILIES = (
    ("random 3-SAT, 50 variables, 4.2 clauses a variable", "random050"),
    ("random 3-SAT, 100 variables, 4.2 clauses a variable", "random100"),
    ("6 pigeons in 5 holes", "pigeons06"),
    ("8 pigeons in 7 holes", "pigeons08"),
    ("exclusive or of 32 variables, summed twice in one order", "xor32"),
    ("exclusive or of 8 variables, summed in two orders", "xor08_shuffled"),
    ("the same of 12 variables", "xor12_shuffled"),
    ("the same of 16 variables", "xor16_shuffled"),
)


def run(program, file):
    """What the program prints for a file, and its processor seconds."""
    with open(file, "rb") as text:
        child = subprocess.Popen([program], stdin=text, stdout=subprocess.PIPE)
        told = child.stdout.read().decode().strip()
        _, status, usage = os.wait4(child.pid, 0)
    child.returncode = os.waitstatus_to_exitcode(status)
    if child.returncode != 0:
        sys.exit(f"{file}: status {child.returncode}")
    return told, usage.ru_utime + usage.ru_stime


def measured(program, file):
    """What the program prints for a file, and the least time of three runs."""
    runs = [run(program, file) for _ in range(3)]
    if len({told for told, _ in runs}) != 1:
        sys.exit(f"{file}: the runs differ")
    return runs[0][0], min(time for _, time in runs)


def main():
    program, folder = os.path.abspath(sys.argv[1]), pathlib.Path(sys.argv[2])
    print("| family | instances | satisfied | refuted | steps of a refutation, median and most | milliseconds, median and most |")
    print("|---|---|---|---|---|---|")
    for family, name in FAMILIES:
        files = sorted(folder.glob(name + "*.cnf"))
        results = [measured(program, file) for file in files]
        satisfied = sum(told == "Satisfied" for told, _ in results)
        steps = [int(re.sub(r"\D", "", told)) for told, _ in results if told.startswith("Refuted")]
        others = {told for told, _ in results if not told.startswith(("Satisfied", "Refuted"))}
        if others:
            print(f"{name}: {others}", file=sys.stderr)
        few = f"{statistics.median(steps):,.0f}, {max(steps):,}" if steps else "none"
        times = [1000 * time for _, time in results]
        print(f"| {family} | {len(files)} | {satisfied} | {len(steps)} | {few} | {statistics.median(times):,.0f}, {max(times):,.0f} |", flush=True)


if __name__ == "__main__":
    main()
