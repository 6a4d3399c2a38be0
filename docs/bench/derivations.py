#!/usr/bin/env python3
"""Writes a text for `svrand check`: a chain of N implications, and the hinted derivation that it cannot be met.

    derivations.py N [LINE] > FILE

Clause 1 is `1`, clause i + 1 says that variable i implies variable i + 1, and the last one denies variable N.
Each lemma is the next variable, by the one before it and the implication. With LINE one hint of that lemma
is another clause's, so that the text is rejected there.
"""
import sys


def main(n, wrong=0):
    out, clauses = sys.stdout, n + 1
    out.write(f"p cnf {n} {clauses}\n1 0\n")
    for i in range(1, n):
        out.write(f"-{i} {i + 1} 0\n")
    out.write(f"-{n} 0\n")
    before = 1
    for i in range(2, n + 1):
        lemma, implication = clauses + i - 1, i if i != wrong else 1
        out.write(f"{lemma} {i} 0 {before} {implication} 0\n")
        before = lemma
    out.write(f"{clauses + n} 0 {before} {clauses} 0\n")


if __name__ == "__main__":
    main(*map(int, sys.argv[1:]))
