#!/usr/bin/env python3
"""Refuses each allocation of some runs in turn, and looks at how they end.

    tools/sweep-allocations.py PROGRAM

PROGRAM is the built program, as crates/svrand/out/svrand. A library that stands before the C library refuses the
allocation of a number. Each run with a refused allocation has to end with status 8, and what it has written has to be a
front of what the run writes where nothing is refused; or it writes all of that and ends as there, where the room was not
needed: a list that std's `collect` makes asks for all its room ahead, and grows bit by bit where that is refused. Prints
a line for each script with each of two lists of words, and one for cover groups; the exit status is 1 where a run ends otherwise. It needs a C
compiler (cc).
"""
import itertools
import os
import pathlib
import subprocess
import sys
import tempfile

SHIM = r"""
#define _GNU_SOURCE
#include <errno.h>
#include <fcntl.h>
#include <stdio.h>
#include <stdlib.h>
#include <string.h>
#include <unistd.h>

extern void *__libc_malloc(size_t), *__libc_calloc(size_t, size_t), *__libc_realloc(void *, size_t), *__libc_memalign(size_t, size_t);
static unsigned long refused, seen;
static int on;

__attribute__((constructor)) static void begin(void) {
    const char *number = getenv("REFUSED");
    refused = number ? strtoul(number, 0, 10) : 0;
    on = 1;
}

__attribute__((destructor)) static void end(void) {
    const char *path = getenv("COUNTED");
    char text[32];
    int file;
    on = 0;
    if (path && (file = open(path, O_WRONLY | O_CREAT | O_TRUNC, 0600)) >= 0) {
        int length = snprintf(text, sizeof text, "%lu", seen);
        if (write(file, text, length) < 0) _exit(99);
        close(file);
    }
}

static int is_refused(void) {
    if (!on || ++seen != refused) return 0;
    errno = ENOMEM;
    return 1;
}

void *malloc(size_t n) { return is_refused() ? 0 : __libc_malloc(n); }
void *calloc(size_t n, size_t m) { return is_refused() ? 0 : __libc_calloc(n, m); }
void *realloc(void *p, size_t n) { return is_refused() ? 0 : __libc_realloc(p, n); }
void *memalign(size_t a, size_t n) { return is_refused() ? 0 : __libc_memalign(a, n); }
void *aligned_alloc(size_t a, size_t n) { return is_refused() ? 0 : __libc_memalign(a, n); }
int posix_memalign(void **p, size_t a, size_t n) {
    if (is_refused()) return ENOMEM;
    *p = __libc_memalign(a, n);
    return *p ? 0 : ENOMEM;
}
"""

MODULE = "module m;\ninitial begin\n{type} p = new;\n{calls}\nend\nendmodule\n"

SCRIPTS = {
    "a packet": """typedef enum bit [1:0] { READ, WRITE, IDLE } kind_t;
class Packet;
  rand kind_t kind;
  rand int len;
  rand bit [7:0] data [];
  constraint c_len { len inside {[46:64]}; data.size() == len; }
  constraint c_data { foreach (data[i]) data[i] == i; }
endclass
""" + MODULE.format(type="Packet", calls="assert (p.randomize() with { len == 46; kind == WRITE; });"),
    "soft items": "class B;\nrand bit [3:0] x; constraint c { soft x == 1; }\nendclass\n"
    "class D extends B;\nconstraint d { soft x == 2; }\nendclass\n"
    + MODULE.format(type="D", calls="p.randomize() with { soft x == 3; };"),
    "a cyclic property": "class P;\nrandc bit [1:0] a; constraint c { a == 0; }\nendclass\n"
    + MODULE.format(type="P", calls="repeat (2) p.randomize();"),
    "orders of a family": "class A;\nrand bit a, b; constraint c { solve a before b; } constraint e { solve a before b; }\nendclass\n"
    "class B extends A;\nconstraint c { solve b before a; } constraint e {}\nendclass\n"
    "class D extends B;\nconstraint f { solve b before a; }\nendclass\nclass E extends A;\nconstraint g { solve a before b; }\nendclass\n"
    + MODULE.format(type="D", calls="p.randomize();"),
    "an answer 0": "class P;\nrand bit a, b, c; constraint u { unique {a, b, c}; }\nendclass\n"
    + MODULE.format(type="P", calls="p.randomize();"),
}


WORDS = [["run", "--proofs"], ["run", "--conflicts", "--lrat"]]

COVERAGE = """covergroup g with function sample(P p);
x: coverpoint p.a { bins low = {[0:1]}; bins each[] = {[0:3]}; }
y: coverpoint p.b { bins one = {1}; }
xy: cross x, y;
endgroup
class P;
rand bit [1:0] a; rand bit b;
endclass
""" + MODULE.format(type="P", calls="repeat (2) p.randomize();")


def run(program, words, text, shim, **more):
    env = {**os.environ, "LD_PRELOAD": str(shim), **more}
    ended = subprocess.run([program, *words], input=text.encode(), capture_output=True, env=env, check=False)
    return ended.returncode, ended.stdout


def sweep(program, words, text, shim, counted):
    """How many allocations a run makes, how many of them are not needed, and those with which it ends otherwise than it should."""
    status, whole = run(program, words, text, shim, COUNTED=str(counted))
    count, spared, odd = int(counted.read_text()), 0, []
    for number in range(1, count + 1):
        found, front = run(program, words, text, shim, REFUSED=str(number))
        if (found, front) == (status, whole):
            spared += 1
        elif found != 8 or not whole.startswith(front):
            odd.append((number, found))
    return status, count, spared, odd


def main():
    if len(sys.argv) != 2:
        sys.exit(__doc__)
    program, is_clean = os.path.abspath(sys.argv[1]), True
    with tempfile.TemporaryDirectory() as folder:
        source, shim, counted = (pathlib.Path(folder) / name for name in ("shim.c", "shim.so", "counted"))
        source.write_text(SHIM)
        subprocess.run(["cc", "-O2", "-shared", "-fPIC", "-o", shim, source], check=True)
        runs = [*itertools.product(SCRIPTS.items(), WORDS), (("cover groups", COVERAGE), ["cover"])]
        for (name, text), words in runs:
            status, count, spared, odd = sweep(program, words, text, shim, counted)
            is_clean = is_clean and not odd
            refused = count - spared - len(odd)
            told = f"{count} allocations, {refused} refused with status 8 and a front, {spared} not needed"
            print(f"{name}, {' '.join(words)}: status {status}, {told}", *odd[:10], flush=True)
    return 0 if is_clean else 1


if __name__ == "__main__":
    sys.exit(main())
