#!/usr/bin/env python3
"""Runs texts of the kinds that are slowest for a layer, and prints time and memory as a table.

    tools/hostile.py PROGRAM [KIND ..] [KIB ..]  sizes in KiB; 1024, 2048 and 4096 where none is given, and all kinds where none is
    tools/hostile.py --write FOLDER [KIB ..]     writes the texts and runs nothing

Each text has the size that is asked for, to the byte, and is answered or refused. Times are processor seconds (user
and system) of one run, memory the greatest resident set, which is at least that of this script; a run is ended after
25 seconds, and its row then says `ended`, and greater texts of that kind are not run. It is given 4 GB, beyond which
memory is wanting (status 8).
"""
import os
import pathlib
import resource
import subprocess
import sys

LIMIT_SECONDS = 25
LIMIT_BYTES = 4 << 30


def script(classes, statements, variables="P p = new;\n"):
    return f"{classes}module m;\n{variables}initial begin\n{statements}end\nendmodule\n"


def filled(size, front, part, back):
    """A text of this size: a front, parts by their number as far as they go, blanks, a back."""
    parts, room, number = [], size - len(front) - len(back), 0
    while True:
        more = part(number)
        if len(more) > room:
            return front + "".join(parts) + " " * (room - 1) + "\n" + back if room else front + "".join(parts) + back
        parts.append(more)
        room -= len(more)
        number += 1


def items(size, properties, part):
    """A class with these properties and one block of items, and a call."""
    front = f"class P;\n{properties}constraint c {{\n"
    return filled(size, front, part, script("}\nendclass\n", "p.randomize();\n"))


def comment(size):
    front, back = "/*", "*/\n" + script("class P;\nendclass\n", "p.randomize();\n")
    return front + "x" * (size - len(front) - len(back)) + back


def name(size):
    """A class whose name stands twice."""
    rest = len(script("class ;\nendclass\n", "p.randomize();\n", " p = new;\n"))
    long = "x" * ((size - rest) // 2)
    text = script(f"class {long};\nendclass\n", "p.randomize();\n", f"{long} p = new;\n")
    return text + " " * (size - len(text))


def properties(size):
    """1,024 properties, and sums of 60 of them."""
    names = [f"p{i}" for i in range(1024)]
    declared = "".join(f"rand bit [7:0] {it};\n" for it in names)

    def part(k):
        return "(" + " ^ ".join(names[(7 * k + 13 * j) % 1024] for j in range(60)) + ") <= 8'hff;\n"

    return items(size, declared, part)


def variables(size):
    """4,096 variables, fewer in a text below 1 MiB, each with a sum of 40 operands, as long as the text lets them be."""
    count = min(4096, size // 256)
    digits = (size - 16 * count) // count // 40 - 3
    total = " + ".join(["0" * (digits - 1) + "1"] * 40)
    declared = "".join(f"int v{i} = {total};\n" for i in range(count - 1))
    text = script("class P;\nendclass\n", "p.randomize();\n", declared + "P p = new;\n")
    return text + " " * (size - len(text))


def statements(size):
    """A statement of 41 bytes for each 42 bytes of the text: just under 100,000 at 4 MiB."""
    front = "class P;\nbit [7:0] a;\nendclass\nmodule m;\nP p = new;\ninitial begin\n"
    return filled(size, front, lambda k: "p.a = p.a + 3 * (p.a ^ 8'd17) - 5 + 0007;\n", "p.randomize();\nend\nendmodule\n")


def calls(size):
    """As many calls as statements above."""
    front = "class P;\nrand bit [7:0] a, b;\nconstraint c { a < b; }\nendclass\nmodule m;\nP p = new;\ninitial begin\n"
    return filled(size, front, lambda k: "p.randomize() with { a + b != 100 + 1; };\n\n", "end\nendmodule\n")


def arrays(size):
    """Arrays of 2,048 elements each, 32 at 4 MiB, with an item for each element."""
    count = max(1, size // 131_072)
    declared = "".join(f"rand bit [7:0] d{i} [2048];\nconstraint c{i} {{ foreach (d{i}[k]) d{i}[k] < 8'd200; }}\n" for i in range(count))
    text = script(f"class P;\n{declared}endclass\n", "p.randomize();\n")
    return text + " " * (size - len(text))


def loops(size):
    """Items within 246 loops each, as many as their height lets be, over an array of one element."""
    def part(k):
        around = "".join(f"foreach(a[i{n},j{n}])" for n in range(123))
        return f"{around}a[i{k % 123}][j0]<2;\n"

    return items(size, "rand bit a [1][1];\n", part)


def parentheses(size):
    """Items of the greatest height."""
    return items(size, "rand bit a;\n", lambda k: "(" * 124 + "a" + ")" * 124 + "<=1;\n")


def classes(size):
    """A chain of classes, each of which extends the one before it."""
    back = script("", "p.randomize();\n", "C0 p = new;\n")
    return filled(size, "class C0;\nendclass\n", lambda k: f"class C{k + 1} extends C{k};\nendclass\n", back)


def grown_classes(size):
    """A chain of classes, each of which adds a block to those that it inherits."""
    back = script("", "p.randomize();\n", "C0 p = new;\n")
    return filled(size, "class C0;\nendclass\n", lambda k: f"class C{k + 1} extends C{k};\nconstraint c{k} {{}}\nendclass\n", back)


def last_class(size):
    """A chain of classes, each of which adds a block, and an object of the last one."""
    text, number = "class C0;\nendclass\n", 0
    while True:
        more = f"class C{number + 1} extends C{number};\nconstraint c{number} {{}}\nendclass\n"
        back = script("", "p.randomize();\n", f"C{number + 1} p = new;\n")
        if len(text) + len(more) + len(back) > size:
            back = script("", "p.randomize();\n", f"C{number} p = new;\n")
            return text + " " * (size - len(text) - len(back)) + back
        text, number = text + more, number + 1


def with_variables(size, value):
    """A chain of classes, each of which adds a block, and a variable of each with this value, at most 4,095."""
    classes, declared, number, rest = "class C0;\nendclass\n", "C0 p = new;\n", 1, len(script("", "p.randomize();\n", ""))
    while True:
        more = f"class C{number} extends C{number - 1};\nconstraint c{number} {{}}\nendclass\n"
        one = f"C{number} v{number}{value};\n" if number < 4095 else ""
        if len(classes) + len(declared) + len(more) + len(one) + rest > size:
            text = script(classes, "p.randomize();\n", declared)
            return text + " " * (size - len(text))
        classes, declared, number = classes + more, declared + one, number + 1


def used_classes(size):
    """A chain of classes, each of which adds a block, and a variable of each."""
    return with_variables(size, "")


def made_classes(size):
    """A chain of classes, each of which adds a block, and an object of each."""
    return with_variables(size, " = new")


def objects(size):
    """Object variables, 4,096 at 4 MiB, and as many statements that read two of them."""
    count = size // 1024
    declared = "".join(f"P v{k} = new;\n" for k in range(count - 2))
    text = script("class P;\nrand bit [7:0] a;\nendclass\n", "p.a = p.a + q.a;\n" * count + "p.randomize();\n", "P p = new;\nP q = new;\n" + declared)
    return text + " " * (size - len(text))


def blocks(size):
    """Blocks of one class."""
    front = "class P;\nrand bit a;\n"
    return filled(size, front, lambda k: f"constraint c{k} {{ a <= 1; }}\n", script("endclass\n", "p.randomize();\n"))


def modes(size):
    """Blocks of a class, and a statement for each, as far as it goes, that switches it off."""
    front = filled(size // 2, "class P;\n", lambda k: f"constraint c{k} {{}}\n", "endclass\nmodule m;\nP p = new;\ninitial begin\n")
    count = front.count("constraint")
    return filled(size, front, lambda k: f"p.c{k % count}.constraint_mode(0);\n", "p.randomize();\nend\nendmodule\n")


def inherited_modes(size):
    """The same with an object of a class that extends the one with the blocks."""
    front = filled(size // 2, "class B;\n", lambda k: f"constraint c{k} {{}}\n", "endclass\nclass P extends B;\nendclass\nmodule m;\nP p = new;\ninitial begin\n")
    count = front.count("constraint")
    return filled(size, front, lambda k: f"p.c{k % count}.constraint_mode(0);\n", "p.randomize();\nend\nendmodule\n")


def turned_modes(size):
    """The same with objects of two such classes in turn."""
    front = filled(size // 2, "class B;\n", lambda k: f"constraint c{k} {{}}\n", "endclass\nclass P extends B;\nendclass\nclass Q extends B;\nendclass\nmodule m;\nP p = new;\nQ q = new;\ninitial begin\n")
    count = front.count("constraint")
    return filled(size, front, lambda k: f"{'pq'[k % 2]}.c{k % count}.constraint_mode(0);\n", "p.randomize();\nend\nendmodule\n")


def ordered_classes(size):
    """A chain of classes, each of which adds a block that orders two properties."""
    back = script("", "p.randomize();\n", "C0 p = new;\n")
    return filled(size, "class C0;\nrand bit a, b;\nendclass\n", lambda k: f"class C{k + 1} extends C{k};\nconstraint c{k} {{ solve a before b; }}\nendclass\n", back)


def turned_classes(size):
    """A chain of classes, each of which orders one of 300 properties before an earlier one, all pairs in turn."""
    names = [f"p{i}" for i in range(300)]
    pairs = [(later, earlier) for earlier in range(300) for later in range(earlier + 1, 300)]
    declared = "".join(f"rand bit {it};\n" for it in names)

    def part(k):
        later, earlier = pairs[k % len(pairs)]
        return f"class C{k + 1} extends C{k};\nconstraint c{k} {{ solve {names[later]} before {names[earlier]}; }}\nendclass\n"

    return filled(size, f"class C0;\n{declared}endclass\n", part, script("", "p.randomize();\n", "C0 p = new;\n"))


def wide_classes(size):
    """Classes that each extend one with 1,000 properties."""
    declared = "".join(f"bit p{i};\n" for i in range(1000))
    back = script("", "p.randomize();\n", "B p = new;\n")
    return filled(size, f"class B;\n{declared}endclass\n", lambda k: f"class C{k} extends B;\nendclass\n", back)


def replaced(size):
    """Blocks of a class, each of which a derived class replaces."""
    half = size // 2
    one = filled(half, "class B;\nrand bit a;\n", lambda k: f"constraint c{k} {{}}\n", "endclass\n")
    return filled(size, one + "class P extends B;\n", lambda k: f"constraint c{k} {{}}\n", script("endclass\n", "p.randomize();\n"))


def solves(size):
    """An order over 1,024 properties, each pair named many times."""
    names = [f"p{i}" for i in range(1024)]
    declared = "".join(f"rand bit {it};\n" for it in names)
    return items(size, declared, lambda k: f"solve {names[k * 7 % 1023]} before {names[1 + k * 7 % 1023]};\n")


def uniques(size):
    """One `unique` of many members."""
    front = "class P;\nrand bit [7:0] a;\nconstraint c { unique {\n"
    return filled(size, front, lambda k: "a,\n", "a}; }\nendclass\nmodule m;\nP p = new;\ninitial begin\np.randomize();\nend\nendmodule\n")


def softs(size):
    """Soft items that contradict each other, as many as the limit of weight lets be at 4 MiB."""
    count = size // 210
    parts = "".join(f"soft a == 8'd{k % 256};\n" for k in range(count))
    text = script(f"class P;\nrand bit [7:0] a;\nconstraint c {{\n{parts}}}\nendclass\n", "p.randomize();\n")
    return text + " " * (size - len(text))


def kept_softs(size):
    """Soft items that all hold together but for one, for which each is asked for."""
    parts = "".join(f"soft a != 18'd{k};\n" for k in range(1, size // 420))
    text = script(f"class P;\nrand bit [17:0] a;\nconstraint c {{\n{parts}soft a == 18'd5;\n}}\nendclass\n", "p.randomize();\n")
    return text + " " * (size - len(text))


def disables(size):
    """Soft items, and items that take them away, in turn."""
    return items(size, "rand bit [7:0] a;\n", lambda k: "soft a == 8'd3;disable soft a;\n" if k % 64 == 0 else "disable soft a;\n")


def members(size):
    """One set of many members."""
    front = "class P;\nrand bit [31:0] a;\nconstraint c { a inside {\n"
    return filled(size, front, lambda k: f"{k},\n", "7}; }\nendclass\nmodule m;\nP p = new;\ninitial begin\np.randomize();\nend\nendmodule\n")


def searched_members(size):
    """One set of as many members as the limit of weight lets be at 4 MiB, which the preferred value is not in."""
    listed = ", ".join(str(k) for k in range(size // 140))
    text = script(f"class P;\nrand bit [31:0] a;\nconstraint c {{ a inside {{{listed}}}; }}\nendclass\n", "p.randomize();\n")
    return text + " " * (size - len(text))


def called_on_cyclic(size, calls):
    """Cyclic properties whose values an item leaves one of: 1,024 at 4 MiB; and calls."""
    count = size // 4096
    declared = "".join(f"randc bit [7:0] p{i};\n" for i in range(count))
    held = "".join(f"p{i} == 8'd{i % 256};\n" for i in range(count))
    text = script(f"class P;\n{declared}constraint c {{\n{held}}}\nendclass\n", "p.randomize();\n" * calls)
    return text + " " * (size - len(text))


def cyclic(size):
    """One call on cyclic properties."""
    return called_on_cyclic(size, 1)


def new_cycles(size):
    """A second call on them, with which each property begins a new cycle."""
    return called_on_cyclic(size, 2)


def hard_softs(size):
    """Soft items that contradict each other, and as many hard ones."""
    count = size // 420
    parts = "".join(f"soft a == 8'd{k % 256};\na <= 8'd255;\n" for k in range(count))
    text = script(f"class P;\nrand bit [7:0] a;\nconstraint c {{\n{parts}}}\nendclass\n", "p.randomize();\n")
    return text + " " * (size - len(text))


KINDS = [comment, name, properties, variables, statements, calls, arrays, loops, parentheses, classes, grown_classes, last_class, used_classes, made_classes, objects, blocks, modes, inherited_modes, turned_modes, ordered_classes, turned_classes, wide_classes, replaced, solves, uniques, softs, hard_softs, kept_softs, disables, members, searched_members, cyclic, new_cycles]


def text_of(kind, size):
    text = kind(size)
    if len(text) != size:
        sys.exit(f"{kind.__name__}: {len(text)} bytes in place of {size}")
    return text.encode()


def told(out):
    """The last line that was written, and how long it is, where it is long."""
    lines = out.decode().splitlines()
    last = lines[-1] if lines else ""
    return last if len(last) <= 40 else f"{last[:24]}.. ({len(last):,} bytes)"


def run(program, text):
    """What a run tells, its status, its processor seconds and its greatest memory in MB."""
    def limit():
        resource.setrlimit(resource.RLIMIT_CPU, (LIMIT_SECONDS, LIMIT_SECONDS))
        resource.setrlimit(resource.RLIMIT_DATA, (LIMIT_BYTES, LIMIT_BYTES))

    file = pathlib.Path("/tmp") / f"hostile-{os.getpid()}.sv"
    file.write_bytes(text)
    with open(file, "rb") as source:
        child = subprocess.Popen([program, "run"], stdin=source, stdout=subprocess.PIPE, preexec_fn=limit)
        out = child.stdout.read()
        _, status, usage = os.wait4(child.pid, 0)
    child.returncode = os.waitstatus_to_exitcode(status)
    file.unlink()
    return told(out), child.returncode, usage.ru_utime + usage.ru_stime, usage.ru_maxrss / 1024


def main():
    if len(sys.argv) < 2:
        sys.exit(__doc__)
    is_written = sys.argv[1] == "--write"
    target, *words = sys.argv[2:] if is_written else sys.argv[1:]
    sizes = [int(word) * 1024 for word in words if word.isdigit()] or [1 << 20, 1 << 21, 1 << 22]
    kinds = [kind for kind in KINDS if kind.__name__ in words] or KINDS
    if is_written:
        folder = pathlib.Path(target)
        folder.mkdir(parents=True, exist_ok=True)
        for kind in kinds:
            for size in sizes:
                (folder / f"{kind.__name__}_{size // 1024}.sv").write_bytes(text_of(kind, size))
        return
    print("| kind | KiB | what it tells | status | seconds | MB |\n|---|---|---|---|---|---|")
    for kind in kinds:
        for size in sizes:
            line, status, seconds, memory = run(target, text_of(kind, size))
            end = f"`{line}` | {status}" if status >= 0 else "ended | "
            print(f"| {kind.__name__} | {size // 1024:,} | {end} | {seconds:.2f} | {memory:.0f} |", flush=True)
            if status < 0:
                break


if __name__ == "__main__":
    main()
