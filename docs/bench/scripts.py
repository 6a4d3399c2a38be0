#!/usr/bin/env python3
"""Writes the scripts of the benchmarks of elaboration, of calls, of runs and of variety into a folder.

many.sv has 2,000 classes, each with an array, a loop and a soft item, and a
variable and a call for each; wide.sv has one class of 1,000 properties, and
items of 90 operands or 400 members up to 4 MiB, the most that is read.
searched.sv has 1,000 calls of a class of ten `int` properties and twenty items,
which preferred values hardly ever meet; preferred.sv has 99,998 calls, as many as may be, of a class
whose items they always meet; switched_off.sv has 10,000 calls of a class whose 200 items are switched off;
conflicts.sv has one call of a class of 200 items, of which three contradict each other.

Of runs, small scripts of the kinds that users write: packets.sv, ascending.sv, defaults.sv, grid.sv, quotients.sv,
ranges.sv, aligned.sv, addresses.sv, even.sv, squares.sv, factors.sv. Of variety, 1,000 calls each on an object with few solutions: VARIETY says how many.

usage: scripts.py FOLDER
"""
import pathlib
import sys

TEXT_LIMIT = 4_194_304


def many(count):
    """A class, a variable and a call for each number from 1 on."""
    lines = []
    for i in range(1, count + 1):
        lines += [
            f"class C{i};",
            "rand bit [15:0] a; rand bit [15:0] b; rand bit [7:0] d [];",
            f"constraint c {{ a + b == 16'd{37 * i % 65536}; a < b; d.size() == {1 + i % 8};",
            "foreach (d[k]) d[k] > k; soft d[0] == 8'd9; }",
        ]
        if i % 5 == 0:
            lines.append("constraint z { d[0] == 0; }")
        lines.append("endclass")
    lines += ["module m;", "initial begin"]
    lines += [f"C{i} p{i} = new;" for i in range(1, count + 1)]
    lines += [f"p{i}.randomize();" for i in range(1, count + 1)]
    return "\n".join(lines + ["end", "endmodule"]) + "\n"


def long_item(k, count):
    """Sums of 90 operands, or, each fourth time, a set of 400 members."""
    def name(j):
        return f"p{(7 * k + 13 * j) % count}"

    if k % 4 == 3:
        return f"{name(0)} inside {{{', '.join(str(k + j) for j in range(400))}}};"
    signs = "+-&|^"
    text = name(0)
    for j in range(1, 90):
        text += f" {signs[j * k % 5]} {name(j)}"
    return f"({text}) != {k};"


def wide(count):
    """One class of so many properties, with items as far as the text may go."""
    head = "class Wide;\n" + "".join(f"rand int p{i};\n" for i in range(count)) + "constraint c {\n"
    tail = "}\nendclass\nmodule m;\ninitial begin\nWide w = new;\nw.randomize();\nend\nendmodule\n"
    parts, size, k = [head], len(head) + len(tail), 0
    while True:
        item = long_item(k, count) + "\n"
        if size + len(item) > TEXT_LIMIT:
            break
        parts.append(item)
        size += len(item)
        k += 1
    parts.append(" " * (TEXT_LIMIT - size))
    return "".join(parts + [tail])


def calls(count, items, before=""):
    """So many calls of a class of ten `int` properties with these items, behind a statement."""
    props = "".join(f"rand int a{i};\n" for i in range(10))
    head = f"class Packet;\n{props}constraint c {{\n{items}}}\nendclass\n"
    return f"{head}module m;\ninitial begin\nPacket p = new;\n{before}repeat ({count}) p.randomize();\nend\nendmodule\n"


def searched(count):
    """Ten bounds, and ten relations of two neighbours."""
    items = "".join(f"a{i} inside {{[{i + 1}:{1000 * (i + 1)}]}};\n" for i in range(10))
    items += "".join(f"a{i} + {i} < a{i + 1};\n" for i in range(9)) + "a0 + a1 != a2;\n"
    return calls(count, items)


def preferred(count):
    """Twenty items that all values meet."""
    items = "".join(f"a{i} <= 32'sh7fffffff;\n(a{i} ^ a{i}) == 0;\n" for i in range(10))
    return calls(count, items)


def switched_off(count):
    """200 items, none of which is active."""
    items = "".join(f"a{k % 10} + {k} != a{(k + 3) % 10};\n" for k in range(200))
    return calls(count, items, "p.c.constraint_mode(0);\n")


def conflicts(count):
    """So many items over 64 properties: the first one, one in the middle and the last one order three properties in a ring."""
    ring = {1: "a0 < a1;", count // 2: "a1 < a2;", count: "a2 < a0;"}
    items = ""
    for k in range(1, count + 1):
        one, other = f"a{k % 64}", f"a{(k + 7) % 64}"
        forms = [
            f"{one} + {other} != 16'd{37 * k};",
            f"{one} inside {{[0:16'd{60000 + k}]}};",
            f"({one} ^ {other}) < 16'd{64000 + k};",
            f"{one} != {other} || {one} > 16'd{k};",
        ]
        items += ring.get(k, forms[k % 4]) + "\n"
    props = "".join(f"rand bit [15:0] a{i};\n" for i in range(64))
    head = f"class Packet;\n{props}constraint c {{\n{items}}}\nendclass\n"
    return f"{head}module m;\ninitial begin\nPacket p = new;\np.randomize();\nend\nendmodule\n"


def run_of(body, calls):
    """A script of one class `C` and so many calls."""
    return f"{body}module m;\ninitial begin\nC c = new;\nrepeat ({calls}) c.randomize();\nend\nendmodule\n"


def packets():
    """20 packets whose payload has 51 to 64 bytes, each byte its own index."""
    kinds = "typedef enum bit [1:0] { READ, WRITE, IDLE } kind_t;\n"
    body = "class C;\nrand kind_t kind;\nrand int length;\nrand bit [7:0] payload [];\n"
    body += "constraint sized { length inside {[46:64]}; payload.size() == length; }\n"
    body += "constraint filled { foreach (payload[i]) payload[i] == i; }\nendclass\n"
    return kinds + run_of(body, 20).replace("randomize()", "randomize() with { length > 50; kind == WRITE; }")


def ascending():
    """10 rising arrays of 32 different numbers within 200."""
    body = "class C;\nrand bit [15:0] d [32];\nrand bit [15:0] low, high;\n"
    body += "constraint rising { foreach (d[i]) (i < 31) -> d[i] < d[i + 1]; }\n"
    body += "constraint near { d[0] == low; d[31] == high; high - low < 16'd200; unique {d}; }\nendclass\n"
    return run_of(body, 10)


def defaults():
    """5 calls with 40 soft items over four numbers with a known sum, most of which are dropped."""
    body = "class C;\nrand bit [15:0] a, b, c, d;\n"
    body += "constraint rising { a + b + c + d == 16'd4000; a < b; b < c; c < d; }\nconstraint usual {\n"
    body += "".join(f"soft {'abcd'[k % 4]} == 16'd{211 * k % 3000};\n" for k in range(40)) + "}\nendclass\n"
    return run_of(body, 5)


PUZZLE = "530070000600195000098000060800060003400803001700020006060000280000419005000080079"


def grid():
    """One sudoku, as `unique` over 27 lists of nine cells."""
    groups = [[9 * r + c for c in range(9)] for r in range(9)]
    groups += [[9 * r + c for r in range(9)] for c in range(9)]
    groups += [[27 * (b // 3) + 3 * (b % 3) + 9 * r + c for r in range(3) for c in range(3)] for b in range(9)]
    items = "".join("unique {" + ", ".join(f"s[{cell}]" for cell in group) + "};\n" for group in groups)
    given = "".join(f"s[{cell}] == {digit};\n" for cell, digit in enumerate(PUZZLE) if digit != "0")
    body = "class C;\nrand bit [3:0] s [81];\nconstraint digits { foreach (s[i]) s[i] inside {[1:9]}; }\n"
    return run_of(f"{body}constraint different {{\n{items}}}\nconstraint given {{\n{given}}}\nendclass\n", 1)


def quotients():
    """5 quotients and remainders of 32 bits."""
    body = "class C;\nrand bit [31:0] n, d, q, r;\n"
    body += "constraint divided { d != 0; q == n / d; r == n % d; q > 100; r > 7; d > 1000; r + d < 5000; }\nendclass\n"
    return run_of(body, 5)


def ranges():
    """10 times eight ranges of addresses that do not overlap, aligned to 64."""
    body = "class C;\nrand bit [31:0] base [8];\nrand bit [15:0] size [8];\nconstraint placed { foreach (base[i]) {\n"
    body += "base[i] inside {[32'h8000_0000:32'h8fff_ffff]};\nsize[i] inside {[16'd64:16'd4096]};\n"
    body += "(base[i] & 32'd63) == 0;\n(size[i] & 16'd63) == 0; } }\n"
    body += "constraint apart { foreach (base[i]) foreach (base[j])\n"
    body += "(i < j) -> (base[i] + size[i] <= base[j] || base[j] + size[j] <= base[i]); }\nendclass\n"
    return run_of(body, 10)


def aligned():
    """5 times 16 regions of a megabyte that do not overlap, each at a multiple of 16."""
    body = "class C;\nrand bit [31:0] base [16];\nrand bit [15:0] length [16];\nconstraint placed { foreach (base[i]) {\n"
    body += "length[i] inside {[16:4096]};\nbase[i] % 16 == 0;\nbase[i] < 32'h100000; } }\n"
    body += "constraint apart { foreach (base[i]) foreach (base[j])\n"
    body += "(i < j) -> (base[i] + length[i] <= base[j] || base[j] + length[j] <= base[i]); }\nendclass\n"
    return run_of(body, 5)


def addresses():
    """10 addresses of 2,000 that are scattered over 32 bits."""
    members = ", ".join(f"32'd{2654435761 * k % 2**32}" for k in range(1, 2001))
    return run_of(f"class C;\nrand bit [31:0] address;\nconstraint listed {{ address inside {{{members}}}; }}\nendclass\n", 10)


def even():
    """20 numbers of 16 bits out of a list of the 1,500 lowest even ones."""
    members = ", ".join(str(2 * k) for k in range(1500))
    return run_of(f"class C;\nrand bit [15:0] x;\nconstraint listed {{ x inside {{{members}}}; }}\nendclass\n", 20)


def squares():
    """5 triples of squares, one of which is the sum of the others."""
    body = "class C;\nrand bit [11:0] x, y, z;\nconstraint right { x * x + y * y + 24'd0 == z * z; }\n"
    return run_of(body + "constraint rising { x > 0; y > x; z > y; }\nendclass\n", 5)


def factors():
    """5 pairs of factors of a million."""
    body = "class C;\nrand bit [15:0] a, b;\nrand bit [31:0] product;\n"
    return run_of(body + "constraint c { product == a * b; product == 32'd1000000; a > 1; b > 1; }\nendclass\n", 5)


def varied(props, item):
    """1,000 calls of a class with these properties and this item."""
    return run_of(f"class C;\n{props}constraint c {{ {item} }}\nendclass\n", 1000)


RUNS = {
    "packets": packets,
    "ascending": ascending,
    "defaults": defaults,
    "grid": grid,
    "quotients": quotients,
    "ranges": ranges,
    "aligned": aligned,
    "addresses": addresses,
    "even": even,
    "squares": squares,
    "factors": factors,
}

# Each with its properties, its item and how many solutions it has.
VARIETY = {
    "not_one_bit": ("rand bit [5:0] x;\n", "x[0] + x[1] + x[2] + x[3] + x[4] + 32'd0 + x[5] != 1;", 58),
    "sum": ("rand bit [5:0] x, y;\n", "x + y + 32'd0 == 57;", 58),
    "one_bit": ("rand bit [57:0] x;\n", "x != 0; (x & (x - 1)) == 0;", 58),
    "multiple": ("rand bit [31:0] y;\nrand bit [5:0] x;\n", "y == 71234567 * x; x < 58;", 58),
    "chain": ("rand bit [5:0] x, y, z;\n", "x < 58; y == x + 6'd3; z == (y ^ 6'd21);", 58),
}


def write(folder):
    folder.mkdir(parents=True, exist_ok=True)
    (folder / "many.sv").write_text(many(2000))
    (folder / "wide.sv").write_text(wide(1000))
    (folder / "searched.sv").write_text(searched(1000))
    (folder / "preferred.sv").write_text(preferred(99_998))
    (folder / "switched_off.sv").write_text(switched_off(10_000))
    (folder / "conflicts.sv").write_text(conflicts(200))
    for name, made in RUNS.items():
        (folder / f"{name}.sv").write_text(made())
    for name, (props, item, _) in VARIETY.items():
        (folder / f"{name}.sv").write_text(varied(props, item))


if __name__ == "__main__":
    write(pathlib.Path(sys.argv[1]))
