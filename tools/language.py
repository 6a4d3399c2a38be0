#!/usr/bin/env python3
"""Texts for each row of the guide's table 'The language': what is accepted, and what is left out and so refused.

    tools/language.py PROGRAM   does each come to what the table says
    tools/language.py rows      writes the rows of the tests, crates/svr_example_tests/src/language_rows.rt

PROGRAM is the built program, as crates/svrand/out/svrand. Each text stands in a script: at its top, in its class, as an item of
a constraint block, among the variables of its module or among its statements. It prints the texts that come to
something else than the table says, each with what the program prints.
"""
import re
import subprocess
import sys

sys.dont_write_bytecode = True
import examples  # noqa: E402

TESTS = examples.TEXTS.with_name("language_rows.rt")
PLACES = ("top", "head", "property", "item", "variable", "statement")

SCRIPT = """{top}
typedef enum bit [1:0] {{ OFF, ON, SLOW }} power_t;
class Q;
  rand int z;
  constraint late {{ z < 9; }}
endclass
class P{head};
  rand bit [3:0] a, b;
  rand bit signed [7:0] n;
  randc bit [2:0] r;
  rand power_t m;
  rand bit [7:0] d [];
  rand bit [3:0] f [3];
  rand bit [3:0] g [2][3];
  bit [3:0] s;
  {property}
  constraint k {{ d.size() < 3; {item} }}
endclass
module t;
  P p = new;
  Q q = new;
  int v;
  {variable}
  initial begin
    p.randomize();
    {statement}
  end
endmodule
"""

# By clause: where the text stands, what is accepted there, what is refused there.
ROWS = [
    ("5.3, 5.4", "statement", ["// one\n", "/* a /* b */"], []),
    ("5.3, 5.4", "item", [], ["a == 4 'b1010;"]),
    ("5.6", "item", ["$signed(a) < 9;", "$unsigned(n) < 255;"], ["\\a == 1;", "$clog2(a) == 1;", "a == `ONE;"]),
    ("5.6", "property", ["rand bit A, _a, a$1;", "rand bit always;", "rand bit checker;"], ["rand bit inside;", "rand bit soft;", "rand bit foreach;"]),
    ("5.7", "item", ["a < 12;", "a < 4'b1010;", "a < 4'o12;", "n > -8'sd5;", "n < 8'sh7f;", "a <= '1;", "a >= '0;", "a < 1_0;"],
     ["a == 4'b10x0;", "a == 4'bz;", "a < 1.5;", "a < 1ns;", "a < 65'd1;", "a < 'x;"]),
    ("5.9 to 5.12", "statement", ["p.f = '{1, 2, 3};"], ["p.f = '{default: 0};", "p.f = '{0: 1, 1: 2, 2: 3};", 'p.s = "a";', "(* here *) v = 1;"]),
    ("6.3", "property", ["rand logic [3:0] e;", "rand reg e;", "rand integer e;"], []),
    ("6.3", "item", [], ["a == 4'bxxxx;"]),
    ("6.11", "property", ["bit e;", "byte e;", "shortint e;", "int e;", "longint e;", "integer e;", "int unsigned e;", "byte unsigned e;", "bit signed [5:0] e;", "rand bit [63:0] e;"],
     ["bit [64:0] e;", "bit [3:0][1:0] e;", "bit [0:3] e;", "time e;", "real e;", "string e;", "chandle e;", "event e;"]),
    ("6.18, 6.19", "top", ["typedef bit [5:0] six_t;", "typedef enum { A, B = 5, C } abc_t;", "typedef enum byte { A, B } abc_t;", "typedef power_u power_u;"][:3],
     ["typedef enum { A[3] } abc_t;", "parameter W = 4;", "localparam W = 4;", "typedef class P;", "typedef struct { int i; } s_t;", "import x::*;"]),
    ("6.18, 6.19", "property", ["power_t e;"], ["enum { A, B } e;", "typedef bit [2:0] three_t;", "localparam W = 3;"]),
    ("6.18, 6.19", "item", ["m != SLOW;"], ["m.next() == ON;", "m.num() == 3;"]),
    ("6.24", "item", ["$signed(a) > -3;"], ["int'(a) == 1;", "4'(n) == 1;", "signed'(a) == 1;"]),
    ("6.24", "statement", ["void'(p.randomize());"], ["$cast(v, p.s);"]),
    ("7.2, 7.3", "property", [], ["struct { int i; } e;", "union { int i; } e;", "struct packed { bit i; } e;"]),
    ("7.4", "property", ["rand int e [4];", "rand int e [0:3];", "rand int e [2][2];", "rand power_t e [2];"], ["rand int e [3:0];", "rand int e [1:3];", "rand int e [2][2][2];", "rand int e [0];"]),
    ("7.4", "item", ["f[0] < f[1];", "g[1][2] == 3;", "f[a] != 2;"], ["f == f;", "f[1:0] == 3;", "g[1] == 3;"]),
    ("7.5, 7.10", "property", ["rand int e [];", "rand int e [$];"], ["rand int e [$:4];", "rand int e [][];"]),
    ("7.5, 7.10", "item", ["d.size() == 2;", "foreach (d[i]) d[i] == i;"], ["d.size == 2;", "d.first() == 2;", "d[$] == 2;"][1:]),
    ("7.5, 7.10", "statement", ["p.d = new[3];", "p.d[0] = 1;"], ["p.d = new[3](p.d);", "p.d.push_back(1);", "p.d.delete();"]),
    ("7.8", "property", [], ["int e [int];", "int e [string];", "int e [*];"]),
    ("7.12", "item", ["f.sum() < 9;", "f.product() < 9;", "f.and() == 0;", "f.or() < 9;", "f.xor() < 9;", "f.sum() with (item + 32'd0) < 9;", "f.sum(x) with (x * 2) < 9;"],
     ["f.min() == 1;", "f.sum() with (item.index) == 3;", "f.reverse() == 1;", "f.find with (item > 2) == 1;"]),
    ("7.12", "statement", [], ["v = p.f.sum();", "p.f.sort();"]),
    ("8.4, 8.5", "variable", ["P x = new;", "P x;", "int w = 3;"], ["P x = new(3);", "P x = null;", "P x = p;"]),
    ("8.4, 8.5", "statement", ["q = new;", "v = p.s;"], ["p = null;", "p = q;", "q = new q;"]),
    ("8.4, 8.5", "property", ["bit [3:0] e = 3;"], ["Q e;", "bit [3:0] e = s;"]),
    ("8.6 to 8.10", "property", [], ["function int twice(int x); return 2 * x; endfunction", "task go; endtask", "function new(); endfunction", "static int e;"]),
    ("8.11", "item", ["this.a < 9;"], []),
    ("8.11", "statement", [], ["this.s = 3;"]),
    ("8.13 to 8.26", "head", [" extends Q"], [" #(int W = 3)", " extends Q(1)", " implements I", " extends R"]),
    ("8.13 to 8.26", "top", [], ["virtual class V; endclass", "interface class I; endclass", "class D; local int x; endclass", "class D; protected int x; endclass", "class D; const int x = 3; endclass",
                                "class B; int x; endclass class D extends B; int x; endclass", "class B; rand int x; endclass class D extends B; constraint c { super.x < 3; } endclass"]),
    ("8.13 to 8.26", "top", ["class B; rand int x; constraint c { x < 3; } endclass class D extends B; constraint c { x > 3; } endclass"], []),
    ("9, 13, 23, 24", "top", [], ["function int one; return 1; endfunction", "module u; endmodule", "package x; endpackage", "interface i; endinterface"]),
    ("9, 13, 23, 24", "variable", [], ["always v = 1;", "assign v = 1;", "initial v = 1;", "function int one; return 1; endfunction", "final v = 1;"]),
    ("10.4", "statement", ["v = 2;", "p.s = 3;", "p.f[1] = 3;", "p.g[1][2] = 3;", "p.d = '{1, 2};"], ["v += 1;", "v++;", "v <= 1;", "assign v = 1;"]),
    ("11.3, 11.4", "item", [f"(a {sign} 3) <= 15;" for sign in "+ - * / % & | ^ ~^ ^~ << >> <<< >>> < <= > >= == != === !== && || -> <->".split()]
     + ["!a || 1;", "~a != 9;", "&a != 2;", "|a != 2;", "^a != 2;", "~&a != 2;", "~|a != 2;", "~^a != 2;", "-n < 99;", "+n < 99;", "(a > 3 ? a : b) < 16;", "{a, b} < 256;", "{2{a}} < 256;", "a inside {1, [3:5], f};"],
     ["(a ** 2) < 9;", "a ==? 3;", "a !=? 3;", "{<<{a}} == 3;", "(a = 3) == 3;", "(a++) == 3;"]),
    ("11.5", "item", ["a[1] == 0;", "a[2:1] == 0;", "f[1][2] == 0;", "f[1][2:1] == 0;"], ["a[1 +: 2] == 0;", "a[2 -: 2] == 0;", "a[1:2] == 0;"]),
    ("11.5", "statement", ["v = p.s[1];"], ["p.s[1] = 0;", "p.s[2:1] = 0;"]),
    ("12", "statement", ["repeat (3) p.randomize();", "begin v = 1; end", ";", "repeat (2) begin v = 1; p.randomize(); end"],
     ["if (v) v = 1;", "for (int i = 0; i < 3; i++) v = i;", "while (v) v = 0;", "case (v) 1: v = 2; endcase", "forever v = 1;", '$display("x");', "int w;", "#1;", "fork join", "return;", "foreach (p.f[i]) v = i;"]),
    ("16.3", "statement", ["assert (p.randomize());"], ["assert (p.randomize()) else v = 1;", "assert (v);"]),
    ("18.4", "property", ["randc bit [7:0] e;", "randc power_t e;", "rand longint e;"], ["randc bit [8:0] e;", "randc bit e [2];", "randc bit e [];"]),
    ("18.5.1, 18.5.11", "property", [], ["constraint e;", "extern constraint e;", "static constraint e { a < 3; }", "pure constraint e;"]),
    ("18.5.3", "item", ["a inside {1, 2};", "a inside {[3:9]};", "a inside {[3:$]};", "a inside {f};", "!(a inside {1});"], ["a inside {};", "a inside f;"]),
    ("18.5.4", "item", ["a dist {1 := 3, 2 := 4};", "a dist {[1:3] :/ 3, 5};", "a dist {1 := s, 2 := 1};"], ["a dist {1 :- 3};", "a dist {1 := b, 2 := 1};", "s dist {1, 2};"]),
    ("18.5.5", "item", ["unique {a, b};", "unique {f};", "unique {f[0], f[1], a};"], ["unique {r};", "unique {a, n};"]),
    ("18.5.6, 18.5.7", "item", ["a == 3 -> b == 4;", "if (a == 3) b == 4; else b == 5;", "a == 3 -> { b == 4; n == 3; }", "if (a > 3) { b == 4; }"], ["case (a) 1: b == 2; endcase"]),
    ("18.5.8", "item", ["foreach (f[i]) f[i] < 9;", "foreach (g[i, j]) g[i][j] < 9;", "foreach (f[i]) foreach (d[j]) f[i] != d[j] || 1;", "foreach (g[i]) g[i][0] < 9;"], ["foreach (g[i][j]) g[i][j] < 9;", "foreach (g[0][j]) g[0][j] < 9;", "foreach (a[i]) a[i] == 0;"]),
    ("18.5.9, 18.5.12, 18.5.13", "item", [], ["q.z < 3;", "twice(a) < 3;", "q == null || a < 3;"]),
    ("18.5.10", "item", ["solve a before b;", "solve a before b, n;"], ["solve a before b; solve b before a;", "solve r before a;"]),
    ("18.5.14", "item", ["soft a == 3;", "a == 3 -> soft b == 4;", "foreach (f[i]) soft f[i] == 3;", "disable soft a;", "if (s == 3) disable soft f;"], ["soft r == 3;", "soft { a == 3; }"]),
    ("18.6.1", "statement", ["p.randomize();", "v = p.randomize();", "void'(p.randomize());", "assert (p.randomize());"], ["v = p.randomize() + 1;", "if (p.randomize()) v = 1;", "p.pre_randomize();"]),
    ("18.6.1", "variable", [], ["int w = p.randomize();"]),
    ("18.6.1", "property", [], ["function void pre_randomize(); endfunction"]),
    ("18.7", "statement", ["p.randomize() with { a < 9; };", "p.randomize() with { a < local::v + 9; };", "p.randomize() with { soft a == 3; };"], ["p.randomize() with (a) { a < 9; };"]),
    ("18.8, 18.9", "statement", ["p.a.rand_mode(0);", "p.rand_mode(1);", "p.k.constraint_mode(0);", "p.constraint_mode(1);", "p.f.rand_mode(0);"], ["v = p.a.rand_mode();", "v = p.k.constraint_mode();", "p.f[0].rand_mode(0);"]),
    ("18.11", "statement", ["p.randomize(a, b);", "p.randomize(null);", "p.randomize(s);", "p.randomize(a) with { b < 16; };"], ["p.randomize(v);", "p.randomize(a, a);"]),
    ("18.12 to 18.15", "statement", [], ["std::randomize(v);", "randomize(v);", "v = $urandom;", "v = $urandom_range(3);", "p.srandom(3);"]),
    ("18.16, 18.17", "statement", [], ["randcase 1: v = 1; 2: v = 2; endcase", "randsequence (x) x: y; y: { v = 1; }; endsequence"]),
    ("19", "property", [], ["covergroup e; endgroup"]),
]


def printed(program, place, text):
    parts = dict.fromkeys(PLACES, "")
    parts[place] = text
    ran = subprocess.run([program, "run"], input=SCRIPT.format(**parts).encode(), capture_output=True, check=False)
    return ran.stdout.decode().splitlines()[0]


def literal(text):
    return examples.literal(text).replace("\n", "\\n")


def pair(first, second):
    """A pair on a line of its own, as `rt fmt` has it."""
    if len(first) + len(second) > 58:
        return f"    (\n        {first},\n        {second},\n    ),\n"
    return f"    ({first}, {second}),\n"


def is_early(row):
    """Whether a row is of clauses 5 to 8. A proof takes so many texts in one table and no more."""
    return int(re.match(r"\d+", row[0]).group()) < 9


def table(name, column, early):
    """The texts of a column of some rows, each with its place."""
    rows = [row for row in ROWS if is_early(row) == early]
    texts = "".join(pair(row[1].upper(), literal(text)) for row in rows for text in row[column])
    return f"pub(crate) const {name}: &[(usize, &[u8])] = &[\n{texts}];\n"


def copies():
    """The file of the rows: the script in pieces between its places, and the texts."""
    named = dict.fromkeys(PLACES, "\0")
    pieces = "".join(f"    {literal(piece)},\n" for piece in SCRIPT.format(**named).split("\0"))
    return "\n".join([
        "// Texts for each row of the guide's table of the language, written by tools/language.py.\n",
        "/// The script, cut at the places at which a text may stand.",
        f"pub(crate) const PIECES: &[&[u8]] = &[\n{pieces}];\n",
        "\n\n".join(f"const {place.upper()}: usize = {i};" for i, place in enumerate(PLACES)) + "\n",
        "// Of clauses 5 to 8, and then of 9 to 19.\n",
        table("FIRST_ACCEPTED", 2, True),
        table("LAST_ACCEPTED", 2, False),
        table("FIRST_LEFT_OUT", 3, True),
        table("LAST_LEFT_OUT", 3, False),
    ])


def main():
    (program,) = sys.argv[1:]
    if program == "rows":
        TESTS.write_text(copies())
        return 0
    texts = 0
    wrong = int(TESTS.read_text() != copies())
    if wrong:
        print(f"{TESTS.name} is not what `rows` writes")
    for clause, place, accepted, refused in ROWS:
        for text, is_accepted in [(text, True) for text in accepted] + [(text, False) for text in refused]:
            found = printed(program, place, text)
            texts += 1
            if bool(re.match(r"refused ", found)) == is_accepted:
                wrong += 1
                print(f"{clause}: {'accepted' if is_accepted else 'left out'}: {text}: {found}")
    print(f"{texts} texts, {wrong} of which come to something else")
    return 1 if wrong else 0


if __name__ == "__main__":
    sys.exit(main())
