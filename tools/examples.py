#!/usr/bin/env python3
"""The texts of examples/ and of docs/GUIDE.md: what they print, and their copies in the tests.

    tools/examples.py check [PROGRAM]   are the copies the same, and does PROGRAM print what is stored and told
    tools/examples.py store PROGRAM     stores what each example prints as examples/NAME.out, and what the guide's script prints in the guide
    tools/examples.py texts             writes the copies, crates/svr_example_tests/src/texts.rt

PROGRAM is the built program, as crates/svrand/out/svrand. The words of an example are those of its first comment
that begins with `./svrand`. Of the guide each block of SystemVerilog is a script, the block of text behind it what
that script prints with the seed 1; and in each row of the table of refusals the third column is refused and the
fourth is not, in the frame that stands before the table.
"""
import pathlib
import re
import subprocess
import sys

ROOT = pathlib.Path(__file__).resolve().parent.parent
EXAMPLES = ROOT / "examples"
GUIDE = ROOT / "docs" / "GUIDE.md"
CALL = "p.randomize();"
SEED_1 = ["run", "--seed", "1"]
TEXTS = ROOT / "crates" / "svr_example_tests" / "src" / "texts.rt"


def words_of(text):
    """The words of an example: those of its first comment that begins with `./svrand`."""
    found = re.search(r"^//\s+\./svrand (.*) < ", text, re.M)
    return found.group(1).split() if found else SEED_1


def printed(program, words, text):
    return subprocess.run([program, *words], input=text.encode(), capture_output=True, check=False).stdout.decode()


def examples():
    return [(file, file.read_text()) for file in sorted(EXAMPLES.glob("*.sv"))]


def scripts():
    """The scripts of the guide, each with what it prints, where that is told."""
    blocks = re.findall(r"^```(\w+)(?: \S+)?\n(.*?)^```$", GUIDE.read_text(), re.M | re.S)
    return [
        (text, blocks[i + 1][1] if i + 1 < len(blocks) and blocks[i + 1][0] == "text" else None)
        for i, (kind, text) in enumerate(blocks)
        if kind == "systemverilog"
    ]


def refusals():
    """The rows of the table of refusals: the number, a text that is refused, and one that is not."""
    rows = re.findall(r"^\| (\d+) \| .* \| `([^`]*)` \| `([^`]*)` \|$", GUIDE.read_text(), re.M)
    return [(int(number), refused, repaired) for number, refused, repaired in rows]


def line_of(frame, text):
    """The line of the frame before which a text stands: the class for a type, the call for statements, else the end of the class."""
    first = text.split()[0]
    ends = {"typedef": "class P;", "constraint": "endclass", "rand": "endclass", "randc": "endclass", "/*": "endclass"}
    return [line.strip() for line in frame].index(ends.get(first, CALL))


def framed(frame, text):
    """The frame with a text in it. Statements take the place of its call."""
    at = line_of(frame, text)
    behind = at + 1 if frame[at].strip() == CALL else at
    return "\n".join([*frame[:at], text, *frame[behind:]]) + "\n"


def literal(text):
    return 'b"' + text.replace("\\", "\\\\").replace('"', '\\"') + '"'


def constant(name, text):
    lines = text.splitlines()
    items = "".join(f"    {literal(line)},\n" for line in lines)
    return f"pub(crate) const {name}: [&[u8]; {len(lines)}] = [\n{items}];\n"


def repair(frame, row):
    number, refused, repaired = row
    return (
        "    Repair {\n"
        f"        number: {number},\n"
        f"        line: {line_of(frame, refused)},\n"
        f"        refused: {literal(refused)},\n"
        f"        repaired: {literal(repaired)},\n"
        "    },\n"
    )


def copies():
    """The file of the tests."""
    (own, _), (frame, _) = scripts()
    rows = refusals()
    repairs = "".join(repair(frame.splitlines(), row) for row in rows)
    parts = [
        "// The texts of examples/ and of docs/GUIDE.md, line by line, written by tools/examples.py.\n",
        "use crate::guide::Repair;\n",
        *[constant(file.stem.upper(), text) for file, text in examples()],
        constant("OWN_CLASS", own),
        constant("FRAME", frame),
        f"pub(crate) const REPAIRS: [Repair; {len(rows)}] = [\n{repairs}];\n",
    ]
    return "\n".join(parts)


def unquoted():
    """The lines of a derivation that the guide quotes, and that the example does not print."""
    section = GUIDE.read_text().split("## How to read a derivation")[1].split("\n## ")[0]
    lines = (EXAMPLES / "contradiction.out").read_text().splitlines()
    return [line for line in re.findall(r"`([abcg] [^`.]*\d|s [^`.]* 0)`", section) if line not in lines]


def store(program):
    for file, text in examples():
        file.with_suffix(".out").write_text(printed(program, words_of(text), text))
    guide = GUIDE.read_text()
    for text, told in scripts():
        if told is not None:
            guide = guide.replace(f"```text\n{told}```", f"```text\n{printed(program, SEED_1, text)}```")
    GUIDE.write_text(guide)


def wrong(program):
    """What is not as it is stored or told."""
    if TEXTS.exists() and TEXTS.read_text() != copies():
        yield f"{TEXTS.relative_to(ROOT)} is not what `texts` writes"
    for line in unquoted():
        yield f"the guide quotes `{line}`, which contradiction.out has not"
    if program is None:
        return
    for file, text in examples():
        stored = file.with_suffix(".out")
        if not stored.exists() or printed(program, words_of(text), text) != stored.read_text():
            yield f"examples/{file.name} prints another text than {stored.name}"
    for text, told in scripts():
        found = printed(program, SEED_1, text)
        if told is not None and found != told or found.startswith("refused"):
            yield f"a script of the guide prints {found}"
    frame = scripts()[-1][0].splitlines()
    for number, refused, repaired in refusals():
        if not re.fullmatch(rf"refused \d+:\d+ {number}\n", printed(program, ["run"], framed(frame, refused))):
            yield f"refusal {number}: `{refused}` is not refused with it"
        if printed(program, ["run"], framed(frame, repaired)).startswith("refused"):
            yield f"refusal {number}: `{repaired}` is refused"


def main():
    command, program = (sys.argv[1:] + [None, None])[:2]
    if command == "texts":
        TEXTS.write_text(copies())
    elif command == "store" and program:
        store(program)
    elif command == "check":
        found = list(wrong(program))
        print("\n".join(found) or f"{len(examples())} examples, {len(scripts())} scripts and {len(refusals())} refusals are as told")
        return 1 if found else 0
    else:
        sys.exit(__doc__)
    return 0


if __name__ == "__main__":
    sys.exit(main())
