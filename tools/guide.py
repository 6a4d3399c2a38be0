#!/usr/bin/env python3
"""The texts of docs/GUIDE.md, each run with what the guide says of it.

    tools/guide.py check [PROGRAM]  are the rows of the tests the same, and does each text come to what is told
    tools/guide.py store PROGRAM    writes what the commands of its console blocks print into the guide
    tools/guide.py rows             writes the rows of the tests, crates/svr_example_tests/src/rows.rt

PROGRAM is the built program, as crates/svrand/out/svrand. In a console block a line behind `$ ` is a command, run by a
shell in a folder in which PROGRAM is `./svrand`, examples/ and tools/ lie, and each block with a name behind its kind
is a file of that name; the lines up to the next command are what it prints. The scripts and the refusals of scripts are
read as tools/examples.py reads them, and tried here too. Of the tables with three columns, a number and two texts, the first
text is refused with the number and the second is not: derivations, and productions and parts of a cover group in their frames.

The rows of the tests are those commands that run PROGRAM once, over a file or over what `sed` or `head` makes of one,
and print all of it, its first or its last lines; then each example with what is stored, and the refusals of the tables
with three columns.
"""
import os
import pathlib
import re
import subprocess
import sys
import tempfile

sys.dont_write_bytecode = True
import examples  # noqa: E402

ROOT = examples.ROOT
GUIDE = examples.GUIDE
BLOCK = re.compile(r"^```(\w+)(?: (\S+))?\n(.*?)^```$", re.M | re.S)
LONGEST = 4_194_304
HEIGHT = 128
ROWS = examples.TEXTS.with_name("rows.rt")
COMMAND = re.compile(
    r"(?:((?:sed|head) [^|]*) \| )?\./svrand ([^|<>;]*?)(?: < ([\w./]+))?"
    r"(?: \| (head|tail|cut) -[nc] [\d-]+)?(; echo \$\?)?"
)
STATUSES = ["AllOne", "SomeZero", "Usage", "SomeGivenUp", "Refused", "Limited"]
PARTS = {None: "All", "head": "First", "tail": "Last", "cut": "First"}


def files():
    """The blocks with a name, as files."""
    return {name: text for _, name, text in BLOCK.findall(GUIDE.read_text()) if name}


def commands(block):
    """The commands of a console block, each with what it prints."""
    parts = re.split(r"^\$ ", block, flags=re.M)
    return [tuple(part.split("\n", 1)) for part in parts[1:]]


def prepared(program, folder):
    """The folder in which commands run."""
    for name in ("examples", "tools"):
        (folder / name).symlink_to(ROOT / name)
    (folder / "svrand").symlink_to(os.path.abspath(program))
    for name, text in files().items():
        (folder / name).write_text(text)


def told_by(command, folder):
    """What a command prints, faults of its own among it."""
    words = ["sh", "-c", command]
    ran = subprocess.run(words, cwd=folder, stdout=subprocess.PIPE, stderr=subprocess.STDOUT, check=False)
    return ran.stdout.decode()


def consoles(program):
    """The commands of all console blocks in their order: what is told and what is printed."""
    with tempfile.TemporaryDirectory() as name:
        folder = pathlib.Path(name)
        prepared(program, folder)
        for kind, _, block in BLOCK.findall(GUIDE.read_text()):
            if kind == "console":
                for command, told in commands(block):
                    yield command, told, told_by(command, folder)


def pairs(numbers):
    """The rows of three columns with these numbers."""
    rows = re.findall(r"^\| (\d+) \| `([^`|]*)` \| `([^`|]*)` \|$", GUIDE.read_text(), re.M)
    return [(int(number), refused, repaired) for number, refused, repaired in rows if int(number) in numbers]


def text_of(maker, file):
    """What a command reads: a file of the guide or an example, or what `sed` or `head` makes of one."""
    if maker is None:
        return files().get(file) or (ROOT / file).read_text()
    with tempfile.TemporaryDirectory() as name:
        prepared("svrand", pathlib.Path(name))
        return told_by(maker, name)


def name_of(text):
    """The name of a text that texts.rt has, as `Text` has it."""
    for file, script in examples.examples():
        if script == text:
            return file.stem.title().replace("_", "")
    return "OwnClass" if text == examples.scripts()[0][0] else None


def status_of(told):
    """How a run ends that prints these lines, by the calls that they tell."""
    ends = {" limit ": "Limited", " gaveup ": "SomeGivenUp", " 0 ": "SomeZero"}
    calls = [line for line in told.splitlines() if line.startswith("#")]
    return next((status for word, status in ends.items() if any(word in line for line in calls)), "AllOne")


def stored():
    """The runs of the examples: words, what is read, the status, which part of what is printed is told, and that."""
    for file, text in examples.examples():
        told = file.with_suffix(".out").read_text()
        yield examples.words_of(text), text, status_of(told), "All", told


def runs():
    """The same of the guide's commands, with the status where it is told."""
    own, told = examples.scripts()[0]
    yield examples.SEED_1, own, status_of(told), "All", told
    for kind, _, block in BLOCK.findall(GUIDE.read_text()):
        for command, told in commands(block) if kind == "console" else ():
            found = COMMAND.fullmatch(command)
            if found is None or not (found[1] or found[3]) or found[3] in ("/", "one.txt"):
                continue
            maker, words, file, cut, is_asked = found.groups()
            status = None
            if is_asked:
                *lines, code = told.splitlines(keepends=True)
                told, status = "".join(lines), STATUSES[int(code)]
            yield words.split(), text_of(maker, file), status, PARTS[cut], told[:-1] if cut == "cut" else told


def listed(items, indent):
    """Items of a list, on one line where they fit, as `rt fmt` has it."""
    whole = f"[{', '.join(items)}]"
    if len(whole) <= (71 if len(items) == 1 else 60):
        return whole
    return "[\n" + "".join(f"{' ' * (indent + 4)}{it},\n" for it in items) + f"{' ' * indent}]"


def row(words, text, status, part, told):
    said = listed([f'"{word}"' for word in words], 8)
    name = name_of(text)
    lines = listed([examples.literal(line) for line in text.splitlines()], 8)
    read = f"Text::{name}" if name else f"Text::Lines(&{lines})"
    ends = f"Some(Status::{status})" if status else "None"
    parts = [line[at : at + 80] for line in told.splitlines(keepends=True) for at in range(0, len(line), 80)]
    told = listed([examples.literal(part).replace("\n", "\\n") for part in parts], 8)
    return (
        "    Row {\n"
        f"        words: &{said},\n"
        f"        text: {read},\n"
        f"        status: {ends},\n"
        f"        part: Part::{part},\n"
        f"        told: &{told},\n"
        "    },\n"
    )


def table(name, rows):
    return f"pub(crate) const {name}: &[Row] = &[\n{''.join(row(*it) for it in rows)}];\n"


def copies():
    """The file of the rows."""
    return "\n".join([
        "// What docs/GUIDE.md and the files beside the examples say that the program prints, written by tools/guide.py.\n",
        "use crate::prints::{Part, Row, Text};\nuse svr_status::Status;\n",
        table("STORED", stored()),
        table("COMMANDS", runs()),
        table("REPAIRED", [it for pair in framed_pairs() for it in repaired_runs(*pair)]),
    ])


# What a text that is not refused comes to, by its command.
FIRST = {"check": "accepted\n", "seq": "#1 a", "cover": "#1 "}


def repaired_runs(number, words, refused, repaired):
    """The run of a text that is refused with a number, and of one that is not."""
    yield words, refused, "Refused", "Last", f" {number}\n"
    yield words, repaired, "AllOne", "First", FIRST[words[0]]


def framed_pairs():
    """The refusals of derivations and of productions, each with its words, a text that is refused and one that is not."""
    for number, refused, repaired in pairs({29, 30}):
        yield number, ["check"], refused, repaired
    for number, refused, repaired in pairs({36, 37, 38, 39}):
        framed = [f"randsequence () {text} endsequence" for text in (refused, repaired)]
        yield number, ["seq"], *framed
    frame = examples.scripts()[-1][0].splitlines()
    for number, refused, repaired in pairs({31, 32, 33, 34, 35}):
        head = "covergroup g with function sample(P p);"
        yield number, ["cover"], *["\n".join([f"{head} {text} endgroup", *frame]) for text in (refused, repaired)]


def tries():
    """Each refusal with its words, a text that is refused with it and one that is not."""
    frame = examples.scripts()[-1][0].splitlines()
    for number, refused, repaired in examples.refusals():
        yield number, ["run"], examples.framed(frame, refused), examples.framed(frame, repaired)
    yield from framed_pairs()
    deep = [f"constraint k {{ a == {'(' * pairs_}1{')' * pairs_}; }}" for pairs_ in (HEIGHT - 2, HEIGHT - 3)]
    yield 6, ["run"], *[examples.framed(frame, text) for text in deep]
    whole = "\n".join(frame)
    yield 27, ["run"], whole.ljust(LONGEST + 1), whole.ljust(LONGEST)
    yield 27, ["cover"], whole.ljust(LONGEST + 1), whole.ljust(LONGEST)
    line = "randsequence () main : { a; }; endsequence"
    yield 27, ["seq"], line.ljust(LONGEST + 1), line.ljust(LONGEST)


def unlike(program):
    """What does not come to what is told."""
    for text, told in examples.scripts():
        found = examples.printed(program, examples.SEED_1, text)
        if told is not None and found != told or found.startswith("refused"):
            yield f"a script prints\n{found}"
    for command, told, found in consoles(program):
        if told != found:
            yield f"$ {command}\nprints\n{found}"
    for number, words, refused, repaired in tries():
        found = examples.printed(program, words, refused)
        if not re.fullmatch(rf"refused \d+:\d+ {number}\n", found):
            yield f"refusal {number}: `{refused.strip()[:2000]}` comes to {found}"
        found = examples.printed(program, words, repaired)
        if found.startswith("refused") or not found and words != ["run"]:
            yield f"refusal {number}: `{repaired.strip()[:2000]}` comes to {found}"


def store(program):
    """The guide with what its commands print."""
    printed = iter(list(consoles(program)))

    def stored(found):
        kind, name, block = found.groups()
        if kind != "console":
            return found.group(0)
        lines = []
        for command, _ in commands(block):
            same, _, text = next(printed)
            assert command == same
            lines.append(f"$ {command}\n{text}")
        return f"```console\n{''.join(lines)}```"

    GUIDE.write_text(BLOCK.sub(stored, GUIDE.read_text()))


def main():
    command, program = (sys.argv[1:] + [None, None])[:2]
    if command == "rows":
        ROWS.write_text(copies())
        return 0
    if command == "store" and program:
        store(program)
        return 0
    if command != "check":
        sys.exit(__doc__)
    if ROWS.read_text() != copies():
        sys.exit(f"{ROWS.relative_to(ROOT)} is not what `rows` writes")
    if program is None:
        return 0
    found = list(unlike(program))
    shown = sum(len(commands(block)) for kind, _, block in BLOCK.findall(GUIDE.read_text()) if kind == "console")
    tried = len(list(tries()))
    print("\n".join(found) or f"{shown} commands and {tried} refusals are as the guide says")
    return 1 if found else 0


if __name__ == "__main__":
    sys.exit(main())
