#!/usr/bin/env python3
"""Says what is off in the repository beside what `rt ci` judges.

    .ci/style.py [--all] [CRATE ..]

It looks at heads of files, widths and lengths, comments on public functions, places of tests, spelling of lemmas,
words that name what stands elsewhere, lemma files that are cited without being named as public, lines of crates.txt,
and crates that the documents do not know. Each line names a file, what is off, and where. What was off when a rule
came, and is in a crate that many others stand on, is listed in `.ci/style-known`: it is told with `--all` alone, and
a line of that list that holds no longer is told too. The exit status is 1 where something is told. It writes nothing.
"""
import pathlib
import re
import sys

TOP = pathlib.Path(__file__).resolve().parent.parent
FILE_LINES = 800
BODY_LINES = 40
CRATE_FUNCTIONS = 100
WIDTH = 320
FN = re.compile(r"^( *)(?:pub(?:\([a-z]+\))? )?(?:const )?fn (\w+)")
PUBLIC_FN = re.compile(r"^ *pub fn (\w+)")
ELSEWHERE = re.compile(
    r"\b(?:[Ii]ssues? #?\d+|[Dd]ocument \d\d|row \d+ of|[Rr]equests? R?\d+|[Dd]efinition D\d+|[DR]\d\d)\b|/(?:work|tmp|opt)/"
)
CITED = re.compile(r"Rattle\.(svr\w*)\.proofs\.(\w+)")
NAMED = re.compile(r"\b(svr_\w+|sqlite_items|indexmap|itoa|clap|rand_core|rand_pcg)(?:\.|::)")
LEMMA = re.compile(r"^ *(?:abbrev |unfoldable )?(?:pub )?([a-z][\w'-]*) :")

# The crates whose lemmas are spelled as std spells its own: what is spoken of, a hyphen, what is said of it.
HYPHENS = {
    "svr_arena", "svr_cdcl", "svr_chain", "svr_cover", "svr_cover_checked", "svr_cover_laws", "svr_cover_made", "svr_cover_made_laws", "svr_cover_steps", "svr_cover_text", "svr_cover_union", "svr_gate", "svr_lrat", "svr_lrat_judge", "svr_lrat_made", "svr_lrat_printed",
    "svr_lrat_text", "svr_query", "svr_seq_made", "svr_seq_text", "svr_soft", "svr_trail", "svr_watch",
}

# Files of `proofs/` that say nothing of their own.
ANSWERS = ("Answers.antt", "Invariants.antt", "Proof.antt", "Lib.antt")


def heads(path, lines):
    """The first line says what the file is about."""
    mark = {".rt": "//", ".antt": "--"}[path.suffix]
    if lines != [""] and path.name not in ANSWERS and not lines[0].startswith(mark):
        yield "begins with no comment on its subject", ""


def lengths(path, lines):
    """Files and lines that are too long."""
    if len(lines) > FILE_LINES:
        yield f"has over {FILE_LINES} lines", str(len(lines))
    for at, line in enumerate(lines, 1):
        if len(line) > WIDTH and not line.lstrip().startswith(("//", "--", "use ", "ghost use ")):
            yield f"has a line over {WIDTH} letters", f"line {at}"
            return


def body_lines(lines, at, indent):
    """How many lines stand between the braces of the function that begins at a line."""
    begun = None
    for number in range(at, len(lines)):
        line = lines[number]
        if begun is None and (line == indent + "{" or (line.endswith("{") and not re.match(r" *(?:ensures|requires|//)", line))):
            begun = number
        if line in (indent + "}", indent + "{}") or (begun is None and line.endswith(("}", ";")) and number == at):
            return 0 if begun is None else number - begun - 1
    return 0


def functions(path, lines):
    """Long functions, and public ones without a comment."""
    if path.suffix != ".rt":
        return
    for at, line in enumerate(lines):
        found = FN.match(line)
        if not found:
            continue
        if body_lines(lines, at, found.group(1)) > BODY_LINES:
            yield f"`{found.group(2)}` has a body over {BODY_LINES} lines", f"line {at + 1}"
        before = at - 1
        while before >= 0 and lines[before].lstrip().startswith("#["):
            before -= 1
        if PUBLIC_FN.match(line) and not lines[before].lstrip().startswith("///"):
            yield f"`{found.group(2)}` has no doc comment", f"line {at + 1}"


def elsewhere(path, lines):
    """Words that name what a reader does not have."""
    for at, line in enumerate(lines, 1):
        found = ELSEWHERE.search(line)
        if found:
            yield "names what stands elsewhere", f"line {at}, {found.group()}"


def tests(path, lines):
    """Tests stand in crates or modules of tests."""
    if path.suffix == ".rt" and "tests" not in str(path.relative_to(TOP)) and "#[test]" in (line.strip() for line in lines):
        yield "has tests beside code", ""


def unsaid(path, lines):
    """A value that is made for the prover alone has a comment that says so."""
    if path.suffix == ".rt":
        for at, line in enumerate(lines):
            if line.lstrip().startswith("let _ = ") and not lines[at - 1].lstrip().startswith("//"):
                yield "makes a value that no line uses, and does not say why", f"line {at + 1}"
                return


def spelling(path, lines):
    """Names of lemmas."""
    if path.suffix == ".antt" and path.parent.name == "proofs" and path.parent.parent.name not in HYPHENS:
        for at, line in enumerate(lines, 1):
            found = LEMMA.match(line)
            if found and "-" in found.group(1):
                yield "has a lemma with a hyphen in its name", f"line {at}, {found.group(1)}"
                return


CHECKS = (heads, lengths, functions, elsewhere, tests, unsaid, spelling)


def of_crate(crate, public, lists):
    """What is off in one crate. `public` has the lemma files that other crates may cite, `lists` the lines of crates.txt."""
    count, named = 0, set()
    for path in sorted([*crate.rglob("*.rt"), *crate.rglob("*.antt")]):
        if "out" in path.relative_to(crate).parts:
            continue
        text = path.read_text(encoding="utf-8")
        lines = text.split("\n")
        place = str(path.relative_to(TOP))
        named |= {it for it in NAMED.findall(text) if it in lists or not it.startswith("svr_")}
        if path.suffix == ".rt":
            count += sum(1 for line in lines if FN.match(line))
            if path.name in ("lib.rt", "main.rt") and "#![tactic(auto)]" not in lines:
                yield place, "has no line `#![tactic(auto)]`", ""
        for check in CHECKS:
            for what, where in check(path, lines):
                yield place, what, where
        for other, name in sorted(set(CITED.findall(text))):
            if other != crate.name and name not in public.get(other, ""):
                yield place, f"cites proofs/{name}.antt of {other}, which is not named as public", ""
    if count > CRATE_FUNCTIONS:
        yield f"crates/{crate.name}", f"has over {CRATE_FUNCTIONS} functions", str(count)
    listed = lists.get(crate.name, set())
    for name in sorted(named - listed - {crate.name}):
        yield "crates.txt", f"the line of {crate.name} lacks {name}, which its files name", ""
    for name in sorted(listed - named):
        yield "crates.txt", f"the line of {crate.name} has {name}, which none of its files names", ""


def lines_of_crates():
    """What each crate stands on, by crates.txt."""
    lists = {}
    for line in (TOP / "crates.txt").read_text(encoding="utf-8").split("\n"):
        name, colon, rest = line.split("#")[0].partition(":")
        if colon:
            lists[name.split()[0]] = set(rest.split())
    return lists


def public_lemmas(names):
    """The lemma files that other crates may cite, by crate: those of its page, and those of docs/LEMMAS.md."""
    public = {}
    for name in names:
        root = TOP / "crates" / name / "src" / "lib.rt"
        if root.exists():
            public[name] = set(re.findall(r"proofs/(\w+)\.antt", root.read_text(encoding="utf-8").split("#![")[0]))
    crate = None
    for line in (TOP / "docs" / "LEMMAS.md").read_text(encoding="utf-8").split("\n"):
        begins = re.match(r"\| `(svr\w*)` \|", line)
        crate = begins.group(1) if begins else crate
        found = re.match(r"\| \| `(\w+)` \|", line)
        if found:
            public.setdefault(crate, set()).add(found.group(1))
    return public


def of_documents(names):
    """What is off in the documents and tools: crates that they lack, and crates that there are not."""
    for path in sorted([*TOP.glob("*.md"), *(TOP / "docs").rglob("*.md"), *(TOP / "tools").iterdir(), *(TOP / "examples").iterdir()]):
        if not path.is_file():
            continue
        lines = path.read_text(encoding="utf-8").split("\n")
        place = str(path.relative_to(TOP))
        for what, where in elsewhere(path, lines):
            yield place, what, where
        told = set(re.findall(r"\bsvr_\w+[a-z]\b|\bsvrand\b", "\n".join(lines)))
        for name in sorted(told - set(names)):
            yield place, f"names `{name}`, which is no crate", ""
        if place in ("docs/CRATES.md", "docs/ARCHITECTURE.md"):
            for name in sorted(set(names) - told):
                yield place, f"does not name the crate `{name}`", ""


def main():
    words = sys.argv[1:]
    every = "--all" in words
    names = sorted(it.name for it in (TOP / "crates").iterdir())
    asked = [word for word in words if word != "--all"]
    public, lists = public_lemmas(names), lines_of_crates()
    found = [it for name in asked or names for it in of_crate(TOP / "crates" / name, public, lists)]
    if not asked:
        found += of_documents(names)
    known = set()
    if not every:
        known = {line for line in (TOP / ".ci" / "style-known").read_text(encoding="utf-8").split("\n") if line and line[0] != "#"}
    off = 0
    for place, what, where in found:
        if f"{place}: {what}" not in known:
            print(f"{place}: {what}" + (f" ({where})" if where else ""))
            off += 1
    if not asked:
        for line in sorted(known - {f"{place}: {what}" for place, what, _ in found}):
            print(f".ci/style-known: holds no longer: {line}")
            off += 1
    sys.exit(1 if off else 0)


if __name__ == "__main__":
    main()
