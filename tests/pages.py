#!/usr/bin/env python3
"""pages.py [--write]: keeps the pages true that speak of the sources.

docs/DEFINITIONS.md and docs/CALLS.md are read off the sources: with --write they are written, else they must be as they
would be written. Besides, every link and path that a page names must be there, every name in backquotes in
docs/PROVED.md must stand in the sources, README.md keeps its size, and its code and that of docs/GUIDE.md stand in an example. It
prints a line for each fault, and ends with 1 where there is one.
"""
import re
import sys

sys.dont_write_bytecode = True
from sources import TOP, crates, definitions, edits, functions, groups, imported

README_WORDS, README_CODE, SENTENCE_WORDS = 800, 20, 40
WORD = re.compile(r"[\w'-]+")
MADE = "<!-- Made by tests/pages.py --write from the sources: change those, and not this page. -->"


def cited():
    """Returns the definitions that public contracts cite: a set of (crate, file, name)."""
    found = set()
    for crate in crates():
        names = {}
        for function in functions(crate):
            if function.file not in names:
                names[function.file] = imported(function.file)
            if function.public:
                for _, _, text in function.clauses:
                    for word in set(WORD.findall(text)):
                        if word in names[function.file]:
                            found.add((*names[function.file][word], word))
    return found


def listed(names):
    return ", ".join(f"`{name}`" for name in names)


def definitions_page():
    rows, wanted = [], cited()
    for title, names in groups():
        for crate in names:
            part = []
            for file, words, comment in definitions(crate):
                shown = [word for word in words if (crate, file.stem, word) in wanted]
                if shown:
                    text = comment.replace("|", "\\|")
                    part.append(f"| {listed(shown)} | {text} | `{file.name}` |")
            if part:
                rows += ["", f"## `{crate}`", "", "| name | what it is | file in specs/ |", "|---|---|---|", *part]
    return "\n".join([
        "# Definitions", "", MADE, "",
        "What the contracts of public calls cite, crate by crate, lowest first. The text of a row is the comment of its first name; other",
        "names in it stand right below that one in the file, without a comment of their own. What these definitions cite in turn stands beside",
        "them in the same folder.",
        *rows, ""])


def calls_page():
    rows, bare = [], []
    for title, names in groups():
        for crate in names:
            part, turned, without = [], edits(crate), []
            is_library = (TOP / "crates" / crate / "src" / "lib.rt").exists()
            for function in functions(crate):
                edits_here = turned.get(function.title(), [])
                clauses = [name or kind for kind, name, _ in function.clauses if kind == "ensures"]
                if function.public and not clauses and is_library:
                    without.append(function.title())
                if (function.public and clauses) or edits_here:
                    names_of = ", ".join(dict.fromkeys("one clause" if c == "ensures" else f"`{c}`" for c in clauses)) or "none"
                    kind = "" if function.public else " (inner)"
                    part.append(f"| `{function.title()}`{kind} | {names_of} | {listed(edits_here)} |")
            if part:
                rows += ["", f"## `{crate}`", "", "| call | clauses | wrong bodies that must be refused |", "|---|---|---|", *part]
            if without:
                bare.append(f"| `{crate}` | {listed(without)} |")
    return "\n".join([
        "# Calls, their clauses and the wrong bodies", "", MADE, "",
        "Each public call with the names of the clauses of its contract, and the wrong edits that stand in it: the gate tries each, and the",
        "prover must refuse it. An inner function is listed where an edit changes it; the public calls above it go through it.",
        *rows, "", "## Calls without a clause", "",
        "They are safe, and they return but where they wait. A call on what stands behind a hub's lock has no clause, since others may change that",
        "before it returns; the others serve programs, or only lend what they are made of.", "",
        "| crate | calls |", "|---|---|", *bare, ""])


def pages():
    return sorted([*TOP.glob("*.md"), *TOP.glob("docs/*.md"), *TOP.glob("examples/*.md"), *TOP.glob("tests/**/README.md")])


def wrong_paths(page):
    text = page.read_text(encoding="utf-8")
    for target in re.findall(r"\]\(([^)#\s]+)(?:#[^)]*)?\)", text):
        if "://" not in target and not (page.parent / target).exists():
            yield f"{page.name}: the link to {target} leads nowhere"
    for path in re.findall(r"`((?:docs|tests|crates|examples|\.ci)/[\w./-]+)`", text):
        is_made, is_pattern = "/out/" in path, re.search(r"\b(NAME|FOLDER|WHAT_IS_WRONG)\b", path)
        if not is_made and not is_pattern and not (TOP / path).exists():
            yield f"{page.name}: {path} is not there"


def wrong_names(page):
    known = set()
    for file in [*TOP.glob("crates/*/src/**/*.rt"), *TOP.glob("crates/*/specs/**/*.antt"), *TOP.glob("crates/*/must-fail/*.edit")]:
        known.add(file.stem)
        known |= set(re.findall(r"[\w-]+", file.read_text(encoding="utf-8")))
    known |= set(crates())
    for name in re.findall(r"`([a-zA-Z_][\w:]*)`", page.read_text(encoding="utf-8")):
        for word in name.split("::"):
            if word and word not in known:
                yield f"{page.name}: nothing in the sources is named {name}"


def prose(text):
    """Returns a page's text without code blocks, tables and headings."""
    text = re.sub(r"```.*?```", "", text, flags=re.S)
    return "\n".join(line for line in text.splitlines() if not line.startswith(("|", "#", "    ", "<!--")))


def strange_code(page):
    """A page's Rust code is cut out of an example, part by part, with an empty line between two."""
    text = page.read_text(encoding="utf-8")
    examples = [source.read_text(encoding="utf-8") for source in TOP.glob("crates/example_*/src/*.rt")]
    for block in re.findall(r"^```rust\n(.*?)^```$", text, re.M | re.S):
        for part in block.rstrip("\n").split("\n\n"):
            if not any(part in example for example in examples):
                yield f"{page.name}: this stands in no example: {part.splitlines()[0]}"


def wrong_size(page):
    words = len(page.read_text(encoding="utf-8").split())
    if words > README_WORDS:
        yield f"{page.name}: {words} words, and {README_WORDS} at most are meant"
    for block in re.findall(r"^```rust\n(.*?)^```$", page.read_text(encoding="utf-8"), re.M | re.S):
        lines = [line for line in block.splitlines() if line.strip()]
        if len(lines) > README_CODE:
            yield f"{page.name}: {len(lines)} lines of code, and {README_CODE} at most are meant"
    for sentence in re.split(r"(?<=[.:?!])\s+|\n\s*\n|\n- ", prose(page.read_text(encoding="utf-8"))):
        if len(sentence.split()) > SENTENCE_WORDS:
            yield f"{page.name}: a sentence of {len(sentence.split())} words: {' '.join(sentence.split()[:8])} .."


def main():
    faults = []
    for name, made in (("DEFINITIONS.md", definitions_page()), ("CALLS.md", calls_page())):
        page = TOP / "docs" / name
        if "--write" in sys.argv:
            page.write_text(made, encoding="utf-8")
        elif not page.is_file() or page.read_text(encoding="utf-8") != made:
            faults.append(f"docs/{name} is not what the sources say: run tests/pages.py --write")
    for page in pages():
        faults += wrong_paths(page)
    if (TOP / "docs/PROVED.md").is_file():
        faults += wrong_names(TOP / "docs/PROVED.md")
    for page in (TOP / "README.md", TOP / "docs/GUIDE.md"):
        faults += strange_code(page)
    faults += wrong_size(TOP / "README.md")
    for fault in faults:
        print(fault)
    if not faults:
        print(f"pages: {len(pages())} of them agree with the tree")
    return 1 if faults else 0


sys.exit(main())
