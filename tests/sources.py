"""Reads the sources of the crates: public calls with their clauses, definitions with their comments, wrong edits.

It is used by `pages.py`, which makes and checks the pages under docs/ that are read off the sources.
"""
import re
from pathlib import Path

TOP = Path(__file__).resolve().parent.parent
CLAUSE = re.compile(r"\b(ensures|requires)\*?\s+(\w+\s+)?\{")
FUNCTION = re.compile(r"^(\s*)(pub(?:\([^)]*\))? )?(?:final )?(?:const )?(?:unsafe )?fn (\w+)")
HIDDEN = re.compile(r"^(?:pub\([^)]*\) )?(?:struct|enum) (\w+)", re.M)
GHOST_USE = re.compile(r"ghost use Rattle\.(\w+)\.specs\.([\w.]+)\.\{([^}]*)\}")


def groups():
    """Yields (title, crates) in the order of crates.txt, whose `#` lines are the titles."""
    title, names, found = "", [], []
    for line in (TOP / "crates.txt").read_text(encoding="utf-8").splitlines():
        if line.startswith("# "):
            if names:
                found.append((title, names))
            title, names = line[2:].strip(), []
        elif ":" in line:
            names.append(line.split(":")[0].split()[0])
    found.append((title, names))
    return found


def crates():
    """Returns the crates in the order of crates.txt."""
    return [name for _, names in groups() for name in names]


def block(text, start):
    """Returns the text between the braces of which the first stands at `start`."""
    depth = 0
    for at in range(start, len(text)):
        depth += {"{": 1, "}": -1}.get(text[at], 0)
        if depth == 0:
            return text[start + 1:at]
    return text[start + 1:]


class Function:
    """A function of a .rt file: its name, whether it is public, its type where it has one, its clauses."""

    def __init__(self, file, line, owner, public, name, head):
        self.file, self.line, self.owner, self.public, self.name = file, line, owner, public, name
        self.clauses = [(m[1], (m[2] or "").strip(), block(head, m.end() - 1)) for m in CLAUSE.finditer(head)]

    def title(self):
        return f"{self.owner}::{self.name}" if self.owner else self.name


def owner_of(line):
    """Returns the type or trait whose block this line opens, if it opens one."""
    m = re.match(r"^(?:pub )?(?:impl(?:<.*?>)? (?:[\w:]+(?:<.*>)? for )?|trait )(\w+)", line)
    return m[1] if m and line.rstrip().endswith("{") else None


def functions(crate):
    """Yields the functions of a crate but for those of its tests."""
    for file in sorted((TOP / "crates" / crate / "src").rglob("*.rt")):
        text = file.read_text(encoding="utf-8")
        lines, hidden = text.splitlines(), set(HIDDEN.findall(text))
        owner, in_trait, skip = "", False, False
        for at, line in enumerate(lines):
            if line.startswith("#[cfg(test)]") or line.startswith("#[test]"):
                skip = True
            if line and not line[0].isspace():
                if owner_of(line):
                    owner, in_trait = owner_of(line), bool(re.match(r"^(pub )?trait ", line))
                elif line.startswith("}"):
                    owner, in_trait, skip = "", False, False
            m = FUNCTION.match(line)
            if not m or skip:
                continue
            head = [line]
            for further in lines[at + 1:]:
                if further == m[1] + "{" or FUNCTION.match(further) or further == m[1][:-4] + "}":
                    break
                head.append(further)
                if further.rstrip().endswith(";") and further.startswith(m[1] + "    ens"):
                    break
            is_hidden = bool(m[1]) and owner in hidden
            public = bool(m[2] and "(" not in m[2] and not is_hidden) or (in_trait and bool(m[1]))
            yield Function(file, at + 1, owner if m[1] else "", public, m[3], "\n".join(head))


def imported(file):
    """Returns, for each name that a file's clauses may cite, the crate and the file of specs/ that has it."""
    found = {}
    for crate, path, names in GHOST_USE.findall(file.read_text(encoding="utf-8")):
        for name in names.split(","):
            found[name.strip()] = (crate, path)
    return found


def definitions(crate):
    """Yields (file, names, comment) for each commented group of definitions of a crate's specs/."""
    for file in sorted((TOP / "crates" / crate / "specs").rglob("*.antt")):
        comment, fresh, names = [], [], []
        for line in file.read_text(encoding="utf-8").splitlines():
            m = re.match(r"^(?:unfoldable |abbrev )?(?:unfoldable )?pub (?:data |record )?([^\s:(]+)(?:[\s:(]|$)", line)
            if line.startswith("-- "):
                if not line.startswith("-- --"):
                    fresh.append(line[3:].strip())
            elif m and m[1] not in ("mod", "use"):
                if fresh:
                    if names:
                        yield file, names, " ".join(comment)
                    comment, names = fresh, []
                names.append(m[1])
                fresh = []
            elif not line.strip() or not line[0].isspace():
                if not line.strip():
                    fresh = []
        if names:
            yield file, names, " ".join(comment)


def edits(crate):
    """Returns, for each function of a crate's sources that a wrong edit changes, the names of the edits."""
    found = {}
    for edit in sorted((TOP / "crates" / crate / "must-fail").glob("*.edit")):
        rows = [line.split(": ", 1) for line in edit.read_text(encoding="utf-8").splitlines() if ": " in line]
        file = next((text for word, text in rows if word == "file"), None)
        old = next((text for word, text in rows if word == "old"), None)
        if not file or old is None:
            continue
        body = (TOP / "crates" / crate / file).read_text(encoding="utf-8")
        place = body[:body.find(old)].count("\n") + 1
        best = None
        for function in functions(crate):
            if str(function.file) == str(TOP / "crates" / crate / file) and function.line <= place:
                best = function
        found.setdefault(best.title() if best else file, []).append(edit.stem)
    return found
