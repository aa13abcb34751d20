#!/usr/bin/env python3
"""tests/costs.py PID: adds up by crate the processor time of the prover's processes below the process PID, which it looks at once a
second. When it is told to end (SIGTERM) it prints a table: crate; seconds for its proof with its library, for its tests or its program, and
for its wrong edits; how many edits it has. A process that ends between two looks loses a second at most. It prints nothing where nothing
was proved."""
import os
import signal
import sys
import time

TICKS = os.sysconf("SC_CLK_TCK")
KINDS = ("proof", "program", "edits")
TOP = os.path.dirname(os.path.dirname(os.path.abspath(__file__)))


def read(path):
    """The bytes of a file of /proc; none where the process has ended."""
    try:
        with open(path, "rb") as file:
            return file.read()
    except OSError:
        return b""


def numbers(pid):
    """The fields of a process behind its name: the second is its parent, then come its times and when it began."""
    return read(f"/proc/{pid}/stat").rpartition(b")")[2].split()


def sort_of(pid):
    """The crate and the kind of work of a prover's process; none for another process."""
    words = read(f"/proc/{pid}/cmdline").decode("utf-8", "replace").split("\0")
    if os.path.basename(words[0]) != "rattle" or "--crate-name" not in words:
        return None
    crate = words[words.index("--crate-name") + 1]
    if any("/rt-edits-" in word for word in words):
        return crate, "edits"
    is_proof = words[1] == "check" and "--test" not in words or "--statements" in words
    return crate, "proof" if is_proof else "program"


def below(root):
    """The processes that stand under this one, itself with them."""
    children = {}
    for name in filter(str.isdigit, os.listdir("/proc")):
        fields = numbers(name)
        if fields:
            children.setdefault(int(fields[1]), []).append(int(name))
    found, left = [], [root]
    while left:
        pid = left.pop()
        found.append(pid)
        left += children.get(pid, [])
    return found


def look(root, seen):
    """Notes how much time each of the prover's processes took so far; one is told from a later one of its number by when it began."""
    for pid in below(root):
        sort = sort_of(pid)
        fields = numbers(pid)
        if sort is not None and fields:
            seen[(pid, fields[19])] = sort, (int(fields[11]) + int(fields[12])) / TICKS


def edits_of(crate):
    folder = os.path.join(TOP, "crates", crate, "must-fail")
    return len([name for name in os.listdir(folder) if name.endswith(".edit")]) if os.path.isdir(folder) else 0


def table(seen):
    sums = {}
    for (crate, kind), seconds in seen.values():
        sums.setdefault(crate, dict.fromkeys(KINDS, 0.0))[kind] += seconds
    rows = [(crate, row, edits_of(crate)) for crate, row in sorted(sums.items(), key=lambda item: -sum(item[1].values()))]
    whole = {kind: sum(row[kind] for _, row, _ in rows) for kind in KINDS}
    rows.append(("all", whole, sum(count for _, _, count in rows)))
    lines = ["seconds of processor time by crate", f"{'crate':<22}{'proof':>8}{'program':>9}{'edits':>8}{'number':>8}{'all':>8}"]
    for crate, row, count in rows:
        times = f"{row['proof']:>8.0f}{row['program']:>9.0f}{row['edits']:>8.0f}"
        lines.append(f"{crate:<22}{times}{count:>8}{sum(row.values()):>8.0f}")
    return "\n".join(lines)


def main():
    seen = {}
    ends = []
    signal.signal(signal.SIGTERM, lambda number, frame: ends.append(number))
    while not ends:
        look(int(sys.argv[1]), seen)
        time.sleep(1)
    if seen:
        print(table(seen), flush=True)


if __name__ == "__main__":
    main()
