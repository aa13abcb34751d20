#!/usr/bin/env python3
"""counts.py [PROGRAM] [--limits FILE] [WORD..]: instructions per operation of the benchmark, counted by callgrind.

Only what the benchmark measures is counted, and each figure is the difference of two runs of the program, so that what
a run costs by itself is in none of them. It is the same whatever else the machine does. The works are decode, encode
and publish, the wire alone, in runs of 1,248 and of 3,744 operations, each played five times over; and core, messages
that a core without a journal reads, puts and hands out, in runs of 1,280 and of 3,840 messages, 64 to a piece, each
played once. PROGRAM is the built benchmark, crates/nats_bench/out/nats_bench where none is given; WORDs choose among
the works and the mixes (small, large, hmsg, mixed); core has the mix small alone. FILE has lines such as
"decode small 600": the status is 1 where a figure is above its limit. Where there is no valgrind nothing is counted,
and the status is 0.
"""
import shutil
import subprocess
import sys
import tempfile
from pathlib import Path
from typing import NamedTuple


class Work(NamedTuple):
    """How a work is counted."""
    mixes: tuple   # its mixes
    words: str     # how the program is asked for it
    runs: int      # how often the program plays its operations
    played: str    # the function that plays them once
    few: int       # how many operations there are in the one run
    many: int      # and in the other


MIXES = ("small", "large", "hmsg", "mixed")


def wire(name):
    return Work(MIXES, f"{name} {{mix}} {{count}}", 5, "nats_bench::wire::play_once*", 1248, 3744)


WORKS = {name: wire(name) for name in ("decode", "encode", "publish")}
WORKS["core"] = Work(("small",), "core {count}", 1, "nats_bench::through::take_messages*", 1280, 3840)
PROGRAM = Path(__file__).resolve().parent.parent / "crates/nats_bench/out/nats_bench"


def instructions(program, work, mix, count):
    """All instructions of one run."""
    with tempfile.NamedTemporaryFile() as file:
        words = [str(program), *work.words.format(mix=mix, count=count).split()]
        tool = ["valgrind", "--tool=callgrind", f"--toggle-collect={work.played}", f"--callgrind-out-file={file.name}"]
        subprocess.run(tool + words, capture_output=True, check=True)
        for line in Path(file.name).read_text().splitlines():
            if line.startswith(("summary:", "totals:")):
                return int(line.split()[1])
    sys.exit(f"callgrind told no sum for {' '.join(words[1:])}")


def limits_of(file):
    """The limits of a file, by work and mix."""
    limits = {}
    for line in Path(file).read_text().splitlines():
        words = line.split("#")[0].split()
        if words:
            work, mix, limit = words
            limits[work, mix] = int(limit)
    return limits


def main(words):
    limits, program, chosen = {}, PROGRAM, set()
    while words:
        word = words.pop(0)
        if word in ("-h", "--help"):
            sys.exit(__doc__)
        if word == "--limits":
            limits = limits_of(words.pop(0))
        elif word in WORKS or word in MIXES:
            chosen.add(word)
        else:
            program = Path(word).resolve()
    if not shutil.which("valgrind"):
        print("no valgrind here: nothing is counted")
        return 0
    if not program.exists():
        sys.exit(f"{program} is not built")
    over = 0
    for name, work in [it for it in WORKS.items() if it[0] in chosen or not chosen & set(WORKS)]:
        for mix in [it for it in work.mixes if it in chosen or not chosen & set(MIXES)]:
            few, many = (instructions(program, work, mix, count) for count in (work.few, work.many))
            count = (many - few) / (work.runs * (work.many - work.few))
            if not few:
                sys.exit(f"the program has no function {work.played}")
            limit = limits.get((name, mix))
            is_over = limit is not None and count > limit
            over += is_over
            against = "" if limit is None else f"  {'ABOVE' if is_over else 'within'} {limit}"
            print(f"{name} {mix} {count:.0f}{against}", flush=True)
    return 1 if over else 0


if __name__ == "__main__":
    sys.exit(main(sys.argv[1:]))
