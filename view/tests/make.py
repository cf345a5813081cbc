"""The stacks and the reports that the tests read: `eight`, of eight nodes with memory managers,
`mirrored`, over a mirror of two disks, and `lossy`, of lines that lost calls. The trees are worked by hand
from the stacks.

    python3 view/tests/make.py          writes them beside this file
    python3 view/tests/make.py long N   prints a history of about N events over the first stack's first file
"""

import sys
from pathlib import Path

from simulate import Run

HERE = Path(__file__).resolve().parent
EIGHT = """page 64
file f 3
file g 1
disk d m
coherency c m d
vmm v m c 2
dfs r m c
vmm w n r 2
coherency k n r
vmm y n k 1
vmm u m r 2
"""
LONG = EIGHT.replace("file g 1\n", "")
EIGHT_TREE = [("d", "m", None, 0), ("c", "m", 0, 0), ("v", "m", 1, 2), ("r", "m", 1, 0), ("w", "n", 3, 2),
              ("k", "n", 3, 0), ("y", "n", 5, 1), ("u", "m", 1, 2)]
MIRRORED = """page 128
file f 2
disk d m
disk e m
coherency s m d
mirror x m s e
coherency c m x
vmm v m c 1
dfs r m c
coherency k n r
"""
MIRRORED_TREE = [("x", "m", None, 0), ("c", "m", 0, 0), ("v", "m", 1, 1), ("r", "m", 1, 0), ("k", "n", 3, 0)]

LOSSY = """page 64
file f 2
disk d m
coherency c m d
dfs r m c
"""
LOSSY_TREE = [("d", "m", None, 0), ("c", "m", 0, 0), ("r", "m", 1, 0)]


def some_calls(run, client, seats, count):
    """Calls at random by one client at some layers, of the lives that these have now."""
    dice, made = run.dice, []
    for _ in range(count):
        number, seat = dice.randrange(len(run.files)), dice.choice(seats)
        file = run.files[number]
        life, page = run.layer(number, seat).life, dice.randrange(file.pages)
        off, words = 4 * dice.randrange(3), "%d %s " % (number, seat)
        kind = dice.choice("rrrrwwwwwccs")
        if kind == "r":
            words += "read %d %d %d 4" % (life, page, off)
        elif kind == "w":
            words += "write %d %d %d %08x" % (life, page, off, dice.randrange(1 << 32))
        elif kind == "c":
            words += "clear %d %d" % (life, page)
        else:
            words += dice.choice(["sync", "clean"])
        made.append((client, words))
    return made


def run_eight():
    """Three clients at eight nodes: mappings on two machines, a manager that is gone round to, an old life."""
    run = Run(64, [("f", 3), ("g", 1)], EIGHT_TREE, ["ann", "bob", "cleo"])
    run.phase([("ann", "0 c open"), ("ann", "0 v map"), ("ann", "0 v write 0 0 0 61626364")])
    run.phase([("bob", "0 r open"), ("bob", "0 w map"), ("bob", "0 w read 0 0 0 4")])
    run.phase([("cleo", "0 k open"), ("cleo", "0 y map"), ("cleo", "0 y write 0 0 4 65"), ("cleo", "0 k sync")])
    run.phase([("ann", "0 r open"), ("ann", "0 u map"), ("ann", "0 u read 0 0 0 5"), ("ann", "0 v read 0 0 0 5")])
    run.phase([("ann", "0 u read 0 1 0 1"), ("ann", "0 u read 0 0 0 1"), ("ann", "0 u read 0 2 0 1")])
    run.phase([("cleo", "0 y write 0 1 0 31"), ("cleo", "0 y read 0 2 0 1"), ("cleo", "0 y read 0 1 0 1")])
    run.phase([("bob", "0 r revoke"), ("bob", "0 w read 0 0 0 1"), ("bob", "0 r open"), ("bob", "0 r read 1 0 0 5")])
    calls = some_calls(run, "ann", "vuc", 10) + some_calls(run, "bob", "wr", 10)
    run.phase(calls + some_calls(run, "cleo", "ky", 10))
    run.phase([("ann", "0 v release"), ("bob", "0 k open"), ("bob", "0 k clear 1 0"), ("cleo", "1 k clean")])
    run.phase(some_calls(run, "ann", "vu", 5) + some_calls(run, "bob", "w", 5) + some_calls(run, "cleo", "ky", 5))
    return run


def run_mirrored():
    """Two clients over a mirror whose image has bytes before the run, so a read tells what they are."""
    run = Run(128, [("f", 2)], MIRRORED_TREE, ["ann", "bob"], 2, {0: b"before the run"})
    run.phase([("ann", "0 c open"), ("ann", "0 v map"), ("ann", "0 v read 0 0 0 6")])
    run.phase([("bob", "0 k open"), ("bob", "0 k read 0 0 7 7"), ("bob", "0 k write 0 0 0 61667465722e")])
    run.phase([("ann", "0 v read 0 0 0 14"), ("ann", "0 c sync")])
    run.phase([("bob", "0 k clear 0 0"), ("ann", "0 v read 0 1 4 4"), ("ann", "0 v write 0 1 4 7a")])
    run.phase(some_calls(run, "ann", "cv", 8) + some_calls(run, "bob", "rk", 8))
    return run


def run_lossy():
    """Three clients, of which two are on a machine beyond r: their lines lose the calls' replies, or requests."""
    run = Run(64, [("f", 2)], LOSSY_TREE, ["ann", "bob", "cleo"], 4)
    run.phase([("bob", "0 r open"), ("bob", "0 r write 0 0 0 6f6e65"), ("bob", "replies 9 0 r write 0 0 0 74776f")])
    run.phase([("ann", "0 c open"), ("ann", "0 c read 0 0 0 3"), ("ann", "0 r release"), ("ann", "0 c write 0 1 0 61")])
    run.phase([("bob", "0 r read 0 0 0 3"), ("bob", "replies 18 0 r read 0 1 0 1"), ("bob", "replies 26 0 r sync")])
    run.phase([("cleo", "0 r open"), ("cleo", "0 r read 0 1 0 1"), ("cleo", "requests 8 0 r read 0 0 0 3")])
    return run


def run_long(events):
    """Three clients at eight nodes and one file, until its history has about so many events."""
    run = Run(64, [("f", 3)], EIGHT_TREE, ["ann", "bob", "cleo"], 3)
    while len(run.files[0].lines) < events:
        calls = some_calls(run, "ann", "vuc", 300) + some_calls(run, "bob", "wr", 300)
        run.phase(calls + some_calls(run, "cleo", "ky", 300))
    return run


def eight():
    """The report of the first run."""
    return run_eight().report()


def mirrored():
    """The report of the second run."""
    return run_mirrored().report(names=False)


def lossy():
    """The report of the run over links that lose packets."""
    return run_lossy().report()


def long(events):
    """The report of a long run."""
    return run_long(events).report()


def main(words):
    """Writes the stored stacks and reports, or prints a long one."""
    if words[:1] == ["long"]:
        sys.stdout.write(long(int(words[1])))
        return
    for name, stack, report in (("eight", EIGHT, eight()), ("mirrored", MIRRORED, mirrored()), ("lossy", LOSSY, lossy())):
        (HERE / (name + ".stack")).write_text(stack)
        (HERE / (name + ".report")).write_text(report)


if __name__ == "__main__":
    main(sys.argv[1:])
