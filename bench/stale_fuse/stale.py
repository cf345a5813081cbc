#!/usr/bin/env python3
"""Asks which views of one file are stale, with two FUSE layers over it: stale.py

A file in memory (/dev/shm) is seen at three views: itself (bottom), through one layer of bindfs
(middle), and through a second layer upon the first (top). Each view has the file open and mapped,
and has looked at it. Then four bytes are changed at one view, by a write or by a store into its
map, and every view is asked for them, by a read and by a load from its map. Prints a line for each
change, and how many of the 36 answers are old. It needs bindfs and fusermount3.
"""
import mmap
import os
import shutil
import subprocess
import sys
import tempfile
from pathlib import Path

SIZE = 4 * 4096
OLD, NEW = bytes(4), b"abcd"


class View:
    """One view of the file: open, mapped, and looked at once."""

    def __init__(self, name, folder):
        self.name = name
        self.open = os.open(Path(folder, "f"), os.O_RDWR)
        self.map = mmap.mmap(self.open, SIZE)
        assert self.read() == self.load() == OLD

    def read(self):
        return os.pread(self.open, 4, 0)

    def load(self):
        return self.map[:4]

    def change(self, how):
        if how == "store":
            self.map[:4] = NEW
        else:
            os.pwrite(self.open, NEW, 0)

    def close(self):
        self.map.close()
        os.close(self.open)


def row(head, words):
    print(f"{head:<18}" + "".join(f"{word:<8}" for word in words).rstrip())


def stale_after(folders, writer, how):
    """Makes the file anew, changes it at one view, and prints and counts the old answers."""
    Path(folders["bottom"], "f").write_bytes(bytes(SIZE))
    views = [View(name, folder) for name, folder in folders.items()]
    next(it for it in views if it.name == writer).change(how)
    told = [answer for it in views for answer in (it.read(), it.load())]
    for it in views:
        it.close()
    row(f"{how} at {writer}", ["ok" if answer == NEW else "OLD" for answer in told])
    return sum(answer != NEW for answer in told), len(told)


def main():
    if not (shutil.which("bindfs") and shutil.which("fusermount3")):
        sys.exit("stale.py needs bindfs and fusermount3")
    with tempfile.TemporaryDirectory(dir="/dev/shm") as room:
        folders = {name: f"{room}/{name}" for name in ("top", "middle", "bottom")}
        for it in folders.values():
            os.mkdir(it)
        mounted = []
        try:
            for below, at in (("bottom", "middle"), ("middle", "top")):
                subprocess.run(["bindfs", folders[below], folders[at]], check=True)
                mounted.append(folders[at])
            row("", [word for name in folders for word in (name, "")])
            row("", ["read", "load"] * 3)
            counts = [stale_after(folders, at, how) for at in folders for how in ("store", "write")]
        finally:
            for it in reversed(mounted):
                subprocess.run(["fusermount3", "-u", it], check=True)
    print(f"{sum(old for old, _ in counts)} of {sum(every for _, every in counts)} views are stale")


main()
