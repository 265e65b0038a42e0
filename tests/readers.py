#!/usr/bin/env python3
"""Compares the second reader (tests/reader.py) with the program: tests/readers.py PROGRAM FOLDER..

Each folder is read by both, the program over a copy, with the options that the manifest tells. Both have to give the same pairs, clock and count, or to refuse the folder with the same line.
Then the reader reads the copy too, as the program's opening left it: the pairs are the same, and files, tombstones and pending erases are as the program's `stat` counts them.
"""
import os
import shutil
import subprocess
import sys
import tempfile

from reader import TOMB, Folder, Refused, read_held, read_manifest

ROOM = "/dev/shm" if os.path.isdir("/dev/shm") else None
SECONDS = 300
# Greater folders aren't copied.
MOST = 1 << 30
NAMES = ("threshold", "ratio", "levels", "page", "tile", "file", "buffer", "pick")
# Each key but the greatest one, which is asked for alone.
GREATEST = "=" + "ff" * 255
SCRIPT = f"1 stat\n1 scan =00 {GREATEST}\n1 get {GREATEST}\n"


def options_of(path):
    """Those that the manifest tells, which may be whole where other objects aren't."""
    try:
        folder = Folder(path)
        if folder.gate is None:
            return []
        config = folder.read("m", folder.gate, read_manifest, folder.gate).config
    except Refused:
        return []
    return [word for name, value in zip(NAMES, [*config[:7], "sd" if config[7] else "so"]) for word in (f"--{name}", str(value))]


def by_reader(folder):
    """What the reader makes of a folder, or the line with which it refuses it."""
    try:
        return read_held(folder)
    except Refused as why:
        return str(why)


def by_program(program, folder, options):
    """The program's lines and its status."""
    done = subprocess.run([program, folder, "run", *options], input=SCRIPT.encode(), capture_output=True, timeout=SECONDS, check=False)
    return done.stdout.decode().splitlines(), done.returncode


def plain(field):
    """The bytes of a key or value as they are printed."""
    return bytes.fromhex(field[1:]) if field.startswith("=") else field.encode()


def pairs_of(lines):
    """The map that the program's lines tell."""
    fields = lines[1].split()[5:]
    found = {plain(fields[at]): (int(fields[at + 1]), plain(fields[at + 2])) for at in range(0, len(fields), 3)}
    last = lines[2].split()
    if last[3] == "val":
        found[b"\xff" * 255] = int(last[4]), plain(last[5])
    return found


def told_by(store, files):
    """What `stat` prints of what the reader read, from the files of a folder that was opened."""
    tombs = sum(one.kind == TOMB for entries in files.files for one in entries)
    clock = store.manifest.clock if store.manifest else 0
    return f"1 at {store.count} stat clock {clock} pins 0 pending {len(files.manifest.erases)} files {len(files.files)} tombs {tombs}"


def compared(program, folder, copy):
    """What is wrong between the two, or nothing. The copy is a name that is free."""
    store = by_reader(folder)
    if store == "bad folder":
        lines, status = by_program(program, folder, [])
        return None if (lines, status) == (["bad folder"], 10) else f"the reader says bad folder, the program {lines} with status {status}"
    shutil.copytree(folder, copy)
    lines, status = by_program(program, copy, options_of(folder))
    if isinstance(store, str):
        return None if (lines, status) == ([store], 8) else f"the reader says {store}, the program {str(lines)[:200]} with status {status}"
    # Numbers that have run out are no fault of the folder.
    if status == 6 and lines[0].startswith("open exhausted"):
        return None
    if status != 0:
        return f"the reader reads it, the program prints {lines[:3]} with status {status}"
    behind = by_reader(copy)
    if isinstance(behind, str):
        return f"behind an opening the reader says {behind}"
    for name, held in (("", store), (" behind an opening", behind)):
        if held.map != pairs_of(lines):
            other = pairs_of(lines)
            keys = [key for key in {**held.map, **other} if held.map.get(key) != other.get(key)]
            return f"{len(keys)} keys differ{name}, as {keys[0]}: the reader has {held.map.get(keys[0])}, the program {other.get(keys[0])}"
    if lines[0] != told_by(store, behind):
        return f"the program tells {lines[0]}, the reader {told_by(store, behind)}"
    return None


def beside(program, folder):
    """The same with a copy in a folder of its own."""
    with tempfile.TemporaryDirectory(dir=ROOM) as room:
        return compared(program, folder, f"{room}/copy")


def main():
    for folder in sys.argv[2:]:
        if sum(it.stat(follow_symlinks=False).st_size for it in os.scandir(folder)) > MOST:
            print(f"{folder} is too large to be read twice")
            continue
        wrong = beside(sys.argv[1], folder)
        if wrong:
            sys.exit(f"the second reader and the program differ about {folder}: {wrong}")


if __name__ == "__main__":
    main()
