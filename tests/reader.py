#!/usr/bin/env python3
"""A second reader of a store's folder, written from docs/FORMATS.md alone: tests/reader.py FOLDER.

It holds the folder's lock, tests each digest and each rule of what the greatest gate commits, and prints what the bytes stand for: the clock and how many changes there
were, then each key with its delete key and its value, keys and values as `=` and their hexadecimal digits. Where an object is missing or breaks a rule it prints
`damaged KIND NO` and ends with 8. Where the folder isn't a store's it prints `bad folder` and ends with 10. It writes nothing.
"""
import fcntl
import hashlib
import os
import re
import stat
import sys
from collections import namedtuple

KINDS = {"g": ("gate", 0), "m": ("manifest", 1 << 28), "s": ("segment", 1 << 27), "f": ("file", 1 << 25), "p": ("page", 1 << 25)}
LAST, LATEST = (1 << 62) - 1, 1 << 62
PUT, TOMB, BLIND, ERASE = 1, 2, 3, 4
# The width, the least and the greatest value of threshold, ratio, levels, page, tile, file, buffer and pick.
LIMITS = ((8, 1, 1 << 40), (1, 2, 16), (1, 1, 6), (2, 1, 1024), (1, 1, 64), (2, 1, 256), (2, 1, 16384), (1, 0, 1))
Entry = namedtuple("Entry", "kind seq since key dkey value")
Erase = namedtuple("Erase", "seq time lo hi")
Line = namedtuple("Line", "no kind count newest oldest fence words digest")
Manifest = namedtuple("Manifest", "config clock count next certificate erases segments files")
Store = namedtuple("Store", "manifest count erases journal files map")


class Refused(Exception):
    """What is printed of a folder that can't be read."""


class Broken(Exception):
    """Bytes that break a rule."""


def need(holds):
    if not holds:
        raise Broken


class Bytes:
    """An object's bytes, read from the left."""

    def __init__(self, data, head, no=None):
        self.data, self.at = data, 0
        need(self.take(len(head)) == head and (no is None or self.number() == no))

    def take(self, length):
        self.at += length
        need(self.at <= len(self.data))
        return self.data[self.at - length : self.at]

    def number(self, width=8, least=0, greatest=1 << 64):
        it = int.from_bytes(self.take(width), "big")
        need(least <= it <= greatest)
        return it

    def time(self, must=0):
        return self.number(8, 0, LATEST) if self.number(1, must, 1) else None

    def entry(self, kind):
        seq, since, key = self.number(8, 1, LAST), self.time(kind == TOMB), self.take(self.number(1, 1))
        return Entry(kind, seq, since, key, *((self.number(), self.take(self.number(2, 0, 4096))) if kind == PUT else (None, None)))

    def erase(self, above=0):
        it = Erase(self.number(8, above + 1, LAST), self.number(8, 0, LATEST), self.number(), self.number())
        need(it.lo < it.hi)
        return it

    def line(self, puts, is_first):
        no, kind, count = self.number(8, 0, LAST), self.number(1, PUT, TOMB), self.number(4, 1, 65536)
        newest, oldest, fence = self.number(8, 1, LAST), self.time(), None
        if kind == PUT:
            fence = self.number(), self.number()
            need(fence[0] <= fence[1] and (not puts or puts[-1].fence[1] <= fence[0]) and len(puts) < 64)
        need(kind == PUT or is_first)
        words = [self.number() for _ in range(self.number(4, words_for(count), words_for(count)))]
        return Line(no, kind, count, newest, oldest, fence, words, self.take(32))

    def ends(self):
        need(self.at == len(self.data))


def words_for(count):
    return -(-10 * count // 64)


def filter_of(keys):
    words = [0] * words_for(len(keys))
    for key in keys:
        mixed = 14695981039346656037
        for byte in key:
            mixed = (mixed ^ byte) * 1099511628211 % (1 << 64)
        for i in range(6):
            bit = ((mixed & 0xFFFFFFFF) + i * (mixed >> 32 | 1)) % (64 * len(words))
            words[bit // 64] |= 1 << bit % 64
    return words


def read_page(data, line):
    """The entries of a page, which agree with its line."""
    it = Bytes(data, b"LP\1" + bytes([line.kind]))
    need(hashlib.sha256(data).digest() == line.digest and it.number(4) == line.count)
    entries = [it.entry(it.number(1, line.kind, line.kind)) for _ in range(line.count)]
    it.ends()
    keys, dkeys, sinces = [one.key for one in entries], [one.dkey for one in entries], [one.since for one in entries if one.since is not None]
    need(all(low < high for low, high in zip(keys, keys[1:])) and filter_of(keys) == line.words)
    need(max(one.seq for one in entries) == line.newest and min(sinces, default=None) == line.oldest)
    need(line.kind == TOMB or (min(dkeys), max(dkeys)) == line.fence)
    return entries


def read_header(data, no, digest):
    """The tiles of a file: each its two keys, and the lines of its pages."""
    it, tiles = Bytes(data, b"LF\1", no), []
    need(hashlib.sha256(data).digest() == digest)
    for _ in range(it.number(2, 1, 256)):
        lo, hi, lines = it.take(it.number(1, 1)), it.take(it.number(1, 1)), []
        need(lo <= hi and (not tiles or tiles[-1][1] < lo))
        for at in range(it.number(1, 1, 65)):
            lines.append(it.line([one for one in lines if one.kind == PUT], at == 0))
        need(sum(one.count for one in lines) <= 65536)
        tiles.append((lo, hi, lines))
    it.ends()
    return tiles


def read_segment(data, no):
    """The entries and the erases of a segment, and the place of its last record."""
    it, found, last = Bytes(data, b"LS\1", no), [], 0
    while it.at < len(data) and it.number(1) == 1:
        kind = it.number(1, PUT, ERASE)
        found.append(it.erase() if kind == ERASE else it.entry(kind) if kind != BLIND else Entry(BLIND, it.number(8, 1, LAST), None, None, None, None))
        need(last < found[-1].seq)
        last = found[-1].seq
    return [one for one in found if isinstance(one, Entry) and one.kind != BLIND], [one for one in found if isinstance(one, Erase)], last


def read_manifest(data, no):
    it, erases, files = Bytes(data, b"LM\1", no), [], []
    config = [it.number(*limit) for limit in LIMITS]
    need(no <= LAST and config[6] <= config[3] * config[4] * config[5] <= 65536)
    clock, count, following = it.number(8, 0, LATEST), it.number(8, 0, LAST), it.number(8, no + 1, LAST)
    # Its number, its clock, and the time that lies a threshold below.
    certificate = (it.number(8, 1, LAST), it.number(8, 0, LATEST), it.number(8, 0, LATEST)) if it.number(1, 0, 1) else None
    for _ in range(it.number(4)):
        erases.append(it.erase(erases[-1].seq if erases else 0))
    segments = [it.number(8, 0, following - 1) for _ in range(it.number(1, 1, 2))]
    for _ in range(it.number(4)):
        files.append((it.number(1, files[-1][0] if files else 0, config[2]), it.number(8, 0, following - 1), it.number(8, 0, LAST), it.take(32)))
    it.ends()
    return Manifest(config, clock, count, following, certificate, erases, segments, files)


def map_of(entries, erases):
    """Of each key the entry of the greatest place counts; there is a pair where this is a put that no later erase covers."""
    newest = {}
    for one in entries:
        if one.key not in newest or newest[one.key].seq < one.seq:
            newest[one.key] = one
    shown = (one for one in newest.values() if one.kind == PUT and not any(one.seq < it.seq and it.lo <= one.dkey < it.hi for it in erases))
    return {one.key: (one.dkey, one.value) for one in sorted(shown, key=lambda one: one.key)}


class Folder:
    """The objects of a folder, by letter and number, and which of them were read."""

    def __init__(self, path):
        names = os.listdir(path)
        if not all(re.fullmatch("[gmsfp]-[0-9]{20}", name) and int(name[2:]) < 1 << 64 and stat.S_ISREG(os.lstat(f"{path}/{name}").st_mode) for name in names):
            raise Refused("bad folder")
        self.path, self.there, self.taken = path, {(name[0], int(name[2:])) for name in names}, set()
        self.gate = max((no for letter, no in self.there if letter == "g"), default=None)
        if self.gate is None and any(letter in "fp" or no > 2 for letter, no in self.there):
            raise Refused("bad folder")

    def read(self, letter, no, reader, *told):
        """What a reader makes of an object, which is read once and no further than its greatest length."""
        try:
            need((letter, no) in self.there and (letter, no) not in self.taken)
            self.taken.add((letter, no))
            with open(f"{self.path}/{letter}-{no:020}", "rb") as file:
                return reader(file.read(KINDS[letter][1]), *told)
        except Broken:
            raise Refused(f"damaged {KINDS[letter][0]} {no}") from None

    def read_file(self, no, digest, following):
        """The entries of a file, and its least and greatest key."""

        def page(data):
            made = read_page(data, line)
            need(line.no < following and all(lo <= one.key <= hi and one.key not in keys for one in made))
            return made

        tiles, entries = self.read("f", no, read_header, no, digest), []
        for lo, hi, lines in tiles:
            keys = set()
            for line in lines:
                made = self.read("p", line.no, page)
                keys.update(one.key for one in made)
                entries += made
        return entries, tiles[0][0], tiles[-1][1]


def read_store(path):
    """What the folder stands for. Objects are read in the order in which a fault is told of the first."""
    folder = Folder(path)
    if folder.gate is None:
        return Store(None, 0, [], [], [], {})
    manifest = folder.read("m", folder.gate, read_manifest, folder.gate)
    segments = [folder.read("s", no, read_segment, no) for no in manifest.segments]
    files = [folder.read_file(no, digest, manifest.next) for _, no, _, digest in manifest.files]
    levels = [level for level, *_ in manifest.files]
    for level, behind, before, file in zip(levels, levels[1:], files, files[1:]):
        if level == behind > 0 and before[2] >= file[1]:
            raise Refused(f"damaged manifest {folder.gate}")
    journal, erases = [one for it in segments for one in it[0]], manifest.erases + [one for it in segments for one in it[1]]
    found = map_of(journal + [one for it in files for one in it[0]], erases)
    return Store(manifest, max(manifest.count, *(it[2] for it in segments)), erases, journal, [it[0] for it in files], found)


def read_held(path):
    """The same, while no program may run on the folder."""
    held = os.open(path, os.O_RDONLY | os.O_DIRECTORY)
    try:
        fcntl.flock(held, fcntl.LOCK_EX | fcntl.LOCK_NB)
        return read_store(path)
    except BlockingIOError:
        raise Refused("bad folder") from None
    finally:
        os.close(held)


def main():
    try:
        store = read_held(sys.argv[1])
    except Refused as why:
        print(why)
        sys.exit(10 if str(why) == "bad folder" else 8)
    print(f"clock {store.manifest.clock if store.manifest else 0} count {store.count}")
    for key, (dkey, value) in store.map.items():
        print(f"={key.hex()} {dkey} ={value.hex()}")


if __name__ == "__main__":
    main()
