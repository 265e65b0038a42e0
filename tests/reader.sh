#!/bin/sh
# A second reader of the folder, tests/reader.py, which was written from docs/FORMATS.md alone: tests/reader.sh [COUNT [SEED]]. Over generated stores, run after run, it gives the
# pairs, the clock and the counts that the program gives. Of each store some objects are then changed, cut, lengthened, exchanged, renamed or taken away: both refuse the folder with
# the same line, or give the same pairs. While one of the two has the folder the other is refused: they share the lock. Tried with wrong readers: one for which the older entry wins, that applies no erase or applies one to later puts, that knows the
# erases of the manifest or of the segments alone, reads a closed record, or tests no digest, filter or delete keys, differs within 30 stores. Two don't within 50: one that doesn't test that each key lies between its tile's two, and one that takes a key twice in a tile.
# shellcheck source=tests/common.sh
. "$(dirname -- "$0")/common.sh"
needs python3 flock
needs_program
python3 - "$root/tests" "$program" "$work" "${1:-60}" "${2:-$(od -An -N4 -tu4 /dev/urandom | tr -d ' ')}" <<'END' >"$work/told" 2>&1 || fail "$(tail -n 1 "$work/told")"
import hashlib
import os
import random
import shutil
import subprocess
import sys
import time

sys.path.insert(0, sys.argv[1])
from reader import Refused, read_held
from readers import beside, by_reader

PROGRAM, WORK, COUNT, SEED = sys.argv[2], sys.argv[3], int(sys.argv[4]), int(sys.argv[5])
# So many damaged copies of each store are read.
DAMAGES = 8
CONFIGS = (
    "--threshold 100 --levels 2 --page 2 --tile 2 --file 2 --buffer 4 --ratio 2",
    "--threshold 100 --levels 3 --page 1 --tile 3 --file 2 --buffer 2 --ratio 2 --pick sd",
    "--threshold 20 --levels 1 --page 3 --tile 64 --file 1 --buffer 16 --ratio 3",
    "--threshold 1000 --levels 6 --page 8 --tile 1 --file 4 --buffer 32 --ratio 2",
    "",
)


def digest(data):
    return hashlib.sha256(data).digest()


def fail(why):
    print(f"seed {SEED}: {why}")
    sys.exit(1)


def lines_of(rng, clock):
    """Some changes and ticks, and the clock behind them."""
    lines = []
    for at in range(rng.choice((0, 3, 20, 120))):
        key, what, low = f"={rng.randrange(40):02x}{'ff' * rng.randrange(3)}", rng.randrange(12), rng.randrange(60)
        if what < 7:
            lines.append(f"1 put {key} {low} {rng.choice(('=', f'v{at}', 'x' * rng.randrange(1, 300)))}")
        elif what < 9:
            lines.append(f"1 del {key}")
        elif what < 11:
            lines.append(f"1 erase {low} {low + 1 + rng.randrange(9)}")
        else:
            clock += rng.randrange(40)
            lines.append(f"1 tick {clock}")
    return "".join(f"{line}\n" for line in lines), clock


def rename(rng, folder, name):
    number = rng.choice((0, 1, 3, int(name[2:]) + 1, 1 << 62, (1 << 64) - 1, 1 << 64))
    os.rename(f"{folder}/{name}", f"{folder}/{rng.choice('gmsfp')}-{number:020}")


def forge(folder, letter, old, new):
    """Puts a digest in another's place where objects of a kind cite it, and so on upwards: what is wrong then is told by rules, not by digests."""
    for name in sorted(os.listdir(folder)):
        with open(f"{folder}/{name}", "r+b") as file:
            data = file.read()
            if name[0] == letter and digest(old) in data:
                file.seek(0)
                file.write(data.replace(digest(old), digest(new)))
                if letter == "f":
                    forge(folder, "m", data, data.replace(digest(old), digest(new)))


def change_bytes(rng, folder, name):
    with open(f"{folder}/{name}", "rb") as file:
        old = file.read()
    data = bytearray(old)
    at, what = rng.randrange(len(data) or 1), rng.randrange(8)
    if what == 0:
        del data[at:]
    elif what == 1:
        data += rng.randbytes(rng.randrange(1, 40))
    elif what == 2:
        del data[at : at + 1]
    elif data:
        data[at] = rng.choice((0, 1, 255, data[at] ^ 1 << rng.randrange(8)))
    with open(f"{folder}/{name}", "wb") as file:
        file.write(data)
    if name[0] in "fp" and rng.randrange(4):
        forge(folder, "f" if name[0] == "p" else "m", old, data)


def change(rng, folder):
    """Makes one object, or one name, other than it was, and says of which."""
    names = sorted(os.listdir(folder))
    name, what = rng.choice(names), rng.randrange(8)
    if what == 0:
        os.remove(f"{folder}/{name}")
    elif what == 1:
        with open(f"{folder}/{rng.choice(names)}", "rb") as other, open(f"{folder}/{name}", "r+b") as file:
            data = other.read()
            file.truncate(0)
            file.write(data)
    elif what == 2:
        rename(rng, folder, name)
    else:
        change_bytes(rng, folder, name)
    return name


def check(folder, what):
    wrong = beside(PROGRAM, folder)
    if wrong:
        fail(f"{what}: {wrong}")


def damage(rng, store):
    """How many damaged copies are refused, of DAMAGES."""
    refused = 0
    for _ in range(DAMAGES):
        copy = f"{WORK}/damaged"
        shutil.copytree(store, copy)
        did = "changed " + " and ".join(change(rng, copy) for _ in range(rng.choice((1, 1, 2))) if os.listdir(copy))
        refused += isinstance(by_reader(copy), str)
        check(copy, did)
        shutil.rmtree(copy)
    return refused


def try_store(rng, store):
    """How many runs it had, and how many damaged copies were refused."""
    words, clock, runs = rng.choice(CONFIGS).split(), 0, rng.randrange(1, 5)
    for turn in range(runs):
        script, clock = lines_of(rng, clock)
        done = subprocess.run([PROGRAM, store, "run", *words], input=script.encode(), capture_output=True, check=False)
        if done.returncode != 0:
            fail(f"a run ended with {done.returncode}: {done.stdout[-200:]}")
        check(store, f"behind run {turn + 1}")
    return runs, damage(rng, store)


def is_read(folder):
    try:
        return bool(read_held(folder))
    except Refused:
        return False


def check_lock(store):
    """The reader is refused while the program runs, and the program while the folder is locked."""
    subprocess.run([PROGRAM, store, "run"], input=b"1 put a 5 x\n", stdout=subprocess.DEVNULL, check=True)
    held = subprocess.Popen([PROGRAM, store, "run"], stdin=subprocess.PIPE, stdout=subprocess.DEVNULL)
    # It may not have locked the folder at once, and a reader that comes first would have it refused.
    time.sleep(1)
    refused = not is_read(store)
    held.communicate(b"")
    if not refused or held.returncode or not is_read(store):
        fail("the reader isn't refused while the program runs, or is behind it")
    locked = subprocess.run(["flock", store, PROGRAM, store, "run"], input=b"1 stat\n", capture_output=True, check=False)
    if (locked.returncode, locked.stdout) != (10, b"bad folder\n"):
        fail(f"the program isn't refused while the folder is locked: {locked}")


def main():
    rng, runs, refused = random.Random(SEED), 0, 0
    for _ in range(COUNT):
        store = f"{WORK}/store"
        more, others = try_store(rng, store)
        runs, refused = runs + more, refused + others
        shutil.rmtree(store)
    check_lock(f"{WORK}/locked")
    print(f"seed {SEED}: the second reader reads {runs} runs of {COUNT} stores as the program does, and refuses {refused} of {COUNT * DAMAGES} damaged folders as it does; the two keep one lock")


main()
END
pass "$(tail -n 1 "$work/told")"
