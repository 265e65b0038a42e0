#!/bin/sh
# Kills the program with signal 9 at a random moment of 200 runs over one folder, or as many as two minutes give, tests/kill.sh [SEED]. Behind each, the store is
# the map after a front of that run's changes, and after all of them where the run had finished: so nothing is lost that a
# finished run was answered. There are erases, and buffers of forty records in files of few entries, so that most runs flush and merge. Tried with wrong bodies: where the disk's list of names leaves out gates or segments, the first kill
# leaves a store that can't be read.
# shellcheck source=tests/common.sh
. "$(dirname -- "$0")/common.sh"
needs python3
needs_program
python3 - "$program" "$work/store" "${1:-$(od -An -N4 -tu4 /dev/urandom | tr -d ' ')}" <<'END' >"$work/told" 2>&1 || fail "$(tail -n 1 "$work/told")"
import random
import subprocess
import sys
import time

LETHE, STORE, SEED = sys.argv[1], sys.argv[2], int(sys.argv[3])
RUNS = 200
LINES = 400
SECONDS = 120
WORDS = ["run", "--page", "4", "--tile", "2", "--file", "8", "--buffer", "40", "--ratio", "2", "--levels", "3"]
# So many runs at least have to be killed between their first change and their last.
ENOUGH = 10


def fail(why):
    print(f"seed {SEED}: {why}")
    sys.exit(1)


def lethe(text, seconds=None):
    """What the program printed and its status; the status is None where it was killed that many seconds after its start."""
    program = subprocess.Popen([LETHE, STORE, *WORDS], stdin=subprocess.PIPE, stdout=subprocess.PIPE)
    try:
        out, _ = program.communicate(text.encode(), timeout=seconds)
        return out.decode(), program.returncode
    except subprocess.TimeoutExpired:
        program.kill()
        program.communicate()
        return "", None


def changes(rng):
    """A key with its delete key and value, or with None where it is deleted; or no key, and two delete keys between which all is erased."""
    for at in range(LINES):
        key = f"k{rng.randrange(60):02}"
        what = rng.randrange(16)
        if what == 0:
            low = rng.randrange(1000)
            yield None, (low, low + 1 + rng.randrange(200))
        else:
            yield (key, None) if what < 5 else (key, (rng.randrange(1000), f"v{at}x" + "y" * rng.randrange(200)))


def spelled(key, pair):
    if key is None:
        return f"1 erase {pair[0]} {pair[1]}\n"
    return f"1 del {key}\n" if pair is None else f"1 put {key} {pair[0]} {pair[1]}\n"


def changed(state, key, pair):
    """The map behind one change."""
    if key is None:
        return {other: put for other, put in state.items() if not pair[0] <= put[0] < pair[1]}
    left = {other: put for other, put in state.items() if other != key}
    return left if pair is None else {**left, key: pair}


def read():
    """How many changes there are, and the map that a scan of all keys prints."""
    out, status = lethe("1 scan ! ~\n")
    if status != 0:
        fail(f"behind a kill the store could not be read: status {status}, {out!r}")
    words = out.split()
    fields = words[5:]
    return int(words[2]), {fields[i]: (int(fields[i + 1]), fields[i + 2]) for i in range(0, len(fields), 3)}


def main():
    rng = random.Random(SEED)
    state, place, killed, midway, longest, first = {}, 0, 0, 0, None, time.monotonic()
    for turn in range(RUNS):
        if time.monotonic() - first > SECONDS:
            break
        script = list(changes(rng))
        begun = time.monotonic()
        # The first run isn't killed: it tells how long one takes.
        out, status = lethe("".join(spelled(*it) for it in script), longest and rng.random() * longest * 1.2)
        if status not in (None, 0):
            fail(f"run {turn}: status {status}, {out[-200:]!r}")
        if status == 0:
            longest = time.monotonic() - begun
            if not out.endswith(f"1 ok {place + LINES}\n"):
                fail(f"run {turn}: the last line was {out[-80:]!r}")
        now, got = read()
        least = place + LINES if status == 0 else place
        if not least <= now <= place + LINES:
            fail(f"run {turn}: {now} changes are there, of {least} to {place + LINES}")
        for key, pair in script[: now - place]:
            state = changed(state, key, pair)
        if got != state:
            fail(f"run {turn}: the store isn't the map after {now} changes")
        killed += status is None
        midway += place < now < place + LINES
        place = now
        turns = turn + 1
    if midway < ENOUGH:
        fail(f"only {midway} of {turns} runs were killed between their first change and their last, which says too little: the device is too slow or too busy")
    print(f"seed {SEED}, {turns} runs, {killed} killed, {midway} of them between their first change and their last, {place} changes in the end")


main()
END
pass "$(tail -n 1 "$work/told")"
