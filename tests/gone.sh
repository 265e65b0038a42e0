#!/bin/sh
# A value that was deleted a threshold ago is in no file of the folder behind a tick, and neither is one that a range of delete keys erased; and the certificate that is printed has the digest of the manifest that stands there:
# tests/gone.sh [COUNT [SEED]]. The same of COUNT generated stores, 24 where no number is given, against a plain model: with puts that replace others, deletes, erases and ticks, buffers and files of a few entries and of the default
# size, in several runs over one folder, of which some are killed. Behind each run all files are searched for values that are due, and the second reader (tests/reader.py) gives the model's map.
# shellcheck source=tests/common.sh
. "$(dirname -- "$0")/common.sh"
needs_program
needs sha256sum python3
options="--threshold 100 --levels 2 --page 2 --tile 2 --file 2 --buffer 4 --ratio 2"
value=12_Elm_Street

# Without a tick the value stands in the journal, where grep finds it.
# shellcheck disable=SC2086
printf '1 put a 5 %s\n1 del a\n' "$value" | "$program" "$work/kept" run $options >/dev/null || fail "a run without a tick ended with $?"
grep -rqa "$value" "$work/kept" || fail "grep doesn't find the value where it stands, so this tells nothing"

# gone NAME SCRIPT TEXT: the run of the script over that folder prints the text, where DIGEST stands for the digest of the manifest that is there at its end, and no file of it has the value.
gone() {
    # shellcheck disable=SC2086
    printf '%b' "$2" | "$program" "$work/$1" run $options >"$work/text" || fail "a run with ticks ended with $?"
    held=$(grep -rla "$value" "$work/$1")
    [ -z "$held" ] || fail "the value stands in $held"
    digest=$(cat "$work/$1"/m-* | sha256sum | cut -d ' ' -f 1)
    printf '%b' "$3" | sed "s/DIGEST/$digest/" >"$work/wanted"
    cmp -s "$work/wanted" "$work/text" || fail "it printed $(cat "$work/text")"
}
gone deleted "1 put a 5 $value\n1 del a\n1 tick 99\n1 get a\n1 tick 100\n" \
    "1 ok 1\n1 ok 2\n1 ok 3 clock 99\n1 at 3 none\n1 ok 4 clock 100 cert 1 before 0 sha256 DIGEST\n"

# Of nine puts the first four come into a file. One of them is erased: up to the threshold its page stands there, and then the file is swept.
erasing="1 put a 5 $value\n1 put b 1 x\n1 put c 1 x\n1 put d 1 x\n1 put e 1 x\n1 put f 1 x\n1 put g 1 x\n1 put h 1 x\n1 put i 1 x\n1 erase 5 6\n1 tick 99\n"
erased="1 ok 1\n1 ok 2\n1 ok 3\n1 ok 4\n1 ok 5\n1 ok 6\n1 ok 7\n1 ok 8\n1 ok 9\n1 ok 10\n1 ok 11 clock 99\n"
# shellcheck disable=SC2086
printf '%b' "$erasing" | "$program" "$work/waits" run $options >/dev/null || fail "a run with an erase ended with $?"
grep -qa "$value" "$work/waits"/p-* || fail "no page has the value before the threshold, so this tells nothing"
gone erased "${erasing}1 get a\n1 get b\n1 tick 100\n" \
    "${erased}1 at 11 none\n1 at 11 val 1 x\n1 ok 12 clock 100 cert 1 before 0 sha256 DIGEST\n"
python3 - "$root/tests" "$program" "$work" "${1:-24}" "${2:-$(od -An -N4 -tu4 /dev/urandom | tr -d ' ')}" <<'END' >"$work/told" 2>&1 || fail "$(tail -n 1 "$work/told")"
import hashlib
import os
import random
import re
import shutil
import subprocess
import sys
import time

sys.path.insert(0, sys.argv[1])
from reader import Refused, read_held

PROGRAM, WORK, COUNT, SEED = sys.argv[2], sys.argv[3], int(sys.argv[4]), int(sys.argv[5])
# Options, the threshold, and how many changes a run has at most and how many keys there are.
CONFIGS = (
    ("--threshold 100 --levels 2 --page 2 --tile 2 --file 2 --buffer 4 --ratio 2", 100, 60, 12),
    ("--threshold 30 --levels 4 --page 1 --tile 1 --file 2 --buffer 2 --ratio 2 --pick sd", 30, 60, 25),
    ("--threshold 7 --levels 3 --page 4 --tile 8 --file 2 --buffer 16 --ratio 2", 7, 300, 60),
    ("--threshold 50", 50, 2500, 900),
)
LATEST = 1_000


def fail(why):
    print(f"seed {SEED}: {why}")
    sys.exit(1)


class Model:
    """A plain map, and of each value that was deleted or erased the time. A value names its put; one that a later put replaced has no time until its key is deleted."""

    def __init__(self, threshold):
        self.keys = {}
        self.threshold, self.now, self.left, self.gone, self.clock, self.place, self.certificates, self.seconds = threshold, {}, {}, {}, 0, 0, 0, 0

    def change(self, line):
        what, *fields = line.split()[1:]
        self.place += 1
        if what == "tick":
            self.clock = int(fields[0])
        elif what == "put":
            put = int(fields[1]), fields[2].encode()
            self.now[fields[0]] = put
            self.left[put[1]] = fields[0], put[0]
            self.keys[put[1]] = fields[0]
        elif what == "del":
            self.now.pop(fields[0], None)
            self.let_go(lambda key, _: key == fields[0])
        else:
            low, high = int(fields[0]), int(fields[1])
            self.now = {key: put for key, put in self.now.items() if not low <= put[0] < high}
            self.let_go(lambda _, due: low <= due < high)

    def let_go(self, is_meant):
        for value in [it for it, put in self.left.items() if is_meant(*put)]:
            del self.left[value]
            self.gone[value] = self.clock

    def due(self):
        return {it for it, time in self.gone.items() if time + self.threshold <= self.clock}

    def hidden(self):
        """Values of keys that reads don't find."""
        return {it for it, key in self.keys.items() if key not in self.now}


def lines_of(rng, model, most, keys):
    """Some changes; the last one is a tick, one in ten times a threshold later."""
    lines, clock = [], model.clock
    for at in range(rng.randrange(most) + 1):
        key, low, what = f"k{rng.randrange(keys)}", rng.randrange(LATEST), rng.randrange(40)
        if what < 28:
            lines.append(f"1 put {key} {low} v{model.place + at + 1}_{'y' * rng.randrange(60)}")
        elif what < 37:
            lines.append(f"1 del {key}")
        elif what < 39:
            lines.append(f"1 erase {low} {low + 1 + rng.randrange(LATEST // 5)}")
        else:
            clock += rng.randrange(1 + 20 * model.threshold // most)
            lines.append(f"1 tick {clock}")
    lines.append(f"1 tick {clock + (model.threshold if rng.randrange(10) == 0 else rng.randrange(model.threshold))}")
    return lines


def values_in(store):
    """Those that any file of the folder has, cited or not."""
    found = set()
    for name in os.listdir(store):
        with open(f"{store}/{name}", "rb") as file:
            found.update(re.findall(rb"v[0-9]+_y*", file.read()))
    return found


def run(store, words, lines, seconds=None):
    """What is printed, and whether the run was killed so many seconds after its start."""
    program = subprocess.Popen([PROGRAM, store, "run", *words], stdin=subprocess.PIPE, stdout=subprocess.PIPE)
    try:
        out, _ = program.communicate("".join(f"{it}\n" for it in lines).encode(), timeout=seconds)
    except subprocess.TimeoutExpired:
        program.kill()
        program.communicate()
        return [], True
    if program.returncode != 0:
        fail(f"a run ended with {program.returncode}: {out[-200:]}")
    return out.decode().splitlines(), False


def check_files(store, model, told, where):
    due = values_in(store) & model.due()
    if due:
        fail(f"{where}: {len(due)} values are there that were deleted a threshold ago, as {sorted(due)[0]}")
    try:
        read = read_held(store)
    except Refused as why:
        fail(f"{where}: the second reader says {why}")
    if told and (read.map, read.count, read.manifest.clock) != ({key.encode(): put for key, put in model.now.items()}, model.place, model.clock):
        fail(f"{where}: what the folder stands for isn't what the model has")


def check_line(store, model, line, certificates):
    """The last tick's line, with the digest of the manifest that lies there."""
    wanted = f"1 ok {model.place} clock {model.clock}"
    if model.clock >= model.threshold:
        with open(f"{store}/{max(it for it in os.listdir(store) if it[0] == 'm')}", "rb") as file:
            digest = hashlib.sha256(file.read()).hexdigest()
        wanted += f" cert {certificates} before {model.clock - model.threshold} sha256 {digest}"
    if line != wanted:
        fail(f"a tick printed {line}, not {wanted}")


def try_run(rng, store, words, model, most, keys):
    """Carries out one run, and gives how many values waited for their time, and whether it was killed."""
    lines = lines_of(rng, model, most, keys)
    begun = time.monotonic()
    # The first run isn't killed: it tells how long one takes.
    out, killed = run(store, words, lines, rng.random() * model.seconds if model.seconds and rng.randrange(3) == 0 else None)
    model.seconds = model.seconds if killed else time.monotonic() - begun
    if killed:
        # What was certified is still gone, before the next opening and behind it.
        check_files(store, model, False, "behind a kill")
        place = int(run(store, words, ["1 stat"])[0][0].split()[2])
        lines = lines[: place - model.place]
    for line in lines:
        model.change(line)
    check_files(store, model, True, "behind an opening" if killed else "behind a tick")
    if not killed:
        check_line(store, model, out[-1], sum(" cert " in it for it in out) + model.certificates)
    waiting = len(values_in(store) & set(model.gone))
    stat = run(store, words, ["1 stat"])[0][0].split()
    certificate = read_held(store).manifest.certificate
    model.certificates = certificate[0] if certificate else 0
    if stat[stat.index("pending") + 1] == stat[stat.index("tombs") + 1] == "0" and values_in(store) & model.hidden():
        fail("stat counts no tombstone and no pending erase, and a value of a key is there that reads don't find")
    check_files(store, model, True, "behind a run of stat")
    return waiting, killed


def main():
    rng, runs, kills, waited = random.Random(SEED), 0, 0, 0
    for at in range(COUNT):
        words, threshold, most, keys = CONFIGS[at % len(CONFIGS)]
        model, store = Model(threshold), f"{WORK}/stores/{at}"
        os.makedirs(f"{WORK}/stores", exist_ok=True)
        for _ in range(rng.randrange(2, 7)):
            waiting, killed = try_run(rng, store, words.split(), model, most, keys)
            runs, kills, waited = runs + 1, kills + killed, waited + waiting
        if at % 8:
            shutil.rmtree(store)
    if COUNT >= 20 and waited < 100:
        fail(f"only {waited} deleted values were there before their time, which says too little")
    print(f"seed {SEED}: the same behind {runs} runs over {COUNT} generated stores, {kills} of them killed, where {waited} values were there that weren't due yet")


main()
END
pass "no file has a value that was deleted or erased, and the certificate's digest is the manifest's; $(tail -n 1 "$work/told")"
