"""What the programs of this folder share: the built program, timed runs of it, and what stands in a store's folder."""
import os
import struct
import subprocess
import sys
import tempfile
import threading
import time
from dataclasses import dataclass

TOP = os.path.dirname(os.path.dirname(os.path.realpath(__file__)))
LETHE = f"{TOP}/crates/lethe_cli/out/lethe_cli"
LETTERS = "abcdefghijklmnopqrstuvwxyz0123456789"
# A script has at most 16 MiB.
MOST = 16_000_000


@dataclass
class Run:
    """A run of the program: its seconds, its greatest memory in bytes, the bytes that it handed to the system besides its answers, and these."""

    seconds: float
    peak: int
    written: int
    answers: bytes


def stop(why):
    sys.exit(f"{os.path.basename(sys.argv[0])}: {why}")


def need_program():
    if not os.access(LETHE, os.X_OK):
        stop("the program isn't built: ./lethe --build")


def told(pid, file, name):
    """A number that /proc tells of a process, or 0 where it doesn't."""
    try:
        with open(f"/proc/{pid}/{file}", encoding="ascii") as it:
            return int(next((row.split()[1] for row in it if row.startswith(f"{name}:")), 0))
    except (OSError, ValueError):
        return 0


def watch(pid, ended, peaks):
    """Notes the greatest memory of a process so far, until it has ended: what wait4 tells is at least this program's own memory, from before the other began."""
    while True:
        peaks.append(told(pid, "status", "VmHWM") * 1024)
        if ended.wait(0.002):
            return


def timed(store, text, *options):
    """Runs a script over the store in a folder."""
    with tempfile.TemporaryFile() as source, tempfile.TemporaryFile() as sink:
        source.write(text)
        source.seek(0)
        ended, peaks = threading.Event(), []
        begun = time.monotonic()
        child = subprocess.Popen([LETHE, store, "run", *options], stdin=source, stdout=sink)
        watcher = threading.Thread(target=watch, args=(child.pid, ended, peaks))
        watcher.start()
        # Once it has ended, and isn't waited for yet, all that it has written is told.
        os.waitid(os.P_PID, child.pid, os.WEXITED | os.WNOWAIT)
        taken = time.monotonic() - begun
        written = told(child.pid, "io", "wchar")
        ended.set()
        watcher.join()
        child.wait()
        sink.seek(0)
        answers = sink.read()
    if child.returncode:
        stop(f"the program ended with {child.returncode}: {answers[-200:]}")
    return Run(taken, max(peaks), max(written - len(answers), 0), answers)


def scripts(lines):
    """The lines, in as few scripts as there have to be."""
    some, size = [], 0
    for line in lines:
        if size + len(line) > MOST:
            yield "".join(some).encode()
            some, size = [], 0
        some.append(line)
        size += len(line)
    if some:
        yield "".join(some).encode()


def value(rng, length):
    return "".join(rng.choices(LETTERS, k=length))


def bytes_in(store):
    return sum(os.path.getsize(f"{store}/{it}") for it in os.listdir(store))


def files_by_level(store):
    """How many files the manifest of the greatest gate cites in each level (docs/FORMATS.md)."""
    gate = max(it for it in os.listdir(store) if it.startswith("g-"))
    with open(f"{store}/m{gate[1:]}", "rb") as it:
        manifest = it.read()
    # The first fields, the certificate, the erases and the segments.
    at = 3 + 8 + 18 + 24
    at += 1 + 24 * manifest[at]
    at += 4 + 32 * struct.unpack_from(">I", manifest, at)[0]
    at += 1 + 8 * manifest[at]
    levels = manifest[at + 4 :: 49]
    return [levels.count(level) for level in range(max(levels, default=0) + 1)]


def megabytes(count):
    return f"{count / 1e6:.1f} MB" if count < 1e8 else f"{count / 1e6:.0f} MB"


def between(values, shape="{:,.0f}"):
    """The least and the greatest of some values, as text."""
    least, greatest = shape.format(min(values)), shape.format(max(values))
    return least if least == greatest else f"{least} to {greatest}"


def result(text):
    """The line that bench/all takes."""
    print(f"result: {text}", flush=True)


def words_of(words, room=None, **counts):
    """What a program of this folder is called with: --room FOLDER, a number for each of the counts by its name, and behind these, or between them, the options
    for the program that is measured. Gives the folder, the counts and the options."""
    room, options = room or os.getcwd(), []
    if len(words) % 2:
        stop("the words are --room FOLDER, --COUNT N and the program's options, two words each")
    for name, word in zip(words[::2], words[1::2]):
        if name == "--room":
            room = word
        elif name.removeprefix("--") in counts:
            if not word.isdigit():
                stop(f"{name} takes a number, not {word}")
            counts[name.removeprefix("--")] = int(word)
        else:
            options += [name, word]
    # A folder in memory, where a data sync costs next to nothing, so that the program is measured and no device.
    if room == "memory":
        room = "/dev/shm" if os.path.isdir("/dev/shm") else tempfile.gettempdir()
    return room, *counts.values(), options
