"""What the programs share that make figures: the numbers of a picture as a file, which bench/pictures draws, and what is said of where they come from."""
import os
import re
import subprocess
import time

TOP = os.path.dirname(os.path.dirname(os.path.realpath(__file__)))
# What bench/all and bench/pictures write themselves, which makes no program another one.
OWN = ("docs/PERFORMANCE.md", "docs/pictures")


def said(*words):
    """What a command prints, or nothing where it fails."""
    try:
        return subprocess.run(words, cwd=TOP, stdout=subprocess.PIPE, stderr=subprocess.DEVNULL, text=True, check=True).stdout.strip()
    except (OSError, subprocess.CalledProcessError):
        return ""


def revision():
    """That of the sources, and whether they were modified, but for the pages of figures."""
    name = said("git", "rev-parse", "--short=12", "HEAD")
    others = [f":(exclude){it}" for it in OWN]
    changed = said("git", "status", "--porcelain", "--untracked-files=no", "--", ".", *others)
    fresh = said("git", "ls-files", "--others", "--exclude-standard", "--", "crates")
    return f"revision {name or 'unknown'}" + (", modified" if changed or fresh else "")


def machine(room):
    """The processors that may be used, their model, and the file system of the folder."""
    with open("/proc/cpuinfo", encoding="utf-8") as it:
        model = re.search(r"^model name\s*:\s*(.*)$", it.read(), re.M)
    kind = said("stat", "-f", "-c", "%T", room)
    return f"{len(os.sched_getaffinity(0))} processors, {re.sub(' +', ' ', model[1]) if model else 'of unknown model'}; {kind or 'an unknown file system'}"


def today():
    return time.strftime("%d %B %Y").lstrip("0")


def write_data(path, rows, told):
    """Writes the numbers of a picture: a comment that says where they come from, and for each its panel, its line, and the two numbers."""
    with open(path, "w", encoding="utf-8") as it:
        it.write(f"# {told}\npanel,line,x,y\n")
        it.writelines(f'"{panel}","{line}",{x:g},{y:g}\n' for panel, line, x, y in rows)


def take_word(words, name):
    """What stands behind a word, and the other words."""
    if name not in words[:-1]:
        return None, words
    at = words.index(name)
    return words[at + 1], words[:at] + words[at + 2 :]
