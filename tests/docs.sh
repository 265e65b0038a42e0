#!/bin/sh
# The pages: each relative link of README.md, CHANGELOG.md and docs/*.md leads to a file, and to a heading where it names one; each path
# in backquotes that begins with crates/ is there; docs/CRATES.md and docs/LIBRARY.md are what tools/crates makes; README.md has at most 120
# lines; and no cell of a table in docs/THEOREMS.md, GUIDE.md, COMMANDS.md and DELETING.md has over 40 words.
# README.md's first forty lines and all of DELETING.md have no sentence above 25 words; and in README.md, GUIDE.md, COMMANDS.md and DELETING.md
# no sentence begins with a clause of `That`. In these four each command behind a `$` is run, a page in one new folder, and prints what the page has.
# Prints what is wrong, and ends with 1 then. Where the program isn't there no command is run, and the status is 77.
cd "$(dirname -- "$0")/.." || exit 1
command -v python3 >/dev/null || { echo "FAIL docs: it needs python3"; exit 1; }
python3 - <<'END'
import glob
import os
import re
import subprocess
import sys
import tempfile

PAGES = [page for page in ("README.md", "CHANGELOG.md") if os.path.isfile(page)] + sorted(glob.glob("docs/*.md"))
LINK = re.compile(r"\[[^\]]*\]\(([^)\s]+)\)")
REFERENCE = re.compile(r"^\[[^\]\n]+\]:\s*(\S+)", re.M)
USED = re.compile(r"\]\[([^\]\n]+)\]")
# The pages whose commands are run, and that are read aloud.
TRIED = ["README.md", "docs/GUIDE.md", "docs/COMMANDS.md", "docs/DELETING.md"]
MOST_WORDS = 25
wrong = []


def read(page):
    with open(page, encoding="utf-8") as file:
        return file.read()


def prose(text):
    """The text without what is indented as code, or fenced."""
    text = re.sub(r"^```.*?^```", "", text, flags=re.S | re.M)
    return "\n".join(line for line in text.split("\n") if not line.startswith("    "))


def anchors(page):
    """The anchors of a page's headings, as GitHub makes them."""
    found = {}
    for title in re.findall(r"^#+ +(.+?)\s*$", prose(read(page)), re.M):
        title = re.sub(r"\[([^\]]*)\]\([^)]*\)", r"\1", title).lower()
        name = re.sub(r"[^\w\- ]", "", title).replace(" ", "-")
        count = found.get(name, 0)
        found[name] = count + 1
        if count:
            found[f"{name}-{count}"] = 1
    return found


def check_links(page, text):
    links = LINK.findall(text) + REFERENCE.findall(text)
    for link in links:
        if re.match(r"[a-z]+:", link):
            continue
        path, _, anchor = link.partition("#")
        target = os.path.normpath(os.path.join(os.path.dirname(page), path)) if path else page
        if not os.path.exists(target):
            wrong.append(f"{page}: the link {link} leads nowhere")
        elif anchor and (not target.endswith(".md") or anchor not in anchors(target)):
            wrong.append(f"{page}: {target} has no heading {anchor}")
    names = re.findall(r"^\[([^\]\n]+)\]:", text, re.M)
    for name in USED.findall(text):
        if name not in names:
            wrong.append(f"{page}: the link [{name}] is nowhere said")
    for name in names:
        if f"][{name}]" not in text:
            wrong.append(f"{page}: the link [{name}] isn't used")


def check_paths(page, text):
    for path in re.findall(r"`(crates/[^`\s]*)`", text):
        parts = re.fullmatch(r"(.*)\{(.*)\}(.*)", path)
        for name in [parts[1] + it + parts[3] for it in parts[2].split(",")] if parts else [path]:
            if not (glob.glob(name) if "*" in name else os.path.exists(name)):
                wrong.append(f"{page}: the path {name} isn't there")


def check_cells(page, text):
    for number, line in enumerate(text.split("\n"), 1):
        if line.startswith("|"):
            for cell in re.split(r"(?<!\\)\|", line.strip().strip("|")):
                words = len(re.sub(r"\]\([^)]*\)", "]", cell).split())
                if words > 40:
                    wrong.append(f"{page}:{number}: a cell of {words} words")


def blocks(text):
    """Each paragraph, item and cell, with the number of the line at which it begins."""
    found, open_ = [], False
    for number, line in enumerate(text.split("\n"), 1):
        if line.startswith("|"):
            found += [(number, cell) for cell in re.split(r"(?<!\\)\|", line)]
            open_ = False
        elif not line.strip() or re.match(r"#|    |\[[^\]]+\]: ", line):
            open_ = False
        elif open_ and not re.match(r"[-*>] |\d+\. ", line):
            found[-1] = (found[-1][0], f"{found[-1][1]} {line.strip()}")
        else:
            found.append((number, re.sub(r"^([-*>]|\d+\.) ", "", line)))
            open_ = True
    return found


def sentences(text):
    """Each sentence, without its links' targets, with the number of the line at which its block begins."""
    for number, block in blocks(text):
        plain = re.sub(r"\[((?:[^\]`]|`[^`]*`)*)\](\([^)]*\)|\[[^\]]*\])", r"\1", block)
        for sentence in re.split(r"(?<=[.!?])[)*\"`]*\s+", plain):
            yield number, sentence.strip()


def check_sentences(page, text, last):
    """Sentences that are too long, up to a line, and everywhere those whose subject is a clause of `that`."""
    for number, sentence in sentences(text):
        words = [word for word in sentence.split() if re.search(r"\w", word)]
        if number <= last and len(words) > MOST_WORDS:
            wrong.append(f"{page}:{number}: a sentence of {len(words)} words: {sentence[:70]}")
        if words[:1] == ["That"] or re.search(r"[:;] that (?!is\b)", sentence):
            wrong.append(f"{page}:{number}: a clause of that as a subject: {sentence[:70]}")


def commands(text):
    """Each command of a page, with the number of its line, and the lines that it prints."""
    found, printed, indent = [], None, None
    for number, line in enumerate(text.split("\n"), 1):
        begins = re.match(r"( {4,})\$ (.*)", line)
        if begins:
            indent, printed = begins[1], []
            found.append([number, begins[2], printed])
        elif printed is None or not line.startswith(indent):
            printed = None
        elif line.startswith(f"{indent}> ") and not printed:
            found[-1][1] += "\n" + line[len(indent) + 2:]
        else:
            printed.append(line[len(indent):].rstrip())
    return found


def check_commands(page, text):
    """Runs a page's commands in one new folder, in their order, and compares what each prints."""
    found = commands(text)
    if not found:
        wrong.append(f"{page}: no command stands behind a $")
    room = {"PATH": os.environ["PATH"], "LC_ALL": "C", "TZ": "UTC"}
    with tempfile.TemporaryDirectory() as folder:
        for name in ("lethe", "examples", "tools"):
            os.symlink(os.path.abspath(name), f"{folder}/{name}")
        for number, command, printed in found:
            got = subprocess.run(["sh", "-c", command], cwd=folder, env=room, stdin=subprocess.DEVNULL, stdout=subprocess.PIPE, stderr=subprocess.STDOUT)
            lines = [line.rstrip() for line in got.stdout.decode(errors="replace").splitlines()]
            if lines != printed:
                wrong.append("\n    ".join([f"{page}:{number}: `{command}` prints:", *lines, "and the page has:", *printed]))
    return len(found)


def has_program():
    last = subprocess.run(["./lethe", "--version"], capture_output=True, text=True).stdout.splitlines()[-1]
    return last.startswith(("proved program", "program"))


for page in PAGES:
    text = prose(read(page))
    check_links(page, text)
    check_paths(page, text)
for name in ("THEOREMS", "GUIDE", "COMMANDS", "DELETING"):
    check_cells(f"docs/{name}.md", read(f"docs/{name}.md"))
for page in TRIED:
    text = read(page)
    check_sentences(page, text, {"README.md": 40, "docs/DELETING.md": text.count("\n")}.get(page, 0))
lines = read("README.md").count("\n")
if lines > 120:
    wrong.append(f"README.md: {lines} lines, past 120")
fresh = subprocess.run(["tools/crates", "--check"], capture_output=True, text=True)
if fresh.returncode:
    wrong.append(fresh.stderr.strip())
runs = sum(check_commands(page, read(page)) for page in TRIED) if has_program() else 0
for line in wrong:
    print(line)
told = f"{len(PAGES)} pages, and each link leads somewhere"
if wrong:
    print(f"FAIL docs: {len(wrong)} wrong")
    sys.exit(1)
if not runs:
    print(f"SKIP docs: {told}; their commands need the program, which isn't built or is older than its sources: run ./lethe --build")
    sys.exit(77)
print(f"PASS docs: {told}; {runs} commands print what {len(TRIED)} pages show")
END
