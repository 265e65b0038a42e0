"""docs/LIBRARY.md, which tools/crates makes from the sources: each public call of what an embedder uses, and the types that calls take and give.

What stands in the page between its two marks `<!-- by hand -->` and `<!-- end -->` is written by hand and kept. Code that comes from the example is copied anew.
"""
import os
import re
import sys

TOP = os.path.dirname(os.path.dirname(os.path.realpath(__file__)))
PAGE = f"{TOP}/docs/LIBRARY.md"
EXAMPLE, ANSWERS = "crates/lethe_embed/src/main.rt", "crates/lethe_embed/proofs/tour/Answers.antt"
HEAD = """# The library

How a program of your own uses Lethe's crates. `tools/crates` writes this page from the sources, but for what stands between the marks that name a hand; edit that here.
The [guide](GUIDE.md) says what sizes, ticks and faults mean; each call's source has its contract.
"""
HAND = re.compile(r"<!-- by hand -->\n(.*?)<!-- end -->\n", re.S)
ENGINE = ("engine", "changing", "rows", "reading", "ticking", "telling", "pinning", "working", "jobs")
# The types whose public calls are listed, each with the files in which they stand.
CALLS = (
    ("Engine", "a store on a disk", [f"lethe_engine/src/{it}.rt" for it in ENGINE]),
    ("Snapshot", "what a store held when it was pinned", ["lethe_snapshot/src/snapshot.rt"]),
    ("Job", "a merge or a sweep, for work at a moment of your own", ["lethe_job/src/job.rt"]),
    ("Config", "the options of a store", ["lethe_base/src/config.rt"]),
    ("DirDisk", "a folder as a disk", ["lethe_dirdisk/src/opening.rt"]),
    ("Key", "a key", ["lethe_base/src/key.rt"]),
    ("Value", "a value", ["lethe_base/src/value.rt"]),
    ("Range", "delete keys from one up to another", ["lethe_base/src/range.rt"]),
    ("Certificate", "what a tick certifies", ["lethe_cert/src/certificate.rt", "lethe_cert/src/form.rt"]),
    (None, "many changes at once", ["lethe_changes/src/changes.rt"]),
    ("Store", "a store that several threads share", [f"lethe_store/src/{it}.rt" for it in ("changes", "changing", "listing", "reading", "ticking", "pinning", "store")]),
    ("Session", "a caller of a shared store", ["lethe_store/src/session.rt"]),
)
# What calls of the engine itself make of a job, what contracts alone speak of, and what serves those who share a store by a log of their own.
INNER = {"Job": {"begun", "refuse", "is_refused", "next_page", "count_written", "take_made"}, "Snapshot": {"of", "release"}, "Store": {"open_with", "take", "learn", "give", "note", "put_back"}}
TYPES = (
    ("Fields", "lethe_base/src/config.rt"),
    ("Pick", "lethe_base/src/config.rt"),
    ("ConfigRefused", "lethe_base/src/config.rt"),
    ("OpenRefused", "lethe_engine/src/engine.rt"),
    ("OpenWhy", "lethe_recover/src/opening.rt"),
    ("DirRefused", "lethe_dirdisk/src/refusal.rt"),
    ("OpenStep", "lethe_dirdisk/src/refusal.rt"),
    ("Refused", "lethe_base/src/refused.rt"),
    ("Stat", "lethe_engine/src/telling.rt"),
    ("Ticked", "lethe_engine/src/ticking.rt"),
    ("Certificate", "lethe_cert/src/certificate.rt"),
    ("Asked", "lethe_row/src/asking.rt"),
    ("Row", "lethe_row/src/row.rt"),
    ("Changed", "lethe_changes/src/changes.rt"),
    ("Read", "lethe_store/src/reading.rt"),
    ("KeyRefused", "lethe_base/src/key.rt"),
    ("ValueRefused", "lethe_base/src/value.rt"),
)
# What opening gives and each call keeps, so that nobody has to show it.
KEPT = ("IsSound D.tells", "IsReady", "seat.table_id")


def read(path):
    with open(f"{TOP}/{path}", encoding="utf-8") as file:
        return file.read()


def check_files():
    """Each file in which calls of an engine stand is listed."""
    for name in os.listdir(f"{TOP}/crates/lethe_engine/src"):
        if blocks(read(f"crates/lethe_engine/src/{name}"), "Engine") and name.removesuffix(".rt") not in ENGINE:
            sys.exit(f"tools/crates: tools/library.py doesn't list {name} of lethe_engine")


def blocks(text, name):
    """The parts of a file in which public calls of a type stand, or those of no type."""
    if name is None:
        return [text]
    return re.findall(rf"^impl(?:<[^{{]*?>)? {name}(?:<[^{{]*?>)? \{{\n(.*?)^\}}", text, re.S | re.M)


def calls_in(block, indent):
    """Of each public call its doc, its signature on one line, and what its caller has to show."""
    call = re.compile(rf"((?:^{indent}///[^\n]*\n)+)(?:^{indent}#\[[^\n]*\n)*^{indent}pub (fn \w+.*?)^{indent}\{{\n", re.S | re.M)
    for doc, text in call.findall(block):
        signature = re.split(r"^\s*(?://[^\n]*\n\s*)*(?:requires|ensures)\b", text, maxsplit=1, flags=re.M)[0]
        asked = re.findall(r"^\s*requires (?:\w+ )?\{ (.*) \}$", text, re.M)
        lines = [line.strip().removeprefix("///").strip() for line in doc.strip().splitlines()]
        yield "\n".join(lines), one_line(signature), [it for it in asked if not any(kept in it for kept in KEPT)]


def one_line(signature):
    text = re.sub(r"\s+", " ", signature.strip())
    return text.replace("( ", "(").replace(", )", ")").replace("mut disk: ", "disk: ")


def told(doc):
    """The first sentence of a doc, and what it says of errors."""
    about, _, errors = doc.partition("# Errors")
    text = re.sub(r"\s+", " ", about.strip())
    first = re.match(r"(.*?[a-z`)\]\d]\.)(?: [A-Z]|$)", text)
    return first[1] if first else text, re.sub(r"\s+", " ", errors.strip())


def call_text(path, doc, signature, asked):
    first, errors = told(doc)
    words = re.match(r"fn (\w+)", signature)[1]
    text = f"**[`{words}`](../{path})**: {first}"
    if errors:
        text += f" *Errors:* {errors}"
    if asked:
        text += " *You show:* " + " and ".join(f"`{it}`" for it in asked) + "."
    return f"{text}\n\n    {signature}\n"


def calls_text(name, title, parts):
    lines = [f"### {name or 'change_all'}: {title}", ""]
    for path in (f"crates/{part}" for part in parts):
        for block in blocks(read(path), name):
            for doc, signature, asked in calls_in(block, "    " if name else ""):
                if re.match(r"fn (\w+)", signature)[1] not in INNER.get(name, ()):
                    lines += [call_text(path, doc, signature, asked)]
    return "\n".join(lines)


def type_text(name, path):
    """A type's declaration, with its docs."""
    text = read(f"crates/{path}")
    found = re.search(rf"((?:^///[^\n]*\n)*)(?:^#\[[^\n]*\n)*(^pub (?:struct|enum) {name}\b.*?^\}})", text, re.S | re.M)
    about = re.sub(r"\s*\n?///\s?", " ", found[1]).strip()
    code = "\n".join(f"    {line}" if line else "" for line in found[2].splitlines() if not line.strip().startswith("ghost"))
    return f"**[`{name}`](../crates/{path})**: {about}\n\n{code}\n"


def function_of(name):
    """A function of the example, as code of a page."""
    found = re.search(rf"^fn {name}\(.*?^\}}\n", read(EXAMPLE), re.S | re.M)[0]
    return "".join(f"    {line}\n" if line else "\n" for line in found.splitlines())


def answers():
    """The example's proof file, as code of a page."""
    return "".join(f"    {line}\n" if line else "\n" for line in read(ANSWERS).splitlines())


def row_of(crate):
    return "    " + re.search(rf"^{crate}:.*$", read("crates.txt"), re.M)[0] + "\n"


def hands(old):
    """The parts of the page that a hand wrote, in their order."""
    return HAND.findall(old)


def library_page(old):
    """The page, from the sources and from what a hand wrote into the old one."""
    check_files()
    kept = hands(old) + [""] * 4
    hand = [f"<!-- by hand -->\n{it}<!-- end -->\n" for it in kept]
    parts = [
        HEAD,
        hand[0] + "\n" + row_of("lethe_embed"),
        hand[1] + "\n" + function_of("tour"),
        hand[2] + "\n" + function_of("key"),
        hand[3] + "\n" + answers(),
        "## The calls\n\n" + "\n".join(calls_text(*it) for it in CALLS),
        "## What calls take and give\n\n" + "\n".join(type_text(*it) for it in TYPES),
    ]
    return "\n".join(parts).rstrip("\n") + "\n"
