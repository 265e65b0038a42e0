"""Builds a program that a bench measures with: proved, in a folder of its own, from copies of the crates' sources. Libraries that `rt` built of the same sources on this machine are used,
those in the checkout's out/ too: `rt` takes one only where its stamp is the sum of just these sources."""
import os
import shutil
import subprocess

from measuring import TOP, stop


def rows_below(row):
    """The rows of crates.txt that a row stands on."""
    with open(f"{TOP}/crates.txt", encoding="utf-8") as it:
        lines = [line.split("#")[0].strip() for line in it]
    known = {line.split(":")[0].split()[0]: line for line in lines if line}
    found, left = {}, row.split(":")[1].split()
    while left:
        name = left.pop()
        if name in known and name not in found:
            found[name] = known[name]
            left += known[name].split(":")[1].split()
    return found


def lay(room, row, main, proofs, stdin):
    """The folder with the program and the crates that it stands on."""
    name, below = row.split(":")[0], rows_below(row)
    for crate in below:
        for part in ("src", "specs", "proofs"):
            if os.path.isdir(f"{TOP}/crates/{crate}/{part}"):
                shutil.copytree(f"{TOP}/crates/{crate}/{part}", f"{room}/crates/{crate}/{part}")
        if os.path.exists(f"{TOP}/crates/{crate}/out/rlib/stamp"):
            shutil.copytree(f"{TOP}/crates/{crate}/out/rlib", f"{room}/crates/{crate}/out/rlib")
    shutil.copy(f"{TOP}/HANDLES", room)
    files = {"crates.txt": "\n".join([*below.values(), row]) + "\n", f"crates/{name}/src/main.rt": main, f"crates/{name}/stdin": stdin}
    files |= {f"crates/{name}/proofs/{path}": text for path, text in proofs.items()}
    for path, text in files.items():
        os.makedirs(os.path.dirname(f"{room}/{path}") or room, exist_ok=True)
        with open(f"{room}/{path}", "w", encoding="utf-8") as file:
            file.write(text)


def build(room, row, main, proofs, stdin):
    """Proves and builds the program of a row for crates.txt, and tells where it is. It is tried on the text `stdin`."""
    name = row.split(":")[0]
    lay(room, row, main, proofs, stdin)
    built = subprocess.run(["rt", "run"], cwd=f"{room}/crates/{name}", input=stdin.encode(), stdout=subprocess.PIPE, stderr=subprocess.STDOUT, check=False)
    program = f"{room}/crates/{name}/out/{name}"
    if built.returncode or not os.path.exists(program):
        stop(f"the program isn't built:\n{built.stdout.decode(errors='replace')[-4000:]}")
    return program
