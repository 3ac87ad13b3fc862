#!/usr/bin/env python3
"""Tries the edits that must fail of one crate, and shows the first errors of each.

    (cd crates/NAME && rt check); tools/edits.py NAME [LABEL ...]

(`rt must-fail NAME` tries them too, and shows the first error alone.) What stands below NAME has to be proved, which `rt check` sees to. The whole
of what the checker said of an edit is in target/edits/NAME/LABEL.log. An edit shows what it makes false if its first error is that fact: a returned
value, an invariant, a computed board; not a rewriting that finds nothing or an index that another function asks for.
"""
import glob
import os
import shutil
import subprocess
import sys
import tempfile

KIT = os.path.dirname(os.path.dirname(os.path.realpath(shutil.which("rt"))))


def words_of(name):
    """The words that the checker takes for a crate: the libraries that it stands on."""
    lines = (line.split("#")[0].partition(":") for line in open("crates.txt", encoding="utf-8"))
    kind, below = next((crate.split()[1:], rest.split()) for crate, _, rest in lines if crate.split()[:1] == [name])
    words = ["--crate-type", "staticlib"] if "staticlib" in kind else []
    for library in ["std"] + below:
        ours = os.path.abspath(f"crates/{library}/out/rlib/{library}.rlib")
        words += ["--extern", f"{library}={ours if os.path.isdir(f'crates/{library}') else f'{KIT}/rlibs/{library}.rlib'}"]
    for folder in [f"{KIT}/rlibs"] + sorted(glob.glob(os.path.abspath("crates/*/out/rlib"))):
        words += ["-L", f"dependency={folder}"]
    return words + ["--antt-project", f"{KIT}/rattle/logic/antt-project.json", "--logic-built", f"{KIT}/logic_built"]


def apply(edit, copy):
    """Makes the replacements of an edit in a copy of its crate."""
    path = old = None
    for line in open(edit, encoding="utf-8").read().split("\n"):
        if line.startswith("file: "):
            path = f"{copy}/{line[6:]}"
        elif line.startswith("old: "):
            old = line[5:]
        elif line.startswith("new:"):
            text = open(path, encoding="utf-8").read()
            if text.count(old) != 1:
                sys.exit(f"{edit}: '{old}' stands {text.count(old)} times in {path}")
            open(path, "w", encoding="utf-8").write(text.replace(old, line[4:].removeprefix(" ")))


def attempt(name, label, words):
    """Checks a copy of the crate with one edit, begun with what rt check kept, and prints the verdict and the first errors."""
    with tempfile.TemporaryDirectory() as copy:
        for part in ("src", "specs", "proofs", "out/incremental"):
            if os.path.isdir(f"crates/{name}/{part}"):
                shutil.copytree(f"crates/{name}/{part}", f"{copy}/{part}", symlinks=True)
        apply(f"crates/{name}/must-fail/{label}.edit", copy)
        root = next(f"src/{file}" for file in ("main.rt", "lib.rt") if os.path.exists(f"{copy}/src/{file}"))
        command = [f"{KIT}/bin/rattle", "check", "--crate-name", name, root, *words, "--incremental", "out/incremental"]
        run = subprocess.run(command, cwd=copy, capture_output=True, text=True)
    said = run.stdout + run.stderr
    os.makedirs(f"target/edits/{name}", exist_ok=True)
    open(f"target/edits/{name}/{label}.log", "w", encoding="utf-8").write(said)
    refused = run.returncode == 1 and "logic=not-proved" in said
    print(f"{name}/{label}: {'refused' if refused else 'NOT REFUSED'}")
    errors = [line for line in said.split("\n") if ": error" in line or "it is not proved that" in line or ": no proof" in line]
    for line in errors[:2]:
        print("    " + line[:400])


def main():
    if len(sys.argv) < 2:
        sys.exit(__doc__)
    name = sys.argv[1]
    labels = sys.argv[2:] or sorted(edit[:-5] for edit in os.listdir(f"crates/{name}/must-fail"))
    words = words_of(name)
    for label in labels:
        attempt(name, label, words)


main()
