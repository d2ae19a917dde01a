#!/usr/bin/env python3
"""Moves the laws of each crate from specs/laws to proofs/laws, with the paths that name them in crates/, tests/, README.md and docs/.

usage: tools/port_laws.py      once, at the top, after tools/port_names.py

The files of STAY hold what contracts of their own crate say: they stay.

Today an edit of a definition cannot be tried where a theorem of specs/ rests on it: what is in specs/ is read before anything is proved.
"""

import glob
import os
import re
import subprocess

STAY = {"plan_tree": ["Forest", "Phase"], "plan_file": ["Head"], "host_schedule": ["Kinds"], "node_joining": ["Copies"], "node_searching": ["Searching"]}
CLASH = ["host_job", "plan_labels", "plan_tree"]


def read(path):
    with open(path, encoding="utf-8") as f:
        return f.read()


def write(path, text):
    with open(path, "w", encoding="utf-8") as f:
        f.write(text)


def main():
    moved = [c for c in sorted(os.listdir("crates")) if os.path.exists(f"crates/{c}/specs/laws.antt")]
    for c in moved:
        os.makedirs(f"crates/{c}/proofs", exist_ok=True)
        subprocess.run(["git", "mv", f"crates/{c}/specs/laws.antt", f"crates/{c}/proofs/laws.antt"], check=True)
        subprocess.run(["git", "mv", f"crates/{c}/specs/laws", f"crates/{c}/proofs/laws"], check=True)
        lib = f"crates/{c}/specs/Lib.antt"
        write(lib, re.sub(r"(?m)^pub mod laws\n", "", read(lib)))
        lib = f"crates/{c}/proofs/Lib.antt"
        text = read(lib) if os.path.exists(lib) else ""
        head = re.match(r"(?:--[^\n]*\n)*", text)[0]
        write(lib, head + "pub mod laws\n" + text[len(head):])
    name = re.compile(r"Rattle\.(" + "|".join(moved) + r")\.specs\.laws\b")
    for path in glob.glob("crates/**/*.antt", recursive=True) + glob.glob("crates/*/src/*.rt") + glob.glob("crates/*/must-fail/*.edit"):
        text = read(path)
        got = name.sub(r"Rattle.\1.proofs.laws", text)
        if path.endswith(".edit"):
            got = re.sub(r"(?m)^file: specs/laws/", "file: proofs/laws/", got)
        if got != text:
            write(path, got)
    for path in ["README.md", "tests/README.md"] + glob.glob("docs/**/*.md", recursive=True):
        text = read(path)
        got = text.replace("specs/laws", "proofs/laws")
        if got != text:
            write(path, got)
    for c, names in STAY.items():
        os.makedirs(f"crates/{c}/specs/laws")
        for name in names:
            subprocess.run(["git", "mv", f"crates/{c}/proofs/laws/{name}.antt", f"crates/{c}/specs/laws/{name}.antt"], check=True)
        left = [n for n in re.findall(r"pub mod (\w+)", read(f"crates/{c}/proofs/laws.antt")) if n not in names]
        write(f"crates/{c}/specs/laws.antt", "".join(f"pub mod {n}\n" for n in names))
        write(f"crates/{c}/specs/Lib.antt", read(f"crates/{c}/specs/Lib.antt") + "pub mod laws\n")
        if left:
            write(f"crates/{c}/proofs/laws.antt", "".join(f"pub mod {n}\n" for n in left))
        else:
            subprocess.run(["git", "rm", "-qf", f"crates/{c}/proofs/laws.antt"], check=True)
            lib = f"crates/{c}/proofs/Lib.antt"
            text = read(lib).replace("pub mod laws\n", "")
            if text.strip():
                write(lib, text)
            else:
                os.remove(lib)
        own = re.compile(rf"{c}\.proofs\.laws\.({'|'.join(names)})\b")
        for path in glob.glob("crates/**/*.antt", recursive=True) + glob.glob("crates/*/src/*.rt"):
            text = read(path)
            got = own.sub(rf"{c}.specs.laws.\1", text)
            if got != text:
                write(path, got)
    # two files whose names differ only in case are refused
    for c in CLASH:
        subprocess.run(["git", "mv", f"crates/{c}/proofs/Laws.antt", f"crates/{c}/proofs/Lemmas.antt"], check=True)
        lib = f"crates/{c}/proofs/Lib.antt"
        write(lib, read(lib).replace("pub mod Laws\n", "pub mod Lemmas\n"))
        for path in glob.glob(f"crates/{c}/proofs/**/*.antt", recursive=True):
            text = read(path)
            got = re.sub(rf"{c}\.proofs\.Laws\b", f"{c}.proofs.Lemmas", text)
            if got != text:
                write(path, got)
    print(f"port_laws: {len(moved)} crates")


if __name__ == "__main__":
    main()
