#!/usr/bin/env python3
"""Moves files of theorems from specs/ to proofs/, with the paths that name them in crates/, README.md and docs/.

usage: tools/port_theorems.py [CRATE..]      at the top, after tools/port_laws.py; without names all crates of MOVE

For the reason that tools/port_laws.py gives. ALL: the whole of specs/, where it holds theorems and what they are made of alone.
"""

import glob
import os
import re
import subprocess
import sys

ALL = "ALL"
MOVE = {
    "protocol": "Lemmas Facts Same Flow Reopen Take Post Quiet Wake Best Setup Prelude Weigh",
    **dict.fromkeys("protocol_search protocol_tell protocol_merge protocol_report protocol_core protocol_budget protocol_stuck".split(), ALL),
    **dict.fromkeys("protocol_invariant protocol_bridge demand_view demand".split(), ALL),
    **dict.fromkeys("field_laws field_roundlaws cue_laws store_laws store_claims".split(), ALL),
}


def read(path):
    with open(path, encoding="utf-8") as f:
        return f.read()


def write(path, text):
    with open(path, "w", encoding="utf-8") as f:
        f.write(text)


def move(crate, names):
    at = f"crates/{crate}"
    listed = re.findall(r"(?m)^pub mod (\w+)$", read(f"{at}/specs/Lib.antt"))
    moved = listed if names == ALL else names.split()
    os.makedirs(f"{at}/proofs", exist_ok=True)
    for name in moved:
        subprocess.run(["git", "mv", f"{at}/specs/{name}.antt", f"{at}/proofs/{name}.antt"], check=True)
    text = read(f"{at}/specs/Lib.antt")
    if names == ALL:
        subprocess.run(["git", "mv", f"{at}/specs/Lib.antt", f"{at}/proofs/Lib.antt"], check=True)
    else:
        lib = f"{at}/proofs/Lib.antt"
        write(lib, (read(lib) if os.path.exists(lib) else "") + "".join(f"pub mod {n}\n" for n in listed if n in moved))
        write(f"{at}/specs/Lib.antt", "".join(l for l in text.splitlines(True) if l.strip() not in [f"pub mod {n}" for n in moved]))
    one = "|".join(moved)
    path_in = re.compile(rf"Rattle\.{crate}\.specs\.({one})(?![\w'])")
    for path in glob.glob("crates/**/*.antt", recursive=True) + glob.glob("crates/*/src/*.rt") + glob.glob("crates/*/must-fail/*.edit"):
        text = read(path)
        got = path_in.sub(rf"Rattle.{crate}.proofs.\1", text)
        if path.startswith(f"{at}/must-fail/"):
            got = re.sub(rf"(?m)^file: specs/({one})\.antt", r"file: proofs/\1.antt", got)
        if got != text:
            write(path, got)
    for path in ["README.md", "tests/README.md"] + glob.glob("docs/**/*.md", recursive=True):
        text = read(path)
        got = re.sub(rf"{crate}/specs/({one})\b", rf"{crate}/proofs/\1", text)
        if got != text:
            write(path, got)


def main():
    for crate in sys.argv[1:] or MOVE:
        move(crate, MOVE[crate])


if __name__ == "__main__":
    main()
