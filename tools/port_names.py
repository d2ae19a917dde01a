#!/usr/bin/env python3
"""Spells this repository's own definitions and lemmas as today's Rattle spells words: modulesOf becomes modules_of.

usage: tools/port_names.py LANDED      once, at the top, right after /opt/rattle/port/port.py

LANDED is the commit before port.py. In .antt and .rt files below crates/ each name of ours in which a small letter is followed by a
large one goes to snake case, part by part between dashes; a part that begins with a large letter names a type and stays. A lemma that
port.py had turned to the same spelling gets its dash back (DASHED). Then the must-fail edits: the text that each looks for is found by
laying the file of LANDED beside today's, word by word, and its new text is turned by what the words became. Edits whose text is not found
that way are listed and left. Last, the names between backticks in README.md, include/, tests/README.md and docs/.
"""

import collections
import difflib
import glob
import os
import re
import subprocess
import sys

# Lemmas whose spelling by port.py is now that of a definition: they keep their dash. One is also a function of src/, in other crates.
DASHED = "a_test at_rest fresh_at refused_as cells_are words_are all_but all_hold told_at goes_on held_by by_number blank_step right_of".split()

CUT = re.compile(r"[\s(){}\[\],;.:@«»\"`]+")
WORD = re.compile(r"[^\s(){}\[\],;.:@«»\"`]+|\s+|.")
CAMEL = re.compile(r"([a-z0-9])([A-Z])")
DECLARED = re.compile(r"^\s*(?:\| )?(?:abbrev |unfoldable |pub |record |data )*([^\s(){}\[\],;.:@]+)((?: [^\s(){}\[\],;.:@]+)*) :(?: |$)")


def snake(name):
    return "-".join(CAMEL.sub(r"\1_\2", p).lower() if p and p[0].islower() else p for p in name.split("-"))


def read(path):
    with open(path, encoding="utf-8") as f:
        return f.read()


def write(path, text):
    with open(path, "w", encoding="utf-8") as f:
        f.write(text)


def sources():
    return sorted(glob.glob("crates/**/*.antt", recursive=True) + glob.glob("crates/*/src/**/*.rt", recursive=True))


def words(text):
    return set(CUT.split(text))


def turn(text, names):
    return re.sub(r"[^\s(){}\[\],;.:@«»\"`]+", lambda m: names.get(m[0], m[0]), text)


def own_names():
    found, declared = set(), set()
    for path in sources():
        if not path.endswith(".antt"):
            continue
        text = read(path)
        found |= words(re.sub(r"--.*", "", text))
        for line in text.splitlines():
            m = DECLARED.match(line.split("--")[0])
            if m:
                declared |= {m[1], *m[2].split()}
    camel = {n for n in found if any(p and p[0].islower() and CAMEL.search(p) for p in n.split("-"))}
    names = {n: snake(n) for n in camel}
    names |= {n: n.replace("_", "-") for n in DASHED}
    met = [n for n, new in names.items() if new in declared and new not in DASHED]
    if met or len(set(names.values())) < len(names):
        sys.exit(f"port_names: names that fall together: {met}")
    return names


def old_files(landed):
    """The text of each file of LANDED below crates/, by path."""
    listed = subprocess.run(["git", "ls-tree", "-r", "--name-only", landed, "crates"], capture_output=True, text=True, check=True).stdout.split()
    return {p: subprocess.run(["git", "show", f"{landed}:{p}"], capture_output=True, text=True, check=True).stdout for p in listed if p.endswith((".antt", ".rt", ".edit"))}


def laid_beside(old, new):
    """For each place of old's words the place of new's, or None; and how often a word became another."""
    a, b = WORD.findall(old), WORD.findall(new)
    a_at = [i for i, w in enumerate(a) if not w.isspace()]
    b_at = [i for i, w in enumerate(b) if not w.isspace()]
    x, y = [a[i] for i in a_at], [b[i] for i in b_at]
    key = lambda w: snake(w).replace("-", "_").replace("′", "'").replace("_", "")
    place, became = {}, collections.Counter()
    for tag, i, j, k, m in difflib.SequenceMatcher(None, [key(w) for w in x], [key(w) for w in y], autojunk=False).get_opcodes():
        if tag == "equal" or (tag == "replace" and j - i == m - k):
            for d in range(j - i):
                place[a_at[i + d]] = b_at[k + d]
                became[x[i + d], y[k + d]] += 1
    return a, b, place, became


def turned_edit(path, text, before, became_all, cache):
    """The edit's new text, and the pairs that could not be turned."""
    out, left, file, old, made = [], [], None, None, {}
    pair = None
    for line in text.splitlines():
        if line.startswith("file: "):
            file = line[6:].strip()
            out.append(line)
        elif line.startswith("old: "):
            old = line[5:]
            pair = turned_old(path, file, old, before, cache)
            if pair is None:
                left.append(old)
            out.append("old: " + (pair[0] if pair else old))
        elif line.startswith("new: "):
            out.append("new: " + (turned_new(old, line[5:], pair, became_all) if pair else line[5:]))
        else:
            out.append(line)
    return "\n".join(out) + "\n", left


def turned_old(path, file, old, before, cache):
    at = os.path.join(os.path.dirname(os.path.dirname(path)), file)
    if at not in cache:
        cache[at] = laid_beside(before[at], read(at)) if at in before and os.path.exists(at) else None
    if cache[at] is None:
        return None
    a, b, place, _ = cache[at]
    whole = "".join(a)
    if whole.count(old) < 1:
        return None
    start = whole.index(old)
    ends, n = [], 0
    for w in a:
        ends.append((n, n + len(w)))
        n += len(w)
    inside = [i for i, (s, e) in enumerate(ends) if e > start and s < start + len(old) and not a[i].isspace()]
    if not inside or inside[0] not in place or inside[-1] not in place:
        return None
    if ends[inside[0]][0] < start or ends[inside[-1]][1] > start + len(old):
        return None
    first, last = place[inside[0]], place[inside[-1]]
    if last < first:
        return None
    got = "".join(b[first:last + 1])
    if "\n" in got:
        return None
    # the blanks at the line's start, where the edit had them
    lead = old[: len(old) - len(old.lstrip())]
    if lead and first and b[first - 1].isspace():
        got = b[first - 1].split("\n")[-1] + got
    return got, {a[i]: b[place[i]] for i in inside if i in place}


def turned_new(old, new, pair, became):
    got, near = pair
    x = [w for w in WORD.findall(old) if not w.isspace()]
    y = WORD.findall(new)
    def one(w):
        if w.isspace():
            return w
        return near.get(w) or became.get(w, w)
    text = "".join(one(w) for w in y)
    # projections are written tight
    text = re.sub(r"(?<=[\w')]) \.(?=[a-z0-9])(?!\.)", ".", text) if re.search(r"\w\.[a-z0-9]", got) or " ." in old else text
    lead = got[: len(got) - len(got.lstrip())]
    return lead + text.lstrip() if lead else text


def main():
    landed = sys.argv[1]
    names = own_names()
    for path in sources():
        text = read(path)
        here = {n: new for n, new in names.items() if n not in DASHED or path.endswith(".antt") and (n != "a_test" or path.startswith("crates/node/"))}
        got = turn(text, here)
        if got != text:
            write(path, got)
    for crate in sorted(os.listdir("crates")):
        subprocess.run(["rt", "fmt"], cwd=f"crates/{crate}", stdout=subprocess.DEVNULL)
    before = old_files(landed)
    cache, counts = {}, collections.Counter()
    for path, text in before.items():
        if not path.endswith(".edit") and os.path.exists(path):
            cache[path] = laid_beside(text, read(path))
            counts += cache[path][3]
    became = {}
    for (w, v), n in sorted(counts.items(), key=lambda x: x[1]):
        became[w] = v
    left = 0
    for path in sorted(p for p in before if p.endswith(".edit")):
        got, missed = turned_edit(path, before[path], before, became, cache)
        write(path, got)
        for m in missed:
            print(f"left: {path}: {m}")
            left += 1
    print(f"port_names: {len(names)} names; {left} texts of edits left by hand")
    # pages: names between backticks
    pages = ["README.md", "tests/README.md", "include/muruapy.h"] + glob.glob("docs/**/*.md", recursive=True)
    whole = {w: v for w, v in became.items() if w != v and re.search(r"[a-z]", w) and re.search(r"[A-Z_-]", w) and not w.startswith("_")}
    for path in pages:
        text = read(path)
        got = re.sub(r"`[^`\n]+`", lambda m: turn(m[0], whole), text)
        if got != text:
            write(path, got)


if __name__ == "__main__":
    main()
