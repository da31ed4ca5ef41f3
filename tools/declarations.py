#!/usr/bin/env python3
"""Lays the declarations of two checkouts side by side, wherever they stand in specs/ or proofs/ of their crate.

usage: tools/declarations.py OLD NEW [--moved]

A declaration of OLD is the same in NEW if signature and body are word for word alike (but for `pub` and `unfoldable`), 'BODY' if only the
signature is, 'SIG' if the signature differs too, 'GONE' if none has its name. --moved lists instead, by module, what went from specs/ to proofs/.
"""

import collections
import os
import re
import sys

CRATES = {"csv": "padlist"}
WALKS = ("Proof.antt", "Answers.antt", "Invariants.antt")
NAME = r'[^\s(){}.;,@"«»:]+'
HEAD = re.compile(rf"^(\s*)(?:abbrev |pub |unfoldable )*({NAME})(?: \{{[^}}]*\}})? :(?= |$)")
TYPE = re.compile(rf"^(\s*)(?:pub )?(?:record|data|ruleset) ({NAME})")


def declarations(root, crate):
    """By name: (file, lines)."""
    found = collections.defaultdict(list)
    for side in ("specs", "proofs"):
        for folder, below, files in os.walk(os.path.join(root, "crates", crate, side)):
            below[:] = sorted(it for it in below if it != "out")
            for f in sorted(files):
                if f.endswith(".antt") and f not in WALKS:
                    read(os.path.join(folder, f), root, found)
    return found


def read(path, root, found):
    with open(path, encoding="utf-8") as f:
        text = re.sub(r"(?m)(?<!\S)--[^\n]*", "", f.read())
    name, indent = None, 0
    for line in text.split("\n"):
        m = HEAD.match(line) or TYPE.match(line)
        if m and (name is None or len(m.group(1)) <= indent):
            name, indent = m.group(2), len(m.group(1))
            found[name].append((os.path.relpath(path, root), [line]))
        elif line.strip().startswith("module"):
            name = None
        elif re.match(r"(pub )?(use|mod) ", line.strip()):
            pass
        elif name and line.strip():
            found[name][-1][1].append(line)


def words(lines):
    return re.sub(r"\b(pub|unfoldable) ", "", " ".join(" ".join(lines).split()))


def signature(name, lines):
    kept = lines[:1]
    for line in lines[1:]:
        if re.match(rf"\s*(unfolding|{re.escape(name)})(\s|$)", line):
            break
        kept.append(line)
    return words(kept)


def main(old, new, moved):
    counts = collections.Counter()
    for crate in sorted(os.listdir(os.path.join(old, "crates"))):
        before, after = declarations(old, crate), declarations(new, CRATES.get(crate, crate))
        homes = collections.defaultdict(list)
        for name, places in before.items():
            there = after.get(name, [])
            for file, lines in places:
                now = [f for f, _ in there if f.split("/")[2] == "proofs"]
                if file.split("/")[2] == "specs" and now and not any(f.split("/")[2] == "specs" for f, _ in there):
                    homes[now[0]].append(name)
                kind = "GONE"
                if words(lines) in [words(it) for _, it in there]:
                    kind = "same"
                elif signature(name, lines) in [signature(name, it) for _, it in there]:
                    kind = "BODY"
                elif there:
                    kind = "SIG"
                counts[kind] += 1
                if kind != "same" and not moved:
                    print(kind, crate, name, file)
                if kind == "SIG" and not moved:
                    print("    -", signature(name, lines))
                    print("    +", signature(name, there[0][1]))
        for home in sorted(homes) if moved else ():
            print(f"- `{home}`: " + ", ".join(f"`{name}`" for name in homes[home]))
    if not moved:
        print(", ".join(f"{counts[kind]} {kind}" for kind in ("same", "BODY", "SIG", "GONE")))


if len(sys.argv) < 3:
    sys.exit(__doc__)
main(sys.argv[1], sys.argv[2], "--moved" in sys.argv)
