#!/usr/bin/env python3
"""Brings this repository's own definitions and lemmas to today's spelling: words in snake case, a dash only between two names.

usage: tools/respell.py [--check]     at the top of the repository, once, after /opt/rattle/port/port.py

Names of src/, exported C names, strings, inputs and outputs stay. A name that would fall together with another that is
declared here gets `_lem`, where it is a lemma's; what is left of these is shown on a line that begins 'together:'.
"""

import collections
import os
import re
import sys

WORD = re.compile(r'[^\s(){}.;,@"«»`|/]+')
DEFINED = re.compile(r"^(?:abbrev |pub |unfoldable )*(?:abbrev|unfoldable) (?:pub )?([^\s(){}.;,@\"«»:]+) :(?= |$)", re.M)
HEAD = re.compile(r"^\s*(?:abbrev |pub |unfoldable )*([^\s(){}.;,@\"«»:]+) :(?= |$)", re.M)
TYPE = re.compile(r"^\s*(?:pub )?(?:record|data) ([^\s(){}.;,@\"«»:]+)", re.M)
BINDER = re.compile(r"[({]((?:[^\s(){}.;,@\"«»:]+ )+):")
WALKS = ("Proof.antt", "Answers.antt", "Invariants.antt")
# Words that are names of std's, between which a dash stays.
STD = set("sum map length append add mul sub drop take set min max reverse".split())


def files(*endings):
    for top in ("crates", "docs", "README.md", "tests", "tools", "bench", "examples", "man", "include"):
        if os.path.isfile(top):
            yield top
        for folder, names, found in os.walk(top):
            names[:] = sorted(n for n in names if n not in ("out", "data"))
            for f in sorted(found):
                if f.endswith(endings) and not f.endswith("respell.py"):
                    yield os.path.join(folder, f)


def bare(text):
    return re.sub(r"(?m)(?<!\S)--[^\n]*", "", text)


def snake(word):
    word = re.sub(r"([a-z0-9])([A-Z])(?![A-Z])", lambda m: m.group(1) + "_" + m.group(2).lower(), word)
    return re.sub(r"([a-z0-9])([A-Z]+)(?=$|[-_'])", lambda m: m.group(1) + "_" + m.group(2).lower(), word)


def lemma(name, definitions):
    parts = name.split("-")
    out = parts[0]
    for left, right in zip(parts, parts[1:]):
        keep = left[:1].isupper() or right[:1].isupper() or (left in definitions and right in definitions)
        out += ("-" if keep else "_") + right
    return out


def table():
    declared, types, definitions, taken = set(), set(), set(STD), set()
    for f in files(".antt"):
        text = bare(open(f, encoding="utf-8").read())
        taken |= set(WORD.findall(text))
        if os.path.basename(f) in WALKS:
            continue
        declared |= set(HEAD.findall(text))
        types |= set(TYPE.findall(text))
        definitions |= {snake(name) for name in DEFINED.findall(text) if name[:1].islower() and "-" not in name}
        for m in BINDER.finditer(text):
            declared |= {w for w in m.group(1).split() if re.search(r"[a-z0-9][A-Z]", w)}
    rows = {}
    for name in sorted(declared):
        if not name[:1].isalpha() or (name[:1].isupper() and "-" not in name):
            continue
        new = snake(name) if name[:1].islower() else name
        if "-" in new:
            new = lemma(new, definitions)
        if new != name:
            rows[name] = new
    apart(rows, declared, taken)
    return rows, {rows.get(name, name) for name in declared}, taken


def apart(rows, declared, taken):
    """A lemma that would have the name of what it is about, or of anything else here, gets `_lem`."""
    back = collections.defaultdict(set)
    for name in taken:
        back[rows.get(name, name)].add(name)
    for new, olds in back.items():
        for name in sorted(olds if len(olds) > 1 else ()):
            claimed = any("-" not in other and other != new for other in olds)
            if "-" in name or (name == new and claimed and name in declared):
                rows[name] = new + "_lem"
    back = collections.defaultdict(set)
    for name in taken:
        back[rows.get(name, name)].add(name)
    for new, olds in sorted(back.items()):
        if len({name for name in olds if name in declared}) > 1:
            print("together:", new, "<-", ", ".join(sorted(olds)))


IMPORT = re.compile(r"^\s*(?:pub |ghost )*use ([^\s{};]+)\.\{([^}]*)\}", re.M)


def here(text, rows):
    """The table without what this file takes from std."""
    own = tuple("Rattle." + name + "." for name in os.listdir("crates"))
    std = set()
    for path, names in IMPORT.findall(text):
        if not path.startswith(own):
            std |= {word for item in names.split(",") for word in item.split(" as ")[:1] for word in word.split()}
    return {old: new for old, new in rows.items() if old not in std}


def turn(text, rows):
    return WORD.sub(lambda m: rows.get(m.group(0), m.group(0)), text)


def turn_rt(text, rows):
    # Clauses and `ghost use` items only: no expression of the code has a word of the table.
    quiet = re.compile(r'//[^\n]*|"(?:[^"\\\n]|\\.)*"|' + WORD.pattern)

    def one(m):
        word = m.group(0)
        if word.startswith('"'):
            return word
        if word.startswith("//"):
            return re.sub(r"`[^`\n]+`", lambda s: turn(s.group(0), rows), word)
        return rows.get(word, word)

    return quiet.sub(one, text)


def turn_antt(text, rows):
    def line(l):
        m = re.search(r"(?<!\S)--", l)
        if not m:
            return turn(l, rows)
        rest = re.sub(r"`[^`\n]+`", lambda s: turn(s.group(0), rows), l[m.start():])
        rest = re.sub(r"[\w]+(?:-[\w]+)+|[a-z]+[A-Z]\w*", lambda s: rows.get(s.group(0), s.group(0)), rest)
        return turn(l[: m.start()], rows) + rest

    return "\n".join(line(l) for l in text.split("\n"))


def turn_page(text, rows, now, taken):
    # port.py turned no page: a name that it respelled is one that nothing has any more.
    def one(m):
        word = m.group(0)
        new = snake(word).replace("-", "_")
        return rows.get(word) or (new if word not in taken and new != word and new in now else word)

    return re.sub(r"(?s)```.*?```|`[^`\n]+`", lambda s: WORD.sub(one, s.group(0)), text)


def main():
    rows, now, taken = table()
    dry = "--check" in sys.argv
    if dry:
        for old, new in rows.items():
            print(old, new)
    for f in files(".antt", ".rt", ".edit", ".md"):
        text = open(f, encoding="utf-8").read()
        if f.endswith(".antt"):
            new = turn_antt(text, here(text, rows))
        elif f.endswith(".rt"):
            new = turn_rt(text, here(text, rows))
        elif f.endswith(".edit"):
            new = turn(text, rows)
        else:
            new = turn_page(text, rows, now, taken)
        if new != text and not dry:
            with open(f, "w", encoding="utf-8") as out:
                out.write(new)


main()
