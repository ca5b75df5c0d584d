#!/usr/bin/env python3
"""Respells this repository's own definitions and lemmas as today's Rattle spells them.

usage: python3 tools/respell.py [ROOT]      (default: the current folder)

Run once, after port.py. Words go in snake case; a dash stays only between two names that are
definitions themselves. Types, modules, names of src/ and names of std keep their spelling, and so
does a name that would fall together with another one. Prints each name that it turned.
"""
import os
import re
import sys

TOKEN = re.compile(r"[A-Za-z_κ][A-Za-z0-9_'₀-₉κ]*(?:-[A-Za-z0-9_'₀-₉+*≤<≡]+)*")
HEAD = re.compile(
    r"^(\s*)((?:abbrev |unfoldable |pub |record |data )*)([A-Za-z][^\s:(){}.]*)(?=(?:\s+\([^)]*\)|\s+\{[^}]*\})*\s*:\s)",
    re.M,
)


def antt_files(root):
    for folder, dirs, files in os.walk(os.path.join(root, "crates")):
        dirs[:] = sorted(d for d in dirs if d != "out")
        for name in sorted(files):
            if name.endswith(".antt"):
                yield os.path.join(folder, name)


def read(path):
    with open(path, encoding="utf-8") as f:
        return f.read()


def in_walk(path):
    """A file of one function's proof: its names are the check's own, and are turned with the file."""
    parts = path.split(os.sep)
    return "proofs" in parts and parts[-2] != "proofs"


def defined(root):
    """The names that specs/ and lemma files define, and those that some file takes from std."""
    own, others, every = set(), set(), set()
    crates = set(os.listdir(os.path.join(root, "crates")))
    for path in antt_files(root):
        text = read(path)
        code = re.sub(r"--.*", "", text)
        bare = re.sub(r"\buse [\w.+\-]+|\.[\w'\-]+", " ", code)
        every |= set(TOKEN.findall(bare))
        for m in re.finditer(r"^\s*use ([\w.+\-]+)\.\{([^}]*)\}", code, re.M):
            module = m.group(1)
            names = re.findall(r"[^\s,{}]+", m.group(2))
            owner = re.match(r"Rattle\.(\w+)\.", module + ".")
            if not owner or owner.group(1) not in crates or ".declared" in module or ".contracts" in module:
                others |= set(names)
        if in_walk(path):
            continue
        for m in HEAD.finditer(code):
            own.add(m.group(3))
        for m in re.finditer(r"^\s*pub ([a-z][A-Za-z0-9'\-]*)\s*:", code, re.M):
            own.add(m.group(1))
    return own, others, every


def snake(word):
    word = re.sub(r"([a-z0-9])([A-Z])", r"\1_\2", word)
    return word.lower() if word[0].islower() else word


def respelled(name, names):
    parts = name.split("-")
    turned = [snake(p) if p and p[0].islower() else p for p in parts]
    out = turned[0]
    for i in range(1, len(parts)):
        left, right = "-".join(parts[:i]), "-".join(parts[i:])
        joins = (parts[i - 1] in names or left in names) and (parts[i] in names or right in names)
        joins = joins or not parts[i] or not (parts[i][0].isalpha() and parts[i - 1][0].isalpha())
        joins = joins or parts[i][0].isupper() or parts[i - 1][0].isupper()
        out += ("-" if joins else "_") + turned[i]
    return out


# Definitions whose word in snake case is a field of src/ or a lemma beside them.
OTHERWISE = {
    "asMany": "as_many_as",
    "foundFirst": "found_at_first",
    "goesOn": "goes_on_with",
    "inOrder": "in_order_of",
    "isAlignment": "is_alignment_lem",
    "itemsAt": "items_there",
    "laidOut": "laid_out_from",
    "noKind": "no_such_kind",
    "sizeFits": "size_within",
    "startFits": "start_within",
}

STD = {"length", "take", "drop", "map", "append", "set", "get_or", "replicate", "reverse", "sum", "cons", "nil",
       "zero", "suc", "eqb", "leb", "ltb", "not", "cond", "subst", "ap", "min", "max"}


def table(root):
    own, others, every = defined(root)
    definitions = {n for n in own if "-" not in n} | STD
    turned = {}
    for name in sorted(own):
        if name in others or not name[0].islower():
            continue
        new = OTHERWISE.get(name) or respelled(name, definitions)
        if new != name:
            turned[name] = new
    taken = {}
    for name, new in list(turned.items()):
        taken.setdefault(new, []).append(name)
    named = source_names(root)
    for new, names in taken.items():
        if new in every or new in named:
            print(f"kept: {', '.join(names)}: {new} is taken")
        elif len(names) > 1:
            # two names of one word: the definition takes it, and the lemma keeps its dash
            names = [n for n in names if "-" in n]
            print(f"kept: {', '.join(names)}: {new} is another's")
        else:
            continue
        for name in names:
            del turned[name]
    return turned


def source_names(root):
    """Parameters, fields and constants of src/: a clause that names one may not mean a definition."""
    found = set()
    for folder, dirs, files in os.walk(os.path.join(root, "crates")):
        for name in files:
            if name.endswith(".rt") and "/out" not in folder:
                found |= set(re.findall(r"\b([a-z_]\w*)\s*: ", read(os.path.join(folder, name))))
    return found


def fields(root):
    """Names that are fields of the repository's own records: these are turned behind a dot too."""
    found = set()
    for path in antt_files(root):
        if in_walk(path):
            continue
        inside = False
        for line in read(path).split("\n"):
            if re.match(r"\s*(pub )?record ", line):
                inside = True
            elif inside and re.match(r"\S", line):
                inside = False
            m = re.match(r"\s+(?:pub )?([a-z][^\s:]*)\s*:", line)
            if inside and m:
                found.add(m.group(1))
    return found


def turn(text, turned, dotted):
    def one(m):
        word, at = m.group(0), m.start()
        if word not in turned:
            return word
        before = text[at - 1] if at else " "
        if before == "." and word not in dotted:
            # behind a dot: a name of a module, as `format.latest`, or a generated field
            back = re.search(r"([A-Za-z_][\w'\-]*)\.$", text[:at])
            if not back or back.group(1) not in MODULES(text):
                return word
        return turned[word]

    return TOKEN.sub(one, text)


def MODULES(text):
    """The names under which a file brings in modules whole."""
    found = set(re.findall(r"use [\w.+\-]+ as ([\w\-]+)", text))
    found |= set(re.findall(r"use [\w.+\-]*?([A-Za-z][\w]*);?\s*$", text, re.M))
    return found


def clauses(text):
    """The parts of a source that contracts are written in."""
    for m in re.finditer(r"^ghost use .*?;|^\s*(?:requires|ensures|ghost)\b[^{\n]*\{", text, re.M | re.S):
        if m.group(0).lstrip().startswith("ghost use"):
            yield m.start(), m.end()
            continue
        depth, i = 1, m.end()
        while depth and i < len(text):
            depth += {"{": 1, "}": -1}.get(text[i], 0)
            i += 1
        yield m.start(), i


def main():
    root = sys.argv[1] if len(sys.argv) > 1 else "."
    turned, dotted = table(root), fields(root)
    for name, new in sorted(turned.items()):
        print(f"{name} -> {new}")
    for path in antt_files(root):
        text = read(path)
        new = turn(text, turned, dotted)
        if new != text:
            with open(path, "w", encoding="utf-8") as f:
                f.write(new)
    for folder, dirs, files in os.walk(os.path.join(root, "crates")):
        dirs[:] = [d for d in dirs if d != "out"]
        for name in files:
            if not name.endswith(".rt"):
                continue
            path = os.path.join(folder, name)
            text = read(path)
            new, last = "", 0
            modules = MODULES(text)
            for start, end in clauses(text):
                part = text[start:end]
                part = TOKEN.sub(
                    lambda m: turned.get(m.group(0), m.group(0))
                    if m.start() == 0 or part[m.start() - 1] != "." or m.group(0) in dotted
                    or (re.search(r"([A-Za-z_][\w'\-]*)\.$", part[: m.start()]) or [0, ""])[1] in modules
                    else m.group(0),
                    part,
                )
                new += text[last:start] + part
                last = end
            new += text[last:]
            if new != text:
                with open(path, "w", encoding="utf-8") as f:
                    f.write(new)


if __name__ == "__main__":
    main()
