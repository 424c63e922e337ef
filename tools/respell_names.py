#!/usr/bin/env python3
"""Brings the repository's own names of antt to today's spelling: snake case, and a dash only between the names of functions.

usage: tools/respell_names.py            at the top of the repository, once, after port.py
       tools/respell_names.py --list     prints the names that would change, old and new, and changes nothing

A name is the repository's own where a file of crates/*/specs or crates/*/proofs declares it. It is changed wherever it stands as a whole word in an .antt file, in a
clause, a ghost item or a comment of an .rt file, in a must-fail edit, and between backticks in a page. Functions of src/, exported names and strings stay.
"""
import glob
import os
import re
import sys

# lemmas that are written as definitions give way to the function of their name; facts that are words of prose too are left to the hand
OWN_WAY = {"last-three": "last_three_lem", "triangle-before": "triangle_before_lem", "few": "few", "bit": "bit",
           "number-of-bits": "number_of_bits", "numbers-of-cells": "numbers_of_cells"}
STD = {"length", "take", "drop", "append", "map", "replicate", "sum", "get_or", "set", "zero", "nil", "suc", "add", "sub", "mul", "pow", "div", "mod",
       "cons", "reverse", "min", "max", "eqb", "leb", "ltb", "fold", "flat_map"}
DECLARED = re.compile(r"^(\s*)((?:pub |abbrev |unfoldable )*)([a-zA-Z][^\s:(){}.;,]*) : ")
WORD = re.compile(r"[^\s(){}\[\].;,:⌜⌝\"`«»|]+")


def read(path):
    with open(path, encoding="utf-8") as f:
        return f.read()


def files(*patterns):
    return sorted({p for q in patterns for p in glob.glob(q, recursive=True) if os.path.isfile(p) and "/out/" not in p})


def declared():
    """Own names, each with a file that declares it, and those of them that are functions and no lemmas."""
    own, functions = {}, set()
    for path in files("crates/*/specs/**/*.antt", "crates/*/proofs/**/*.antt"):
        walk = os.path.basename(path) == "Proof.antt"
        for line in read(path).split("\n"):
            m = DECLARED.match(line)
            if not m or walk and re.search(r" : (tie\.|\{M : Type 1\} → statement)", line):
                continue
            own.setdefault(m.group(3), path)
            if "abbrev" in m.group(2) or "unfoldable" in m.group(2):
                functions.add(m.group(3))
    return own, functions


def snake(name):
    return re.sub(r"(?<=[a-z0-9])([A-Z])", lambda m: "_" + m.group(1).lower(), name)


def spelled(name, functions):
    if name in OWN_WAY:
        return OWN_WAY[name]
    if name[0].isupper() and "-" not in name:
        return name
    parts = [snake(p) for p in name.split("-")]
    best = cut(parts, functions)
    return "-".join(best) if best else "_".join(parts)


def cut(parts, functions):
    """The parts as names of functions, the longest first, or nothing. A single word that is not of the library counts as a word of prose at the front."""
    for n in range(len(parts), 0, -1):
        word = "_".join(parts[:n])
        if word in functions and (word in STD or "_" in word):
            rest = rest_of(parts[n:], functions)
            if rest is not None:
                return [word] + rest
    return None


def rest_of(parts, functions):
    if not parts:
        return []
    for n in range(len(parts), 0, -1):
        word = "_".join(parts[:n])
        if word in functions:
            rest = rest_of(parts[n:], functions)
            if rest is not None:
                return [word] + rest
    return None


def from_elsewhere():
    """Names that files import from other libraries than the repository's."""
    crates = {os.path.basename(p) for p in glob.glob("crates/*")}
    out = set()
    for path in files("crates/**/*.antt", "crates/**/*.rt"):
        for m in re.finditer(r"^\s*(?:ghost )?use ([^\s;{]+)\.\{([^}]*)\}", read(path), re.M):
            at = m.group(1).split(".")
            if at[0] == "Rattle" and len(at) > 1 and at[1] in crates and ".declared" not in m.group(1):
                continue
            out |= {w.strip().split(" as ")[0] for w in m.group(2).split(",")}
    return out


def table():
    own, functions = declared()
    theirs = from_elsewhere()
    words = STD | {snake(name) for name in functions}
    out = {}
    for name in own:
        new = spelled(name, words)
        if name in theirs:
            if new != name:
                print(f"left: {name} ({own[name]}) is also a name of another library", file=sys.stderr)
        elif name not in functions and (new in theirs or new in {snake(f) for f in functions}):
            out[name] = new + "_lem"  # a lemma that would have its function's name
        else:
            out[name] = new
    met = {}
    for name in out:
        met.setdefault(out[name], set()).add(name)
    for new, olds in sorted(met.items()):
        if len(olds) > 1 or new in theirs:
            print(f"look: {' and '.join(sorted(olds))} would be {new}", file=sys.stderr)
    return {old: new for old, new in out.items() if old != new}


def turned(text, names):
    """Words of antt; in a comment only those between backticks, since prose has dashes too."""
    lines = text.split("\n")
    for i, line in enumerate(lines):
        if re.match(r"\s*(--|//)", line):
            lines[i] = turned_page(line, names)
        else:
            lines[i] = WORD.sub(lambda m: names.get(m.group(0), m.group(0)), line)
    return "\n".join(lines)


def turned_source(text, names):
    """Clauses, ghost items and comments of a source. A word of the code has no capital inside and no dash, so names that look like one are left; strings may hold any."""
    names = {old: new for old, new in names.items() if not re.fullmatch(r"[a-z0-9_]+", old)}
    return "".join(p if p.startswith('"') or p.startswith('b"') else turned(p, names) for p in re.split(r'(b?"(?:[^"\\\n]|\\.)*")', text))


def turned_page(text, names):
    return re.sub(r"`([^`\n]+)`", lambda m: "`" + WORD.sub(lambda w: names.get(w.group(0), w.group(0)), m.group(1)) + "`", text)


def turned_edit(text, names):
    out = []
    for line in text.split("\n"):
        m = re.match(r"((?:old|new): )(.*)", line)
        out.append(m.group(1) + turned_source(m.group(2), names) if m else line)
    return "\n".join(out)


def main():
    names = table()
    if sys.argv[1:] == ["--list"]:
        for old, new in sorted(names.items()):
            print(old, new)
        return
    for how, paths in [
        (turned, files("crates/**/*.antt")),
        (turned_source, files("crates/**/*.rt")),
        (turned_edit, files("crates/*/must-fail/*.edit")),
        (turned_page, files("*.md", "docs/**/*.md", "rust/*.md")),
    ]:
        for path in paths:
            text = read(path)
            new = how(text, names)
            if new != text:
                with open(path, "w", encoding="utf-8") as f:
                    f.write(new)
    print(f"{len(names)} names")


main()
