#!/usr/bin/env python3
"""Respells the repository's own definitions and lemmas, once, after the kit's own script.

Facts and types are in upper camel case, everything else in snake case. A dash stays only where it joins the names of two
definitions, as in `length-drafted`; a plain word is added with an underscore. Where two names would fall together, the
lemma among them gets `_lem`. Names of goals (typed `goal.NAME`) and functions of src/ keep theirs.

usage: python3 tools/respell.py [--list]      at the top of the repository
"""
import glob
import re
import sys

# Words of the library that lemmas are named after.
LIBRARY = {"length", "take", "drop", "map", "set", "get_or", "append", "replicate", "filter", "count_by", "cons", "cond"}
WORD = r"[\w'-]"
DEFINITION = re.compile(r"^(?:  )?((?:(?:abbrev|unfoldable|pub|record|data|ruleset) )*)([^\s:(){}]+) ?((?:\(|\{|:).*)$")
NOT_NAMES = {"use", "module", "elim", "let", "pub", "open", "mod", "in", "where"}


def antt_files():
    return sorted(glob.glob("crates/*/specs/**/*.antt", recursive=True) + glob.glob("crates/*/proofs/**/*.antt", recursive=True))


def defined():
    """Each name with the crates and files that define it; the names of goals apart."""
    names, goals = {}, set()
    for path in antt_files():
        for line in open(path, encoding="utf8"):
            found = DEFINITION.match(line.rstrip("\n"))
            if not found or found.group(2) in NOT_NAMES:
                continue
            name, rest = found.group(2), found.group(3)
            if re.search(r"\bgoal\.", rest):
                goals.add(name)
            else:
                names.setdefault(name, set()).add(path)
    return names, goals


def snake(part):
    part = re.sub(r"(?<=[a-z])(?=[A-Z])", "_", part)
    return part.lower() if part[:1].islower() or part[:1].isdigit() else part


def respelt(name, known):
    parts = name.split("-")
    if name[0].isupper() and len(parts) > 1 and snake(parts[0]) not in known and parts[0] not in known:
        return "".join(p[:1].upper() + p[1:] for p in parts)
    parts = [snake(p) if p[:1].islower() or p[:1].isdigit() else p for p in parts]
    new = parts[0]
    for before, part in zip(parts, parts[1:]):
        joins = before in known and part in known and (before in LIBRARY or part in LIBRARY)
        operator = not part[:1].isalnum()
        new += ("-" if joins or operator or before[:1].isupper() else "_") + part
    return new


def renaming():
    names, goals = defined()
    known = LIBRARY | {snake(n) for n in names if "-" not in n}
    new = {n: respelt(n, known) for n in names if n not in goals}
    taken = {}
    for name in sorted(new, key=lambda n: ("-" in n, n)):
        if taken.get(new[name], name) != name:
            new[name] += "_lem"
        taken[new[name]] = name
    # Local names in camel case, wherever they stand.
    for path in antt_files():
        for token in re.findall(r"(?<!%s)[a-z][a-z0-9_]*[A-Z]\w*(?!%s)" % (WORD, WORD), open(path, encoding="utf8").read()):
            if token not in goals:
                new.setdefault(token, snake(token))
    return {old: n for old, n in new.items() if old != n}


def main():
    new = renaming()
    if "--list" in sys.argv:
        for old in sorted(new):
            print(old, new[old])
        return
    pattern = re.compile(r"(?<!%s)(%s)(?!%s)" % (WORD, "|".join(sorted(map(re.escape, new), key=len, reverse=True)), WORD))
    replace = lambda text: pattern.sub(lambda m: new[m.group(1)], text)
    sources = glob.glob("crates/*/src/**/*.rt", recursive=True) + glob.glob("crates/*/must-fail/*.edit")
    for path in antt_files() + sorted(sources):
        old = open(path, encoding="utf8").read()
        if path.endswith(".antt"):
            text = replace(old)
        else:
            # Strings keep what they say.
            text = "".join(p if p.startswith('"') else replace(p) for p in re.split(r'("(?:[^"\\\n]|\\.)*")', old))
        if text != old:
            open(path, "w", encoding="utf8").write(text)
    for path in ["README.md"] + sorted(glob.glob("docs/*.md")):
        old = open(path, encoding="utf8").read()
        text = re.sub(r"`[^`\n]+`", lambda m: replace(m.group(0)), old)
        if text != old:
            open(path, "w", encoding="utf8").write(text)


main()
