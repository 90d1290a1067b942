#!/usr/bin/env python3
"""Brings the names of definitions and lemmas to today's spelling, once, after port.py.

A name in camel case becomes snake case. A dash stays where it joins a lemma's definition to what the lemma says of it,
as in view-clock; every other dash becomes an underscore. Names from Rust source, of types and of modules stay, and so do
must-fail edits, which are brought over by hand. Run it at the top of the repository: python3 tools/respell.py
"""
import glob
import re
import sys

TOKEN = re.compile(r"[A-Za-zΑ-Ωα-ω_][\w'′₀-₉]*(?:-[\w'′₀-₉]+)*")
DEFINED = re.compile(r"(?m)^\s*(?:unfoldable |abbrev |pub )*([A-Za-z][\w'₀-₉]*(?:-[\w'₀-₉]+)*)\s*:(?!\S)")
# names that would fall together with a definition's
OVER = {"may-enter": "may_enter_lem", "sent-getD": "sent-get_or", "LF": "lf"}
# a lemma whose name would be that of the definition which it speaks of
IN_CRATE = {"exclusion": {"own_first": "own_first_lem"}}
# words of std or of the logic that lemmas are about
KNOWN = {"ltb", "append", "length", "cond", "upTo"}


def snake(name):
    return re.sub(r"(?<=[a-z0-9])([A-Z])", lambda m: "_" + m.group(1).lower(), name)


def bare(text):
    return re.sub(r"--.*", "", text)


def main():
    specs = sorted(glob.glob("crates/*/specs/*.antt"))
    lemmas = sorted(glob.glob("crates/*/proofs/*.antt"))
    in_specs, in_lemmas = set(), set()
    for f in specs:
        in_specs |= set(DEFINED.findall(bare(open(f, encoding="utf-8").read())))
    for f in lemmas:
        in_lemmas |= set(DEFINED.findall(bare(open(f, encoding="utf-8").read())))
    words = {n for n in in_specs | in_lemmas if "-" not in n} | KNOWN
    turned = {}
    for name in sorted(in_specs | in_lemmas):
        if name in OVER:
            turned[name] = OVER[name]
            continue
        if name[0].isupper():
            continue
        parts = name.split("-")
        if name in in_specs or parts[0] not in words or len(parts) == 1:
            new = "_".join(snake(p) for p in parts)
        else:
            new = snake(parts[0]) + "-" + "_".join(snake(p) for p in parts[1:])
        if new != name:
            turned[name] = new

    bad = 0
    for f in sorted(glob.glob("crates/*/**/*.antt", recursive=True) + glob.glob("crates/*/src/**/*.rt", recursive=True)):
        if "/out/" in f:
            continue
        text = open(f, encoding="utf-8").read()
        aliases = {a: snake(a) for a in re.findall(r"\bas ([a-z]\w*[A-Z]\w*)", text)} if f.endswith(".rt") else {}
        turned_here = turned | IN_CRATE.get(f.split("/")[1], {})
        seen = {}
        for name in set(TOKEN.findall(bare(text))):
            new = turned_here.get(name, aliases.get(name, name))
            seen.setdefault(new, set()).add(name)
        for new, olds in seen.items():
            if len(olds) > 1 and f.endswith(".antt"):
                print(f"fall together in {f}: {sorted(olds)} -> {new}")
                bad += 1
        if f.endswith(".rt"):
            out = turn_source(text, turned, aliases)
        else:
            out = TOKEN.sub(lambda m: turned_here.get(m.group(0), m.group(0)), text)
        if "--dry" not in sys.argv and out != text:
            open(f, "w", encoding="utf-8").write(out)
    for name, new in turned.items():
        print(f"{name} -> {new}")
    return 1 if bad else 0


def turn_source(text, turned, aliases):
    """In a source file only imports, clauses and comments name definitions."""
    out = []
    for line in text.split("\n"):
        if re.match(r"\s*(ghost use|requires|ensures)\b", line):
            line = TOKEN.sub(lambda m: turned.get(m.group(0), aliases.get(m.group(0), m.group(0))), line)
        elif re.match(r"\s*//", line):
            line = TOKEN.sub(lambda m: turned[m.group(0)] if "-" in m.group(0) and m.group(0) in turned else m.group(0), line)
        out.append(line)
    return "\n".join(out)


sys.exit(main())
