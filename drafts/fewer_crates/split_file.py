#!/usr/bin/env python3
"""Splits a file of lemmas or definitions: what stands from a line on goes to a file of its own, and who names it names that file.

usage: split_file.py TOP CRATE specs|proofs OLD LINE NEW [FIRST LINE OF COMMENT]
"""
import os
import re
import sys

top, crate, part, old, line, new = sys.argv[1:7]
comment = sys.argv[7] if len(sys.argv) > 7 else None
base = os.path.join(top, "crates", crate, part)
path = os.path.join(base, old + ".antt")
text = open(path, encoding="utf-8").read().rstrip("\n")
lines = text.split("\n")
at = int(line) - 1
while at > 0 and (lines[at - 1].startswith("-- ") and lines[at - 1] != ""):
    at -= 1
last_use = max(i for i, l in enumerate(lines) if re.match(r"(pub )?use ", l))
head = [l for l in lines[: last_use + 1]]
first_head = next(i for i, l in enumerate(head) if re.match(r"(pub )?use ", l))
lead, uses = head[:first_head], head[first_head:]
one = lines[last_use + 1: at]
two = lines[at:]
NAME = r"[^\s:(){}]+"


def declared(block):
    """The names that are declared, at the beginning of a line or in a module without a name, with whether they are pub."""
    found, inside = {}, False
    for l in block:
        if l and not l.startswith(" "):
            inside = l.startswith("module _")
        if l.startswith(("--", "use ", "pub use ", "module ")):
            continue
        body = l[2:] if inside and l.startswith("  ") else l
        if body.startswith((" ", "--")):
            continue
        m = re.match(r"((?:(?:pub|abbrev|data|record) )*)(" + NAME + r") (?::|\(|\{)", body) or \
            re.match(r"((?:(?:pub|abbrev|data|record) )+)(" + NAME + r")", body)
        if m and (":" in l or m[1]):
            found.setdefault(m[2], "pub" in m[1].split())
    return found


def constructors(block):
    found, inside = set(), False
    for l in block:
        if re.match(r"(pub )?(abbrev )?data ", l):
            inside = True
            continue
        if inside:
            m = re.match(r"  (" + NAME + r") :", l)
            if m:
                found.add(m[1])
            elif l and not l.startswith(" "):
                inside = False
    return found


def uses_name(name, block):
    body = "\n".join(l for l in block if not l.startswith("--"))
    if "◌" in name:
        pieces = [p for p in name.split("◌") if p]
        return all(p in body for p in pieces)
    return re.search(r"(?<![\w.'≢≡-])" + re.escape(name) + r"(?![\w'-])", body) is not None


def kept_uses(block):
    out = []
    for use in uses:
        m = re.match(r"((?:pub )?use )([^{]*)\.\{(.*)\}$", use)
        if not m:
            alias = re.search(r" as (\S+)$", use)
            word = alias[1] if alias else use.split(".")[-1]
            if uses_name(word, block) or any(re.search(rf"\b{re.escape(word)}\.", l) for l in block):
                out.append(use)
            continue
        names = split_names(m[3])
        kept = [n for n in names if uses_name(n.split(" as ")[-1], block)]
        if kept:
            out.append(f"{m[1]}{m[2]}.{{{', '.join(kept)}}}")
    return out


def split_names(inside):
    """Names between braces; an operator may have a comma in none."""
    return [n.strip() for n in re.split(r", (?![^\[\]]*\])", inside) if n.strip()]


mine = declared(one)
mine_all = {**mine, **{c: True for c in constructors(one)}}
theirs = {**declared(two), **{c: True for c in constructors(two)}}
needed = [n for n in mine_all if uses_name(n, two)]
for n in needed:
    if n in mine and not mine[n]:
        for i, l in enumerate(one):
            if re.match(r"(  )?" + re.escape(n) + r" :", l):
                one[i] = re.sub(r"^(  )?", lambda m: (m[1] or "") + "pub ", l)
                break
            if re.match(r"(  )?(abbrev|data|record) " + re.escape(n) + r"(?!\w)", l):
                one[i] = re.sub(r"^(  )?(abbrev|data|record) ",
                                lambda m: (m[1] or "") + ("abbrev pub " if m[2] == "abbrev" else f"pub {m[2]} "), l)
                break
back = [n for n in theirs if n not in mine_all and uses_name(n, one)]
if back:
    print(f"{crate}/{old}: the first part names of the second: {back[:6]}")


def lay_out(source, names):
    out, row = [], ""
    for n in names:
        trial = f"use {source}.{{{(row + ', ' if row else '') + n}}}"
        if len(trial) > 118 and row:
            out.append(f"use {source}.{{{row}}}")
            row = n
        else:
            row = (row + ", " if row else "") + n
    if row:
        out.append(f"use {source}.{{{row}}}")
    return out


own = lay_out(f"Rattle.{crate}.{part}.{old}", needed)
title = [comment] if comment else ([two[0]] if two and two[0].startswith("-- ") and (len(two) < 2 or two[1] == "") else [])
body = two[2:] if title and not comment else two
open(path, "w", encoding="utf-8").write("\n".join(lead + kept_uses(one) + one).rstrip("\n") + "\n")
open(os.path.join(base, new + ".antt"), "w", encoding="utf-8").write("\n".join(title + kept_uses(two) + own + [""] + body).rstrip("\n") + "\n")
lib = os.path.join(base, "Lib.antt")
t = open(lib, encoding="utf-8").read()
t = re.sub(rf"^((?:pub )?mod) {old}\n", rf"\1 {old}\n\1 {new}\n", t, flags=re.M)
open(lib, "w", encoding="utf-8").write(t)
prefix = f"Rattle.{crate}.{part}.{old}"
for where in ("crates", "plants"):
    for folder, dirs, names in os.walk(os.path.join(top, where)):
        dirs[:] = [d for d in dirs if d != "out"]
        for name in names:
            if not name.endswith((".rt", ".antt", ".edit")):
                continue
            file = os.path.join(folder, name)
            if file == os.path.join(base, new + ".antt"):
                continue
            s = open(file, encoding="utf-8").read()
            if prefix + "." not in s and f"{part}::{old}::" not in s:
                continue

            def move(m):
                stay = [n for n in split_names(m[2]) if n.split(" as ")[0] not in theirs]
                go = [n for n in split_names(m[2]) if n.split(" as ")[0] in theirs]
                out = []
                if stay:
                    out.append(f"{m[1]}{prefix}.{{{', '.join(stay)}}}{m[3]}")
                if go:
                    out.append(f"{m[1]}Rattle.{crate}.{part}.{new}.{{{', '.join(go)}}}{m[3]}")
                return "\n".join(out)
            s2 = re.sub(rf"^((?:pub |ghost )?use ){re.escape(prefix)}\.\{{([^}}]*)\}}(;?)$", move, s, flags=re.M)
            s2 = re.sub(rf"\b{part}::{old}::(\w+)", lambda m: f"{part}::{new if m[1] in theirs else old}::{m[1]}", s2)
            if s2 != s:
                open(file, "w", encoding="utf-8").write(s2)
print(f"{crate}/{part}/{old}: {len(open(path, encoding='utf-8').read().splitlines())}, {new}: {len(open(os.path.join(base, new + '.antt'), encoding='utf-8').read().splitlines())}")
