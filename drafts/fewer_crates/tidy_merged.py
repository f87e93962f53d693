#!/usr/bin/env python3
"""After merges: lib.rt of a crate laid out anew, `use` lines of one crate joined, names that a crate passes on of itself taken from where they stand.

usage: tidy_merged.py TOP CRATE
"""
import os
import re
import sys

top, crate = sys.argv[1:3]
crates = os.path.join(top, "crates")


def read(path):
    with open(path, encoding="utf-8") as file:
        return file.read()


def write(path, text):
    with open(path, "w", encoding="utf-8") as file:
        file.write(text)


def every(ends):
    for base in ("crates", "plants"):
        for folder, dirs, names in os.walk(os.path.join(top, base)):
            dirs[:] = [d for d in dirs if d != "out"]
            for name in names:
                if name.endswith(ends):
                    yield os.path.join(folder, name)


def names_of(text):
    return [name.strip() for name in text.split(",") if name.strip()]


def join_uses(text, word):
    """`use` lines of one path, joined; of code only (no ghost lines)."""
    found = {}
    pattern = re.compile(rf"^{word} ([\w:]+)::(?:\{{([^}}]*)\}}|(\w+));\n", re.M)
    for match in pattern.finditer(text):
        found.setdefault(match[1], [])
        for name in names_of(match[2]) if match[2] is not None else [match[3]]:
            if name not in found[match[1]]:
                found[match[1]].append(name)
    seen = set()

    def once(match):
        path = match[1]
        if path in seen:
            return ""
        seen.add(path)
        names = sorted(found[path])
        return f"{word} {path}::{names[0]};\n" if len(names) == 1 else f"{word} {path}::{{{', '.join(names)}}};\n"
    return pattern.sub(once, text)


def lay_out_lib():
    path = os.path.join(crates, crate, "src/lib.rt")
    text = join_uses(read(path), "pub use")
    head = [line for line in text.split("\n") if line.startswith(("//!", "#!["))]
    text = re.sub(r"^pub use crate::[^;]*;\n", "", text, flags=re.M)
    pairs = {m[0] for m in re.finditer(r"^(?:#\[cfg\(test\)\]\n)?(?:pub )?mod \w+;$", text, re.M)}
    mods = sorted(pairs, key=lambda pair: pair.split("mod ")[1])
    uses = sorted({u for u in re.findall(r"^pub use [^;]*;", text, re.M)})
    ghosts = sorted({u for u in re.findall(r"^ghost use [^;]*;", text, re.M)})
    rest = [line for line in text.split("\n") if line and line not in head and not re.match(r"#\[cfg\(test\)\]$|(pub )?mod \w+;$", line)]
    for use in uses + ghosts:
        for line in use.split("\n"):
            if line in rest:
                rest.remove(line)
    if rest:
        print(f"{path}: left as they stand: {rest[:3]}")
        return
    write(path, "\n".join(head) + "\n\n" + "".join(g + "\n" for g in ghosts) + "\n".join(mods) + "\n\n" + "\n".join(uses) + "\n")


def join_all():
    for path in every((".rt",)):
        text = read(path)
        new = join_uses(text, "use")
        if new != text:
            write(path, new)


def take_own():
    """Names that a crate passes on of its own are taken from where they stand."""
    for part in ("specs", "proofs"):
        base = os.path.join(crates, crate, part)
        for name in sorted(os.listdir(base)) if os.path.isdir(base) else []:
            if not (name.startswith("From") and name.endswith(".antt")):
                continue
            text = read(os.path.join(base, name))
            lines = re.findall(rf"^pub use (Rattle\.{crate}\.[^{{]*)\.\{{([^}}]*)\}}", text, re.M)
            others = re.findall(rf"^pub use (?!Rattle\.{crate}\.)", text, re.M)
            if not lines or others:
                continue
            stands = {n.split(" as ")[-1]: source for source, ns in lines for n in names_of(ns)}
            stem = name[:-5]
            for path in every((".rt", ".antt", ".edit")):
                old = read(path)
                if f"Rattle.{crate}.{part}.{stem}" in old:
                    write(path, spread(old, part, stem, stands))
            os.remove(os.path.join(base, name))
            lib = os.path.join(base, "Lib.antt")
            write(lib, re.sub(rf"^(pub )?mod {stem}\n", "", read(lib), flags=re.M))


def spread(text, part, stem, stands):
    def line(match):
        by = {}
        for name in names_of(match[3]):
            by.setdefault(stands[name.split(" as ")[0]], []).append(name)
        return "\n".join(f"{match[1]} {source}.{{{', '.join(ns)}}}{match[4]}" for source, ns in by.items())
    return re.sub(rf"^((?:pub |ghost )?use) (Rattle\.{crate}\.{part}\.{stem})\.\{{([^}}]*)\}}(;?)", line, text, flags=re.M)


take_own()
lay_out_lib()
join_all()
