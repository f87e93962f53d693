#!/usr/bin/env python3
"""Merges a crate into one that it stands on: its modules become modules of that crate, and every path that names it is rewritten.

usage: merge_crates.py TOP INTO FROM [KIND/OLD=NEW ..]

KIND is src, specs or proofs: a module or file whose name stands in both crates gets the name NEW, or a name with PREFIX where
`prefix=PREFIX` is given. Items that stand in FROM's lib.rt become the module that `src/lib=NEW` names. To be looked at afterwards: the head of INTO's lib.rt, `use` lines that name one
path twice (`rt fmt`, `rt tidy`), and documents.
"""
import os
import re
import shutil
import sys

top, into, old = sys.argv[1:4]
renames = {"src": {}, "specs": {}, "proofs": {}}
prefix = next((word[7:] for word in sys.argv[4:] if word.startswith("prefix=")), None)
for word in sys.argv[4:]:
    if word.startswith("prefix="):
        continue
    kind, _, pair = word.partition("/")
    name, _, new = pair.partition("=")
    renames[kind][name] = new
crates = os.path.join(top, "crates")


def read(path):
    with open(path, encoding="utf-8") as file:
        return file.read()


def write(path, text):
    os.makedirs(os.path.dirname(path), exist_ok=True)
    with open(path, "w", encoding="utf-8") as file:
        file.write(text)


def files_of(crate, part):
    base = os.path.join(crates, crate, part)
    for folder, _, names in os.walk(base):
        for name in names:
            yield os.path.relpath(os.path.join(folder, name), base)


lib = read(os.path.join(crates, old, "src/lib.rt"))


def stems(crate, part):
    """The names of files and of folders of modules."""
    if part == "proofs":
        base = os.path.join(crates, crate, part)
        return {n[:-5] for n in (os.listdir(base) if os.path.isdir(base) else []) if n.endswith(".antt")} - {"Lib"}
    return {p.split("/")[0].split(".")[0] for p in files_of(crate, part)} - {"lib", "Lib"}


def rename_clashes():
    for part in ("src", "specs", "proofs"):
        there = {name.lower() for name in stems(into, part)}
        for name in sorted(stems(old, part)):
            if name.lower() in there and name not in renames[part]:
                if prefix is None:
                    sys.exit(f"{part}/{name} stands in both")
                new = f"{prefix}_{name}" if part == "src" else prefix.title().replace("_", "") + name
                renames[part][name] = new
                print(f"  {part}/{name} becomes {new}")


rename_clashes()
root_module = renames["src"].get("lib")
# functions that stand in lib.rt itself
root_items = re.findall(r"^(?:pub )?(?:fn|struct|enum|trait) (\w+)", lib, re.M) if root_module else []


def new_path(part, path):
    """Where a file of the crate goes: its first part may have another name."""
    head, slash, rest = path.partition("/")
    stem, dot, ext = head.partition(".")
    if part == "proofs" and slash and stem in root_items:
        return f"{root_module}/{path}"
    if part == "proofs" and slash:  # a folder of proofs is named by the module of its function
        return renames["src"].get(stem, stem) + "/" + rest
    return renames[part].get(stem, stem) + (dot + ext if dot else "") + slash + rest


def rewrite_paths(text):
    """Paths of the logic that name the crate."""
    def logic(match):
        rest = match[1]
        parts = rest.split(".")
        kind = parts[0]
        if kind == "specs" and len(parts) > 2 and parts[1] in ("declared", "contracts"):
            if parts[2] in root_items or (root_module and parts[2] not in src_modules):
                parts.insert(2, root_module)
            else:
                parts[2] = renames["src"].get(parts[2], parts[2])
        elif kind == "specs" and len(parts) > 1:
            parts[1] = renames["specs"].get(parts[1], parts[1])
        elif kind == "proofs" and len(parts) > 1:
            if parts[1] in root_items:
                parts.insert(1, root_module)
            elif parts[1] in src_modules:
                parts[1] = renames["src"].get(parts[1], parts[1])
            else:
                parts[1] = renames["proofs"].get(parts[1], parts[1])
        return f"Rattle.{into}." + ".".join(parts)
    return re.sub(rf"\bRattle\.{old}\.([\w-]+(?:\.[\w-]+)*)", logic, text)


src_modules = {p.split("/")[0].split(".")[0] for p in files_of(old, "src")} - {"lib"}


def rewrite_rust(text, crate):
    """Paths of the code that name the crate."""
    own = crate in (into, old)
    new = "crate" if own else into
    def spec(match):
        kind, name = match[1], match[2]
        return f"{new}::{kind}::{renames[kind].get(name, name)}"
    text = re.sub(rf"\b{old}::(specs|proofs)::(\w+)", spec, text)
    if crate == old:
        text = re.sub(r"\bcrate::(specs|proofs)::(\w+)", lambda m: f"crate::{m[1]}::{renames[m[1]].get(m[2], m[2])}", text)
        for name, to in renames["src"].items():
            if name != "lib":
                text = re.sub(rf"\bcrate::{name}::", f"crate::{to}::", text)
    text = re.sub(rf"(?<![\w:]){old}::", f"{new}::", text)
    if own:
        text = re.sub(rf"(?<![\w:.]){into}::", "crate::", text)
    return text


def move_parts():
    for part in ("src", "specs", "proofs"):
        for path in sorted(files_of(old, part)):
            if path in ("lib.rt", "Lib.antt"):
                continue
            text = read(os.path.join(crates, old, part, path))
            target = os.path.join(crates, into, part, new_path(part, path))
            assert not os.path.exists(target), target
            write(target, text)
    for folder in ("must-fail",):
        if os.path.isdir(os.path.join(crates, old, folder)):
            for path in files_of(old, folder):
                text = read(os.path.join(crates, old, folder, path))
                write(os.path.join(crates, into, folder, path), edit_files(text))
    plants = os.path.join(top, "plants", old)
    if os.path.isdir(plants):
        for name in os.listdir(plants):
            target = os.path.join(top, "plants", into, name)
            assert not os.path.exists(target), target
            write(target, edit_files(read(os.path.join(plants, name))))


def edit_files(text):
    def line(match):
        stem = match[2]
        if stem == "lib" and root_module:
            stem = root_module
        part = match[1]
        return f"file: {part}/{renames[part].get(stem, stem)}{match[3]}"
    return re.sub(r"^file: (src|specs|proofs)/(\w+)(.*)$", line, text, flags=re.M)


def merge_libs():
    target = os.path.join(crates, into, "src/lib.rt")
    text = read(target)
    body = lib
    if root_module:
        doc = "".join(line + "\n" for line in body.split("\n") if line.startswith("//!"))
        rest = "\n".join(line for line in body.split("\n") if not line.startswith(("//!", "#![")))
        for match in re.finditer(r"^(pub )?mod (\w+);\n", rest, re.M):
            text += f"{match[1] or ''}mod {renames['src'].get(match[2], match[2])};\n"
        passed = re.findall(r"^pub use ([^;]*);\n", rest, re.M)
        rest = re.sub(r"^(?:pub )?mod \w+;\n|^pub use [^;]*;\n", "", rest, flags=re.M)
        uses = ""
        for path in passed:
            source, _, tail = path.rpartition("::")
            names = [n.strip() for n in tail.strip("{}").split(",") if n.strip()]
            if source.split("::")[0] != into:
                text += f"pub use {path};\n"
            used = [n for n in names if re.search(rf"\b{n}\b", rest)]
            start = "crate::" if source.split("::")[0] in src_modules else ""
            uses += "".join(f"use {start}{source}::{n};\n" for n in used)
        lines = rest.lstrip("\n")
        at = lines.find("\nuse ")
        rest = lines[: at + 1] + uses + lines[at + 1:] if at >= 0 else uses + lines
        write(os.path.join(crates, into, "src", root_module + ".rt"), doc + rest.lstrip("\n"))
        names = sorted(re.findall(r"^pub (?:const )?(?:fn|struct|enum|trait|const|type) (\w+)", rest, re.M))
        text += f"mod {root_module};\npub use {root_module}::{{{', '.join(names)}}};\n"
    else:
        for match in re.finditer(r"^(#\[cfg\(test\)\]\n)?(pub )?mod (\w+);$", body, re.M):
            text += f"{match[1] or ''}{match[2] or ''}mod {renames['src'].get(match[3], match[3])};\n"
        uses = re.findall(r"^pub use [^;]*;", body, re.M)
        for use in uses:
            for name, to in renames["src"].items():
                use = re.sub(rf"^pub use {name}::", f"pub use {to}::", use)
            if re.match(rf"pub use {into}::", use):
                continue
            text += use + "\n"
    write(target, text)
    for part in ("specs", "proofs"):
        source = os.path.join(crates, old, part, "Lib.antt")
        if not os.path.exists(source):
            continue
        target = os.path.join(crates, into, part, "Lib.antt")
        lines = read(target).rstrip("\n").split("\n") if os.path.exists(target) else []
        for line in read(source).rstrip("\n").split("\n"):
            match = re.match(r"(pub )?mod (\w+)$", line)
            if match:
                lines.append(f"{match[1] or ''}mod {renames[part].get(match[2], match[2])}")
        write(target, "\n".join(lines) + "\n")


def rewrite_all():
    for crate in sorted(os.listdir(crates)):
        for part in ("src", "specs", "proofs"):
            for path in list(files_of(crate, part)):
                full = os.path.join(crates, crate, part, path)
                text = read(full)
                new = rewrite_paths(text)
                if full.endswith(".rt"):
                    new = rewrite_rust(new, old if full in moved else crate)
                if new != text:
                    write(full, new)
        for path in list(files_of(crate, "must-fail")):
            full = os.path.join(crates, crate, "must-fail", path)
            write(full, rewrite_rust(rewrite_paths(read(full)), crate))
    for crate in sorted(os.listdir(os.path.join(top, "plants"))):
        folder = os.path.join(top, "plants", crate)
        if os.path.isdir(folder):
            for name in os.listdir(folder):
                full = os.path.join(folder, name)
                text = read(full)
                new = rewrite_rust(rewrite_paths(text), crate)
                if new != text:
                    write(full, new)


def rewrite_list():
    path = os.path.join(top, "crates.txt")
    lines, needs = [], []
    for line in read(path).split("\n"):
        name, colon, rest = line.partition(":")
        if colon and name == old:
            needs = rest.split()
    for line in read(path).split("\n"):
        name, colon, rest = line.partition(":")
        if line.startswith("#") or not colon:
            lines.append(line)
            continue
        if name == old:
            continue
        words = rest.split()
        if name == into:
            words += [n for n in needs if n != into and n not in words]
            words = [n for n in words if n != old]
        else:
            words = [into if n == old else n for n in words]
        seen = []
        for word in words:
            if word not in seen:
                seen.append(word)
        lines.append(f"{name}: {' '.join(seen)}".rstrip())
    write(path, "\n".join(lines))


before = {(p, f) for p in ("src", "specs", "proofs") for f in files_of(into, p)}
move_parts()
merge_libs()
after = {(p, f) for p in ("src", "specs", "proofs") for f in files_of(into, p)}
moved = {os.path.join(crates, into, p, f) for p, f in after - before}
shutil.rmtree(os.path.join(crates, old))
shutil.rmtree(os.path.join(top, "plants", old), ignore_errors=True)
rewrite_all()
rewrite_list()
