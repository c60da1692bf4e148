#!/usr/bin/env python3
"""Brings the names of this repository's own definitions and lemmas to today's spelling: snake case, with a dash where it joins two names.

usage: python3 tools/respell.py [--list]     at the top of the repository, once, right after port.py

A part of a name in camel case becomes snake case. A dash stays where a definition stands before it and another, or an operator's
word, behind it; else it becomes an underscore. Types, modules, names from Rust code, names that other libraries declare, and names
that Rattle makes keep their spelling. A lemma that would have a function's name ends in _lem.
"""

import os
import re
import sys

TOKEN = re.compile(r"[^\s(){}\[\].,;:\"@|=⟨⟩`]+")
DECLARED = re.compile(r"^\s*(?:(?:pub|abbrev|unfoldable|pattern|opaque)\s+)*(?:(record|data)\s+)?([^\s:(){},.=|]+)(?:\s+[({].*?)?\s*:(?:\s|$)")
WORDS = set("le lt eq zero suc add sub mul mod div append cons nil mem subset perm refl sym trans".split())
# Fields and parameters say what is there after a call: the two functions of their names take another word.
CHOSEN = {"listAfter": "list_after_call", "workAfter": "work_after_call", "list-after": "list_after", "work-after": "work_after"}
KEYWORDS = set("use mod module open let where in record data pub abbrev unfoldable unfolding elim λ".split())


def files(root, *endings):
    for folder, dirs, names in os.walk(os.path.join(root, "crates")):
        dirs[:] = sorted(d for d in dirs if d not in ("out", "must-fail"))
        for name in sorted(names):
            if name.endswith(endings):
                yield os.path.join(folder, name)


def text(path):
    with open(path, encoding="utf-8") as f:
        return f.read()


def declared(root):
    """The names that specs/ and proofs/ declare, those among them that fields have, and those that are no lemmas."""
    names, fields, words = set(), set(), set()
    for path in files(root, ".antt"):
        proof = os.path.basename(path) == "Proof.antt"
        inside = None
        for line in text(path).split("\n"):
            line = re.sub(r"\s*--.*", "", line)
            m = DECLARED.match(line)
            if inside is not None and (several := re.match(r"\s+([^\s:(){}.=]+(?: [^\s:(){}.=]+)+) :", line)):
                names.update(several[1].split())
            if inside is not None and line.strip() and len(line) - len(line.lstrip()) <= inside:
                inside = None
            if not m or m[2] in KEYWORDS:
                continue
            if proof and (re.search(r":\s*(?:\([^)]*\)\s*→\s*)?[\w-]*(?:tie|lts)\.", line) or m[2].endswith(("-spec", "_spec"))):
                continue
            if m[1]:
                inside = len(line) - len(line.lstrip())
            elif inside is not None:
                fields.add(m[2])
            names.add(m[2])
            if m[1] or re.match(r"\s*(pub )?(abbrev|unfoldable)\b", line):
                words.add(m[2])
    return names, fields, words


def foreign(root):
    """The names that the files import from other libraries."""
    found = set()
    for path in files(root, ".antt", ".rt"):
        for m in re.finditer(r"use ([A-Z]\S*|lib\.\S*|mathlib\.\S*|native\.\S*|borrow\.\S*|denote\.\S*)\.\{([^}]*)\}", text(path)):
            if not m[1].startswith("Rattle.") or m[1].startswith("Rattle.std."):
                for item in m[2].split(","):
                    found.add(item.split(" as ")[0].strip())
    return found


def snake(part):
    if not part or part[0].isupper() or not re.search(r"[a-z0-9][A-Z]", part):
        return part
    return re.sub(r"(?<=[a-z0-9])(?=[A-Z])", "_", part).lower()


def respelled(name, known):
    if name[0].isupper() and "-" not in name:
        return name
    parts = [snake(part) for part in name.split("-")]
    out, left = parts[0], parts[0]
    for i, part in enumerate(parts[1:], 1):
        behind = "_" in left and any("_".join(parts[i:j]) in known for j in range(i + 1, len(parts) + 1))
        if left in known and (behind or part in WORDS):
            out, left = out + "-" + part, part
        else:
            out, left = out + "_" + part, left + "_" + part
    return out


def table(root):
    names, fields, words = declared(root)
    others = foreign(root)
    plain = {snake(n) for n in words | others if "-" not in n}
    new = {n: respelled(n, plain) for n in names - CHOSEN.keys() if re.search(r"[A-Za-z]", n) and "◌" not in n}
    taken = {}
    for name in sorted(new, key=lambda n: (n not in words, new[n] != n, n)):
        if name in others:
            new[name] = name
        elif new[name] in taken or (new[name] != name and new[name] in others):
            # a lemma that would have its function's name
            new[name] += "_lem"
        if new[name] in taken:
            raise SystemExit(f"respell: {name} and {taken[new[name]]} would both be {new[name]}")
        taken[new[name]] = name
    return {name: to for name, to in new.items() if to != name} | CHOSEN, fields


def turn(path, turned, fields):
    t = text(path)
    proof = os.path.basename(path) == "Proof.antt"
    out, at = [], 0
    for m in TOKEN.finditer(t):
        new = turned.get(m[0])
        if new is None or (path.endswith(".rt") and new.startswith(m[0])):
            continue
        if (proof or new.startswith(m[0])) and t[m.start() - 1 : m.start()] == "." and m[0] not in fields and not line_of_use(t, m.start()):
            continue
        out += [t[at : m.start()], new]
        at = m.end()
    return "".join(out) + t[at:]


def line_of_use(t, at):
    return re.match(r"(pub )?use ", t[t.rfind("\n", 0, at) + 1 :]) is not None


def main(argv):
    root = "."
    turned, fields = table(root)
    if "--list" in argv:
        for name, new in sorted(turned.items()):
            print(name, new)
        return 0
    changed = 0
    for path in files(root, ".antt", ".rt"):
        t, new = text(path), turn(path, turned, fields)
        if new != t:
            with open(path, "w", encoding="utf-8") as f:
                f.write(new)
            changed += 1
    print(f"respell: {len(turned)} names, {changed} files")
    return 0


if __name__ == "__main__":
    raise SystemExit(main(sys.argv[1:]))
