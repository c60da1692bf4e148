#!/usr/bin/env python3
"""places.py [ROOT]: counts the forms in crates/*/src that docs/DESIGN-PASS.md speaks of.

`--list` names the places as well. What only a reader can count, the page names itself.
"""
import collections
import glob
import re
import sys

WORDS = "if else match return fn for in while loop let mut true false as ref impl pub self Self Some None Ok Err".split()


def functions(root):
    """Each function of src/: its file, name, parameters, contract and body."""
    for path in sorted(glob.glob(root + "/crates/*/src/**/*.rt", recursive=True)):
        text = open(path, encoding="utf-8").read()
        for m in re.finditer(r'(?m)^([ ]*)(?:pub )?(?:extern "C" )?(?:const )?fn (\w+)', text):
            indent = m.group(1)
            end = re.search(r"(?m)^" + indent + r"\}$", text[m.start():])
            whole = text[m.start():m.start() + end.end()] if end else text[m.start():]
            head = re.search(r"(?m)^" + indent + r"\{$|\{$", whole)
            at = head.start() if head else len(whole)
            yield path[len(root) + 1:], m.group(2), whole[:at], whole[at:]


def parameters(head):
    """The names of a function's parameters."""
    depth, start = 0, head.index("(")
    for i in range(start, len(head)):
        depth += {"(": 1, ")": -1}.get(head[i], 0)
        if depth == 0:
            break
    inside = head[start + 1:i]
    parts = re.split(r",\s*(?![^\[<(]*[\]>)])", inside)
    names = [p.split(":")[0].replace("mut ", "").strip() for p in parts if p.strip()]
    return [n for n in names if n.lstrip("&") != "self"]


def facts(head):
    """The facts that a function requires, a product taken apart."""
    for clause in re.findall(r"requires\s*(?:\w+\s*)?\{(.*?)\}\s*(?:\n|$)", head, re.S):
        depth, part, parts = 0, "", []
        for ch in clause:
            depth += (ch in "([") - (ch in ")]")
            if ch == "×" and depth == 0:
                parts.append(part)
                part = ""
            else:
                part += ch
        for part in parts + [part]:
            part = part.strip()
            while part.startswith("(") and part.endswith(")"):
                part = part[1:-1].strip()
            yield part


def shape(body):
    """A body with its names and numbers set aside."""
    body = re.sub(r"//.*", "", body)
    words = re.findall(r"\w+|[^\w\s]", body)
    return " ".join(w if w in WORDS or not re.match(r"\w", w) else "N" if w[0].isdigit() else "v" for w in words)


def lines(root, pattern):
    """The lines of src/ that a pattern fits."""
    for path in sorted(glob.glob(root + "/crates/*/src/**/*.rt", recursive=True)):
        for number, line in enumerate(open(path, encoding="utf-8"), 1):
            if re.search(pattern, re.sub(r"//.*", "", line)):
                yield "%s:%d: %s" % (path[len(root) + 1:], number, line.strip())


def main():
    args = [a for a in sys.argv[1:] if not a.startswith("--")]
    root, listed = (args[0] if args else "."), "--list" in sys.argv

    def told(what, places):
        places = list(places)
        print("%4d  %s" % (len(places), what))
        if listed:
            for p in places:
                print("          " + p)

    everything = list(functions(root))
    told("functions", [f + ": " + n for f, n, _, _ in everything])
    told("1: own enums", lines(root, r"^\s*(pub )?enum \w+"))
    told("1: rows by number", lines(root, r"number: (\d+|u8|usize)|\b(Stop|Row)\(\d+\)"))
    told("1: arms over numbers", lines(root, r"^\s*\d[\d |.=]* => "))
    alike = collections.defaultdict(list)
    for f, n, _, body in everything:
        if len(body.split("\n")) > 3:
            alike[shape(body)].append(f + ": " + n)
    told("2: functions whose bodies differ in names and numbers alone", [" = ".join(v) for v in alike.values() if len(v) > 1])
    told("3: while and loop", lines(root, r"^\s*(while|loop)\b"))
    told("4: casts by `as`", lines(root, r"\bas (u8|u16|u32|u64|usize|isize)\b"))
    told("4: returns of a lone true or false", lines(root, r"^\s*return (true|false);"))
    known = collections.defaultdict(set)
    pairs = collections.defaultdict(set)
    for f, n, head, _ in everything:
        for fact in facts(head):
            known[fact].add(f + n)
        names = parameters(head)
        for pair in zip(names, names[1:]):
            pairs[pair].add(f + n)
    often = sorted(((len(v), k) for k, v in known.items() if len(v) > 2), reverse=True)
    told("5: facts that three or more functions require", ["%d  %s" % x for x in often])
    often = sorted(((len(v), ", ".join(k)) for k, v in pairs.items() if len(v) > 4), reverse=True)
    told("5: pairs of neighbouring parameters in five or more functions", ["%d  %s" % x for x in often])
    told("5: functions of six or more parameters", [f + ": " + n for f, n, h, _ in everything if len(parameters(h)) > 5])
    told("6: parameters `store, n`", [f + ": " + n for f, n, h, _ in everything if ("store", "n") in zip(parameters(h), parameters(h)[1:])])


main()
