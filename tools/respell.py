#!/usr/bin/env python3
"""Respells this repository's own definitions and lemmas: words in snake case, facts and types in camel case.

usage: python3 tools/respell.py        at the top, once, after the kit's port.py; prints each renaming

Only names that specs/ and proofs/ define at the top of a file (or of a module in it), their constructors and the
fields of their records change; a dash stays where it joins two names of definitions, as in `length-le_bytes`.
Functions of src/, strings, inputs, outputs and names that Rattle makes (goals, invariants) stay.
"""
import os
import re
import sys

IDENT = re.compile(r"[^\s(){}\[\],;.λ:→×≡∷]+")
DEF = re.compile(r"^( *)(?:(?:abbrev|unfoldable|pub|data|record) )*([^\s(){}\[\],;.:]+)(?: [({].*?)? ?: (.*)$")
MADE = ("Answers.antt", "Invariants.antt", "Proof.antt")
STD = {"length", "take", "drop", "append", "map", "cons", "nil", "zero", "suc", "reverse", "set"}
# chosen by hand, where the rule gives a name that is taken or reads badly
BY_HAND = {}
# binders and imported names that stand in signatures and clauses
BINDERS = {"functions-then": "functions_then", "Steps-then": "steps_then", "infos-of": "infos_of"}


def files(kind):
    for root, dirs, names in os.walk("crates"):
        dirs[:] = sorted(d for d in dirs if d != "out")
        for n in sorted(names):
            if n.endswith(kind):
                yield os.path.join(root, n)


def read(p):
    with open(p, encoding="utf-8") as f:
        return f.read()


def defined(p):
    """The names that a file defines, each with whether it is a type of facts, and whether a field."""
    inside = False
    for line in read(p).splitlines():
        m = DEF.match(line)
        if re.match(r"^ *(pub )?(record|data) ", line):
            inside = True
        elif line.strip() and not line.startswith(" "):
            inside = False
        if not m or line.lstrip().startswith(("--", "let ", "use ")):
            continue
        indent, name, rest = m.groups()
        if indent and not re.match(r"^( *)pub ", line) and not inside:
            # a local definition: only where it stands right below a module
            if len(indent) != 2:
                continue
        if os.path.basename(p) in MADE and re.search(r": goal\.", line):
            continue
        fact = bool(re.search(r"(^|→ )Type 0( where)?$", rest.strip()))
        yield name, fact, bool(indent) and inside


def snake(name, functions):
    parts = name.split("-")
    for k in range(1, len(parts)):
        left, right = "_".join(parts[:k]), "_".join(parts[k:])
        if left in functions and right in functions:
            return left + "-" + right
    return "_".join(parts)


def camel(name):
    return "".join(w[:1].upper() + w[1:] for w in re.split(r"[-_]", name))


def main():
    found, fields = {}, set()
    for p in files(".antt"):
        for name, fact, field in defined(p):
            found[name] = found.get(name, False) or fact
            if field:
                fields.add(name)
    functions = STD | {n.replace("-", "_") for p in files(".antt") if "/specs/" in p for n, fact, _ in defined(p)}
    lemmas = {n for p in files(".antt") if "/proofs/" in p for n, fact, field in defined(p)}
    lemmas -= {n for p in files(".antt") if "/specs/" in p for n, fact, field in defined(p)}
    names = {}
    for name, fact in sorted(found.items()):
        if "·" in name or name.startswith(("invariant-", "decreases-", "ghost-")):
            continue
        if name in BY_HAND:
            new = BY_HAND[name]
        elif fact:
            new = camel(name)
        elif "-" in name:
            new = snake(name, functions) if name in lemmas else name.replace("-", "_")
        else:
            continue
        if new != name:
            names[name] = new
    names.update(BINDERS)
    dry = "--list" in sys.argv
    for p in list(files(".antt")) + list(files(".rt")):
        text = read(p)
        out = []
        for line in text.split("\n"):
            if p.endswith(".rt") and not re.search(r"ghost|requires|ensures|\{ .*[≡≤<→].*\}|λ", line):
                out.append(line)
                continue
            head, dash, comment = (line, "", "") if "--" not in line else line.partition("--")
            if p.endswith(".rt"):
                head, dash, comment = line, "", ""

            def turn(m):
                w, at = m.group(0), m.start()
                if at and head[at - 1] == "." and w not in fields and not (at > 1 and head[at - 2].isalnum() and "use " in head):
                    return w
                return names.get(w, w)

            out.append(IDENT.sub(turn, head) + dash + comment)
        new = "\n".join(out)
        before = set(IDENT.findall(text))
        seen = {}
        for w in before:
            to = names.get(w, w)
            if to in seen and seen[to] != w:
                print(f"falls together in {p}: {w} and {seen[to]} are {to}")
            seen[to] = w
        if new != text and not dry:
            with open(p, "w", encoding="utf-8") as f:
                f.write(new)
    for a, b in sorted(names.items()):
        print(f"{a} -> {b}")


if __name__ == "__main__":
    main()
