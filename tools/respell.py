#!/usr/bin/env python3
"""Spells the repository's own names as today's Rattle does, in every crate below crates/ of the folder ROOT (default: the current one).

usage: tools/respell.py [--list] [ROOT]

A definition, a field or a constructor that specs/ declares is in snake case: `formNo` becomes `form_no`, `good-is` `good_is`. In a lemma's name, which
proofs/ declares, a dash still joins two names, and each of them is in snake case: `charsIn-nil` becomes `chars_in-nil`. Types and modules keep
their capitals. Run it once, behind the toolchain's own port.py; a second run changes nothing. --list prints the table and changes nothing.
A lemma that would then have a definition's name gets `_lem` behind it, in its own file and in those that import it.
"""

import os
import re
import sys

# What a word of antt ends at. A projection `.f` is a word of its own.
WORD = re.compile(r"[^\s(){}\[\].;,@\"«»|λ]+")
DECLARED = re.compile(r"^\s*(?:(?:pub|abbrev|unfoldable|private|instance|irrelevant|syntax)\s+)*([^\s(){}\[\].;,@\"«»|]+)(?:\s+\{[^{}]*\})*\s+:(?=\s)")
USE = re.compile(r"use (Rattle\.\w+\.proofs\.[\w.+]+)\.\{([^{}]*)\}")


def snake(name):
    """A word in snake case; one that begins with a capital is a type's or a module's."""
    if not name or name[0].isupper():
        return name
    return re.sub(r"(?<=[a-z0-9₀-₉'])([A-Z])", lambda m: "_" + m.group(1).lower(), name)


def of_spec(name):
    return name if name[0].isupper() else snake(name).replace("-", "_")


def of_lemma(name):
    return "-".join(snake(part) for part in name.split("-"))


def files(root, ends):
    for top, dirs, names in os.walk(os.path.join(root, "crates")):
        dirs[:] = sorted(d for d in dirs if d != "out")
        for n in sorted(names):
            if n.endswith(ends):
                yield os.path.join(top, n)


def declared(root):
    """The names that specs/ and the lemma files of proofs/ declare, each with its new spelling."""
    new = {}
    for path in files(root, ".antt"):
        spec = "/specs/" in path
        if not spec and re.search(r"/(Proof|Answers|Invariants)\.antt$|/Proof/", path):
            continue
        with open(path, encoding="utf-8") as f:
            for line in f:
                m = DECLARED.match(line)
                if not m or line.lstrip().startswith("--"):
                    continue
                name = m.group(1)
                turned = of_spec(name) if spec else of_lemma(name)
                if turned != name and re.match(r"[a-z]", name):
                    if spec or name not in new:
                        new[name] = turned
    return new


def module(path):
    """The module that a file of proofs/ is."""
    m = re.search(r"crates/(\w+)/proofs/(.*)\.antt$", path)
    return m and f"Rattle.{m.group(1)}.proofs.{m.group(2).replace('/', '.')}"


def lemmas(root, new):
    """The lemmas that have a definition's new name, by the modules that declare them."""
    taken, by = set(new.values()), {}
    for path in files(root, ".antt"):
        if not module(path):
            continue
        with open(path, encoding="utf-8") as f:
            names = {m.group(1) for m in map(DECLARED.match, f) if m} & taken
        if re.search(r"/Proof\.antt$|/Proof/", path):
            # a place of its own, which meets the definition only where the file speaks of both
            with open(path, encoding="utf-8") as f:
                said = set(WORD.findall(f.read()))
            names = {n for n in names if any(o in said for o, b in new.items() if b == n)}
        if names:
            by[module(path)] = names
    return by


def met(text, path, by):
    """The lemmas that a text declares or imports and that have a definition's new name."""
    names = set(by.get(module(path) or "", ()))
    for m in USE.finditer(text):
        names |= by.get(m.group(1), set()) & {n.strip() for n in m.group(2).split(",")}
    return {n: n + "_lem" for n in names}


def turned(text, new):
    return WORD.sub(lambda m: new.get(m.group(0), m.group(0)), text)


def main(argv):
    listing = "--list" in argv
    root = next((a for a in argv if not a.startswith("-")), ".")
    new = declared(root)
    if listing:
        print("\n".join(f"{a}\t{b}" for a, b in sorted(new.items())))
        return 0
    by = lemmas(root, new)
    count = 0
    for path in files(root, (".antt", ".rt", ".edit")):
        with open(path, encoding="utf-8") as f:
            text = f.read()
        after = turned(turned(text, met(text, path, by)), new)
        if after != text:
            with open(path, "w", encoding="utf-8") as f:
                f.write(after)
            count += 1
    print(f"respell: {len(new)} names, {count} files")
    return 0


if __name__ == "__main__":
    raise SystemExit(main(sys.argv[1:]))
