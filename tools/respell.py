#!/usr/bin/env python3
"""Respells this repository's own definitions and lemmas: words in snake case, types in camel case.

usage: tools/respell.py    at the top of the repository, once, after the kit's port.py

A name is respelled where a file of specs/ or proofs/ declares it. Names that Rattle makes, as of goals and of steps, keep
their dashes, and so do a lemma's name that ends in an operator. Code and text of .rt files stay: only clauses, imports and
comments are turned. It stops if two names of a crate would fall together.
"""

import glob
import re
import sys

NAME = r"[^\s(){}\[\],;.:«»]+"
DECLARED = re.compile(
    rf"^[ \t]*(?:(?:pub|abbrev|unfoldable|record|data|ruleset)[ \t]+)*(?P<names>{NAME}(?:[ \t]+{NAME})*?)[ \t]*"
    r"(?P<params>(?:\{[^}\n]*\}|\([^)\n]*\)|[ \t])*):(?P<type>[^\n]*)",
    re.M,
)
MADE = re.compile(r"\s*(goal|given|rules)\.")
TOKEN = re.compile(NAME)
OPERATOR = re.compile(r"-(?=[^\w\s])")


def antt_files():
    for folder in ("specs", "proofs"):
        yield from sorted(glob.glob(f"crates/*/{folder}/**/*.antt", recursive=True))


def without_comments(text):
    return re.sub(r"--[ \t][^\n]*|^--$", "", text, flags=re.M)


def spelled(name):
    if name[0].isupper():
        return "".join(part[:1].upper() + part[1:] for part in name.split("-"))
    return "-".join(part.replace("-", "_") for part in OPERATOR.split(name))


def declared(path):
    with open(path, encoding="utf-8") as f:
        text = without_comments(f.read())
    for m in DECLARED.finditer(text):
        if MADE.match(m["type"]):
            continue
        # `x y : A` may declare several fields at once
        for name in m["names"].split():
            yield name


def turned(text, names):
    return TOKEN.sub(lambda m: names.get(m[0], m[0]), text)


def is_ghost(line, inside):
    """Whether a line of a .rt file is a clause, an import or a comment."""
    word = line.strip()
    return inside or word.startswith(("ghost ", "pub ghost ", "requires", "ensures", "//"))


def turned_source(text, names):
    out, depth, inside = [], 0, False
    for line in text.split("\n"):
        ghost = is_ghost(line, inside)
        if ghost and not line.strip().startswith("//"):
            depth += line.count("{") - line.count("}")
            inside = depth > 0
        out.append(turned(line, names) if ghost else line)
    return "\n".join(out)


def main():
    names, by_crate = {}, {}
    for path in antt_files():
        crate = path.split("/")[1]
        for name in declared(path):
            by_crate.setdefault(crate, set()).add(name)
            if "-" in name and spelled(name) != name:
                names[name] = spelled(name)
    bad = [
        f"{crate}: {name} and {names[name]}"
        for crate, all_names in sorted(by_crate.items())
        for name in sorted(all_names)
        if name in names and names[name] in all_names
    ]
    back = {}
    for name, new in names.items():
        back.setdefault(new, []).append(name)
    bad += [f"{new}: {' '.join(old)}" for new, old in sorted(back.items()) if len(old) > 1]
    if bad:
        sys.exit("these names fall together:\n" + "\n".join(bad))
    for path in list(antt_files()) + sorted(glob.glob("crates/*/src/**/*.rt", recursive=True)):
        with open(path, encoding="utf-8") as f:
            text = f.read()
        new = turned(text, names) if path.endswith(".antt") else turned_source(text, names)
        if new != text:
            with open(path, "w", encoding="utf-8") as f:
                f.write(new)
    print(f"{len(names)} names respelled")


main()
