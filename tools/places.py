#!/usr/bin/env python3
"""Counts the places where an older form stands in crates/*/src, point by point of docs/DESIGN-PASS.md.

usage: places.py [-v] [POINT..]      -v lists each place

It goes by the text alone, so it finds more than there is to change: what stays, and why, the page says.
"""
import collections
import pathlib
import re
import sys

FN = re.compile(r"^( *)(?:pub(?:\(crate\))? )?(?:const )?fn (\w+)")


def sources():
    for path in sorted(pathlib.Path("crates").glob("*/src/**/*.rt")):
        yield str(path)[len("crates/"):], path.read_text().split("\n")


def functions():
    """Each function: file, line, name, head (signature and clauses), body, as lists of lines."""
    for name, lines in sources():
        at = 0
        while at < len(lines):
            found = FN.match(lines[at])
            if not found or lines[at].rstrip().endswith(";"):
                at += 1
                continue
            indent, start = found.group(1), at
            while at < len(lines) and lines[at].rstrip() not in (indent + "{", indent + "{}") and not (
                    at == start and lines[at].rstrip().endswith(("{", "{}"))) and not (
                    lines[at].startswith(indent + ")") and lines[at].rstrip().endswith("{")):
                at += 1
            head = lines[start:at + 1]
            begin = at
            while at < len(lines) and lines[at] != indent + "}" and not lines[begin].rstrip().endswith("{}"):
                at += 1
            yield name, start + 1, found.group(2), head, lines[begin + 1:at]
            at += 1


def code(line):
    return line.split("//")[0]


def by_pattern(*patterns):
    for name, lines in sources():
        for number, line in enumerate(lines, 1):
            text = code(line)
            if "ghost use" in text or re.match(r"\s*(requires|ensures)", text):
                continue
            for pattern in patterns:
                if re.search(pattern, text):
                    yield f"{name}:{number}: {line.strip()}"
                    break


def option_like_enums():
    for name, lines in sources():
        text = "\n".join(code(x) for x in lines)
        for found in re.finditer(r"enum (\w+)[^{]*\{(.*?)\n\}", text, re.S):
            variants = re.findall(r"^    (\w+)(\(.*\))?", found.group(2), re.M)
            if len(variants) == 2 and any(v[1] for v in variants):
                yield f"{name}: enum {found.group(1)} of {variants[0][0]} and {variants[1][0]}"


def flags_beside_values():
    for name, lines in sources():
        text = "\n".join(code(x) for x in lines)
        for found in re.finditer(r"struct (\w+)[^{;]*\{(.*?)\n\}", text, re.S):
            for flag in re.findall(r"(\w+): bool", found.group(2)):
                yield f"{name}: {found.group(1)}.{flag}"


def number_codes():
    """Constants that a match or a comparison tells apart."""
    for name, lines in sources():
        crate = name.split("/")[0]
        whole = "\n".join(code(x) for other, xs in sources() if other.startswith(crate + "/") for x in xs)
        for number, line in enumerate(lines, 1):
            found = re.search(r"const ([A-Z_0-9]+): u64 = [^;]+;", code(line))
            if found and re.search(rf"\b{found.group(1)}( if .*)? =>|[!=]= (\w+::)?{found.group(1)}\b|\b{found.group(1)} [!=]=|let {found.group(1)} = ", whole):
                yield f"{name}:{number}: {line.strip()}"


def point_1():
    yield from option_like_enums()
    yield from flags_beside_values()
    yield from by_pattern(r"-> Result<bool", r"Result<\w+, u\d+>")
    yield from number_codes()
    yield from by_pattern(r"(No|Refused)\(\d+\)", r"\b\d+ => (Refusal|Some|Ok)")
    yield from by_pattern(r"(conflict|link|place|slot)\w* [!=]= 0\b", r"conflict: 0")


def shape(lines):
    text = " ".join(code(x).strip() for x in lines)
    text = re.sub(r'b?"[^"]*"|b?\'[^\']*\'', "L", text)
    text = re.sub(r"\b(if|else|for|in|while|match|return|let|mut|as|Some|None|Ok|Err)\b", lambda m: m.group(1).upper() + "_", text)
    text = re.sub(r"\b[a-z_]\w*\b|\b[A-Z]\w*\b(?<!_)", lambda m: m.group(0) if m.group(0).endswith("_") else "n", text)
    return re.sub(r"\b\d[\w]*\b", "N", text)


def point_2():
    groups = collections.defaultdict(list)
    for name, line, fn, _head, body in functions():
        if body and len(" ".join(body).strip()) > 15:
            groups[shape(body)].append(f"{name}:{line} {fn}")
    for members in groups.values():
        if len(members) > 1:
            yield " = ".join(members)


def point_3():
    yield from by_pattern(r"\bwhile\b", r"for _\w* in 0\.\.", r"for \w+ in 0\.\.", r"^\s*\w+ [+-]= 1;")


def point_4():
    yield from by_pattern(r"impl.* (fmt::Display|(Try)?From<.*>|PartialEq|Ord|Clone|Copy) for", r"fn (eq|cmp|clone)\b", r"fn \w*(number_of|name_of)\b.*->")
    yield from copied_field_by_field()


def copied_field_by_field():
    """Functions that only build a struct from the fields of their one parameter."""
    for name, line, fn, head, body in functions():
        text = " ".join(code(x).strip() for x in body)
        found = re.fullmatch(r"(\w+) \{ ((?:\w+: (\w+)\.\w+, ?)+)\}", text)
        if found and len(set(re.findall(r": (\w+)\.", found.group(2)))) == 1:
            yield f"{name}:{line}: {fn} makes a {found.group(1)}"


def clause_facts():
    facts = collections.defaultdict(set)
    for name, line, fn, head, _body in functions():
        for text in head:
            for kind, clause in re.findall(r"(requires|ensures) ?\w* \{ (.*) \}", text):
                if kind == "requires":
                    for part in re.findall(r"\(([^()]*(?:\([^()]*\)[^()]*)*)\) ×|× \(([^()]*(?:\([^()]*\)[^()]*)*)\)$", clause) or [(clause, "")]:
                        fact = re.sub(r"\.(old|now|new)\b", "", part[0] or part[1])
                        facts[name.split("/")[0] + ": " + fact].add(f"{name}:{line} {fn}")
    return facts


def point_5():
    for fact, places in sorted(clause_facts().items()):
        if len(places) > 2:
            yield f"{fact}  in {len(places)} contracts"
    together = collections.defaultdict(set)
    alone = collections.Counter()
    for name, line, fn, head, _body in functions():
        signature = " ".join(code(x).strip() for x in head)
        signature = signature[signature.find("(") + 1:]
        names = [x for x in re.findall(r"(\w+): (?:&|mut|\w)", signature.split("->")[0].split("requires")[0].split("ensures")[0])]
        alone.update((name, x) for x in set(names))
        for i, a in enumerate(names):
            for b in names[i + 1:]:
                together[(name, a, b)].add(fn)
    for (name, a, b), fns in sorted(together.items()):
        if len(fns) > 2 and 4 * len(fns) > 3 * max(alone[name, a], alone[name, b]):
            yield f"{name}: {a} and {b} in {len(fns)} functions"


def point_6():
    for name, lines in sources():
        text = "\n".join(code(x) for x in lines)
        for found in re.finditer(r"struct (\w+)[^{;]*\{(.*?)\n\}", text, re.S):
            vecs = re.findall(r"(\w+): Vec<", found.group(2))
            marks = re.findall(r"(\w*(?:head|len|next|count)\w*): (?:usize|u64)", found.group(2))
            if len(vecs) > 1 or (vecs and marks):
                yield f"{name}: {found.group(1)} with {', '.join(vecs + marks)}"
    yield from by_pattern(r"\[0u8; \d+\]", r"binary_search", r"sort")


def point_7():
    yield from by_pattern(r"match (kind|read\(m, PHASE\)|request|finding|told)\b", r"\bdyn\b", r": fn\(")


def point_8():
    for path in sorted(pathlib.Path("crates").glob("*/proofs/**/*.antt")):
        answers = len(re.findall(r"^pub [\w-]+ : goal\.", path.read_text(), re.M))
        if answers:
            yield f"{str(path)[len('crates/'):]}: {answers} answers"


POINTS = {str(n): globals()[f"point_{n}"] for n in range(1, 9)}

if __name__ == "__main__":
    verbose = "-v" in sys.argv
    for point in [x for x in sys.argv[1:] if x in POINTS] or POINTS:
        places = list(POINTS[point]())
        print(f"point {point}: {len(places)}")
        if verbose:
            for place in places:
                print("    " + place)
