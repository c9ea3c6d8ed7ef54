#!/usr/bin/env python3
"""Compares varisat_check with another checker of proofs by propagation, on proofs by picosat and on spoiled ones.

Usage: compare_checkers.py VARISAT_CHECK OTHER [ROUNDS] [SEED]

OTHER takes a formula and a proof, ends with status 0 or 1, and names the line of the first step that does not follow.
Prints what differs, and how many verdicts of each kind there were; ends with status 1 if anything differs.
"""
import collections
import pathlib
import random
import re
import subprocess
import sys
import tempfile


def row(literals):
    return " ".join(map(str, [*literals, 0]))


def formula(rng):
    variables = rng.choice([6, 10, 20, 40, 60, 80])
    clauses = [[rng.choice([1, -1]) * rng.randint(1, variables) for _ in range(rng.choice([1, 3, 3, 3, 3, 3, 3]))]
               for _ in range(int(variables * rng.uniform(4.3, 5)))]
    return variables, clauses + rng.sample(clauses, 2)


def with_deletions(rng, clauses, steps):
    return [s for step in steps for s in [step] + ["d " + row(rng.sample(c, len(c))) for c in rng.sample(clauses, 1) if rng.random() < 0.3]]


def spoiled(rng, steps, variables):
    steps, place = steps[:], rng.randrange(len(steps))
    words = steps[place].split()
    kind = rng.choice(["literal", "left out", "no empty clause"])
    if kind == "literal" and len(words) > 1:
        words[-2] = str(rng.choice([1, -1]) * rng.randint(1, variables))
        steps[place] = " ".join(words)
    elif kind == "left out":
        del steps[place]
    else:
        steps = [s for s in steps if s != "0"]
    return steps


def verdict(checker, cnf, proof):
    run = subprocess.run([checker, cnf, proof], capture_output=True, text=True)
    line = re.search(r"line (\d+)", run.stdout + run.stderr)
    missing = "empty clause" in run.stdout + run.stderr
    return run.returncode, "no empty clause" if missing else line and line.group(1)


def main():
    ours, other = sys.argv[1:3]
    rounds, seed = map(int, (sys.argv[3:] + ["100", "1"][len(sys.argv) - 3:])[:2])
    rng, seen, differ = random.Random(seed), collections.Counter(), 0
    room = pathlib.Path(tempfile.mkdtemp())
    cnf, proof = room / "formula.cnf", room / "proof.drat"
    for _ in range(rounds):
        variables, clauses = formula(rng)
        cnf.write_text(f"p cnf {variables} {len(clauses)}\n" + "".join(row(c) + "\n" for c in clauses))
        if subprocess.run(["picosat", "-R", proof, cnf], capture_output=True).returncode != 20:
            continue
        steps = [s.strip() for s in proof.read_text().splitlines() if not s.startswith("%")]
        deleting = with_deletions(rng, clauses, steps)
        for text in [steps, deleting, spoiled(rng, steps, variables), spoiled(rng, deleting, variables)]:
            proof.write_text("".join(s + "\n" for s in text))
            a, b = verdict(ours, cnf, proof), verdict(other, cnf, proof)
            seen["verified" if a[0] == 0 else "not verified"] += 1
            if a != b:
                differ += 1
                (room / f"differs{differ}.cnf").write_text(cnf.read_text())
                (room / f"differs{differ}.drat").write_text(proof.read_text())
                print(f"{room}/differs{differ}: {a} and {b}")
    print(dict(seen), differ, "differ")
    sys.exit(differ > 0)


main()
