#!/usr/bin/env python3
"""Files at random, most of them slightly wrong, read by `varisat commands` and by the rules written here anew.

  random_files.py --run PROGRAM [--seed N] [--count K]

Each file is read by a program of its own, and the answer (the counts, or the refusal with what it shows) and the printed formula
are compared with those of `rules`. Ends with a line `K files, N differences`, and status 0 if there is none.
"""
import argparse
import os
import random
import re
import subprocess
import sys
import tempfile

LIMIT = 16384
BLANKS = b' \t\v\f'


class Wrong(Exception):
    pass


def header_of(row, line):
    """the numbers of a header line, from its `p` on"""
    if row[:2] != b'p ':
        raise Wrong(22, line)
    words = [w for w in re.split(b'[ \t\v\f]+', row[2:]) if w]
    numbers = []
    for word in words[1:3]:
        digits = word[1:] if word[:1] == b'+' else word
        good = digits.isdigit() and int(digits) < 2 ** 64
        numbers.append(int(digits) if good else None)
    if words[:1] != [b'cnf'] or not numbers or numbers[0] is None:
        raise Wrong(22, line)
    if numbers[0] > LIMIT:
        raise Wrong(21, line)
    if len(words) != 3 or numbers[1] is None:
        raise Wrong(22, line)
    return numbers


def rules(data):
    """the clauses of a file, or Wrong with the refusal's number and what is shown with it"""
    clauses, clause, header = [], [], None
    line, word, fresh, skipping = 1, b'', True, None

    def finish():
        nonlocal clause
        if word.lstrip(b'-'):
            number = int(word.lstrip(b'-'))
            if number == 0:
                clauses.append(clause)
                clause = []
            else:
                clause.append(-number if word[:1] == b'-' else number)

    for at, b in enumerate(data):
        line += b == 10
        if skipping is not None:
            if b in (10, 13):
                if data[skipping] == 112:
                    header = header_of(data[skipping:at], line)
                skipping, fresh = None, True
        elif 48 <= b <= 57:
            word += bytes([b])
            fresh = False
            if int(word.lstrip(b'-')) > LIMIT:
                raise Wrong(21, line)
        elif b == 45 and not word:
            word, fresh = b'-', False
        elif b in (10, 13, 32) and word != b'-':
            finish()
            word, fresh = b'', b != 32
        elif fresh and (b == 99 or (b == 112 and header is None)):
            skipping = at
        else:
            raise Wrong(20, line, b)
    if skipping is not None and data[skipping] == 112:
        header = header_of(data[skipping:], line)
    finish()
    if clause:
        raise Wrong(23, line)
    names = max((abs(l) for c in clauses for l in c), default=0)
    if header and names > header[0]:
        raise Wrong(24, names, header[0])
    if header and len(clauses) != header[1]:
        raise Wrong(25, len(clauses), header[1])
    if len(clauses) > 16384 or sum(map(len, clauses)) > 65536:
        raise Wrong(7)
    return clauses


def some_file(rng):
    """a small formula's text, with odd blanks, comments and line ends, and then some bytes changed"""
    names = rng.choice([3, 9, 120, 16384])
    clauses = [[rng.choice([1, -1]) * rng.randint(1, names) for _ in range(rng.randint(0, 4))] for _ in range(rng.randint(0, 5))]
    end = rng.choice([b'\n', b'\r\n', b'\r'])
    most = max((abs(l) for c in clauses for l in c), default=0)
    lines = [b' '.join([b'%d' % l for l in c] + [b'0']) for c in clauses]
    head = b'p' + rng.choice([b' ', b'  ']) + b'cnf ' + b'%d' % (most + rng.choice([0, 0, 1])) + rng.choice([b' ', b'\t']) + b'%d' % len(clauses)
    if rng.random() < 0.7:
        lines.insert(rng.choice([0, 0, len(lines)]), head)
    for _ in range(rng.randint(0, 2)):
        lines.insert(rng.randint(0, len(lines)), b'c' + rng.choice([b'', b' a comment', b' 1 2 0']))
    text = bytearray(end.join(lines) + rng.choice([end, b'']))
    for _ in range(rng.choice([0, 1, 1, 2, 5])):
        at = rng.randint(0, len(text))
        how = rng.random()
        byte = rng.choice(b'0123456789- \n\r\tcp+x%\x0b\x00\xff')
        if how < 0.4:
            text[at:at] = bytes([byte])
        elif how < 0.7 and at < len(text):
            text[at] = byte
        else:
            del text[at:at + rng.randint(1, 3)]
    return bytes(text)


def wanted(data):
    try:
        clauses = rules(data)
    except Wrong as wrong:
        return 'refused ' + ' '.join(map(str, wrong.args)), 'p cnf 0 0\n'
    most = max((abs(l) for c in clauses for l in c), default=0)
    text = ''.join(''.join('%d ' % l for l in c) + '0\n' for c in clauses)
    return '%d %d' % (most, len(clauses)), 'p cnf %d %d\n' % (most, len(clauses)) + text


def main():
    ask = argparse.ArgumentParser(description=__doc__, formatter_class=argparse.RawDescriptionHelpFormatter)
    ask.add_argument('--run', metavar='PROGRAM', required=True)
    ask.add_argument('--seed', type=int, default=1)
    ask.add_argument('--count', type=int, default=1000)
    args = ask.parse_args()
    rng, differences = random.Random(args.seed), 0
    with tempfile.TemporaryDirectory() as folder:
        name = os.path.join(folder, 'file.cnf')
        for _ in range(args.count):
            data = some_file(rng)
            with open(name, 'wb') as out:
                out.write(data)
            script = 'read %s\nprint\n' % name
            got = subprocess.run([args.run, 'commands'], input=script, capture_output=True, text=True, check=True).stdout
            answer, _, printed = got.partition('\n')
            if (answer.split(':')[0], printed) != wanted(data):
                differences += 1
                print(data, got, wanted(data), sep='\n  ')
    print('%d files, %d differences' % (args.count, differences))
    return differences > 0


if __name__ == '__main__':
    sys.exit(main())
