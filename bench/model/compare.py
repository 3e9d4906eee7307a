"""Compares the program with the model on drawn lists: python3 compare.py BOOK FIRST LAST [COUNT]
For each seed from FIRST to LAST a list of COUNT commands (300) is run in two runs over a new book in a file. An even seed
draws mostly matches, marks and reconciliations, an odd one imports; every third one mostly voids. The answers are
compared byte by byte, and then the rows of the file with those of the model. The first difference of a seed is shown."""
import os
import sqlite3
import subprocess
import sys
import tempfile
sys.path.insert(0, os.path.dirname(os.path.abspath(__file__)))
from draw import Draw
from rows import opened, rows


def one(book, seed, count):
    lines = list(Draw(seed, seed % 2 == 0, seed % 3 == 0).lines(count))
    cut = count * 2 // 3
    have, failed = {}, None
    with tempfile.TemporaryDirectory() as folder:
        path = os.path.join(folder, 'a.book')
        for part in (lines[:cut], lines[cut:]):
            data = ''.join(x + '\n' for x in part).encode()
            got = subprocess.run([book, 'run', path], input=data, stdout=subprocess.PIPE).stdout.decode('utf-8', 'replace').split('\n')
            machine = opened(have)
            want = machine.run(data).split('\n')
            have = rows(machine)
            for i, (g, v) in enumerate(zip(got + ['(end)'], want + ['(end)'])):
                if g != v:
                    line = part[i] if i < len(part) else ''
                    return f'seed {seed}: {line[:600]}\n  program {g[:600]}\n  model   {v[:600]}'
        kept = {(k, n): bytes(b) for k, n, b in sqlite3.connect(path).execute('SELECT kind, id, body FROM bk_rows')}
        for key in sorted(set(kept) | set(have)):
            if kept.get(key) != have.get(key):
                show = lambda b: b.hex()[:400] if b is not None else None
                return f'seed {seed}: row {key}\n  program {show(kept.get(key))}\n  model   {show(have.get(key))}'
    return failed


if __name__ == '__main__':
    book, first, last = sys.argv[1], int(sys.argv[2]), int(sys.argv[3])
    count = int(sys.argv[4]) if len(sys.argv) > 4 else 300
    bad = 0
    for seed in range(first, last + 1):
        text = one(os.path.abspath(book), seed, count)
        if text:
            bad += 1
            print(text)
    print(last - first + 1, 'lists,', bad, 'differ')
