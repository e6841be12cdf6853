#!/usr/bin/env python3
"""Reads ranks as `imitate` prints them, and prints the highest ten (or COUNT) with the packages' names.

A rank of 1 is the mean if every package depends on some other. Of equal ranks the one with the least name comes first.
"""
import argparse
import pathlib
import sys

words = argparse.ArgumentParser(description=__doc__, formatter_class=argparse.RawDescriptionHelpFormatter)
words.add_argument('count', nargs='?', type=int, default=10, metavar='COUNT')
words.add_argument('--names', type=pathlib.Path, default=pathlib.Path(__file__).resolve().with_name('names'), metavar='FILE',
                   help='the names of the packages; those beside this script if it is not given')
given = words.parse_args()

names = dict(line.split() for line in given.names.read_text().splitlines())
first, *lines = sys.stdin.read().splitlines() or ['nothing']
if not first.startswith('done '):
    sys.exit(f'top.py: no ranks, but: {first}')
ranks = sorted((-int(value), names[vertex]) for vertex, value in map(str.split, lines))
for value, name in ranks[:given.count]:
    print(f'{-value / 1000000:10.6f}  {name}')
