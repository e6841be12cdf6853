#!/usr/bin/env python3
"""Writes the dependency graph of this Debian system's packages, from dpkg's own records: `graph` and `names`, beside
this script. A package that is installed for several architectures counts once. `dependencies.py` has the further rules.
"""
import argparse
import pathlib
import subprocess

from dependencies import write_world

FIELDS = ('Package', 'db:Status-Status', 'Pre-Depends', 'Depends', 'Provides')


def records():
    """Yields each installed package, the fields of what it needs, and what it provides."""
    form = '\\t'.join('${%s}' % field for field in FIELDS) + '\\n'
    asked = subprocess.run(['dpkg-query', '-W', '-f=' + form], check=True, capture_output=True, text=True)
    for line in asked.stdout.splitlines():
        package, status, earlier, later, provided = line.split('\t')
        if status == 'installed':
            yield package, (earlier, later), provided


argparse.ArgumentParser(description=__doc__, formatter_class=argparse.RawDescriptionHelpFormatter).parse_args()
write_world(pathlib.Path(__file__).resolve().parent, records(),
            'Debian packages, by the numbers in the file names, and what each depends on; made by make.py')
