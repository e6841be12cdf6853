#!/usr/bin/env python3
"""Writes the dependency graph of all packages that this Debian system knows, from the lists that `apt-get update` keeps.

The files `graph` and `names` are written beside this script. The lists are those of /var/lib/apt/lists, by the order of
their names; of several records of a package the first one counts. `../packages/dependencies.py` has the further rules.
If there are no lists, the script says so and writes nothing; its status is then 1.
"""
import argparse
import pathlib
import subprocess
import sys

HERE = pathlib.Path(__file__).resolve().parent
sys.path.insert(0, str(HERE.parent / 'packages'))
from dependencies import write_world  # noqa: E402 (it stands in the folder of the other world)

LISTS = pathlib.Path('/var/lib/apt/lists')
READER = '/usr/lib/apt/apt-helper'  # it reads a list in whichever form apt keeps it


def records(lists):
    """Yields each package of the lists once, the fields of what it needs, and what it provides."""
    seen = set()
    for file in lists:
        text = subprocess.run([READER, 'cat-file', file], check=True, capture_output=True, text=True).stdout
        for record in text.split('\n\n'):
            fields = dict(line.split(': ', 1) for line in record.splitlines() if ': ' in line and not line.startswith(' '))
            package = fields.get('Package')
            if package and package not in seen:
                seen.add(package)
                yield package, (fields.get('Pre-Depends', ''), fields.get('Depends', '')), fields.get('Provides', '')


argparse.ArgumentParser(description=__doc__, formatter_class=argparse.RawDescriptionHelpFormatter).parse_args()
found = sorted(file for file in LISTS.glob('*_Packages*')) if pathlib.Path(READER).exists() else []
if not found:
    sys.exit(f'make.py: {LISTS} has no lists of packages; on a Debian system `apt-get update` brings them')
write_world(HERE, records(found), 'All packages of a Debian system, by the numbers in the file names, and what each depends on; made by make.py')
