#!/usr/bin/env python3
"""wrong.py [--fit | --clone FOLDER] [CRATE..]: tries the wrong bodies of bench/wrong, each of which the contracts must refuse.

The gate tries two or four wrong bodies of a crate; the others stand in bench/wrong/CRATE/NAME.edit, in the same form.
This script puts those of the named crates (all if none is named) into the crates' must-fail folders of a clone of the
last commit, and runs `rt must-fail` there. A body passes if a clause refuses it. Listed are those that are still
proved, those that cannot be applied or read, and those that are refused only because a proof names what they took away
or by a limit of the prover. The last line counts; the exit status is 0 if all were refused by a clause.
With --clone the work is done in FOLDER, a clean clone that is kept, with the libraries that are built there.
It takes 5 to 50 seconds for each body, and first the proofs of the crates below. With --fit nothing is proved: it is only
checked that each body, also those of the gate, can be applied to the sources as they stand.
"""
import argparse, pathlib, re, shutil, subprocess, sys, tempfile

TOP = pathlib.Path(__file__).resolve().parents[1]
VERDICT = re.compile(r'(?:rt: )?must-fail (\S+)/(\S+)\.edit: (.*)')


def misfit(edit, crate):
    """Why a body cannot be applied to the sources of its crate; None if it can."""
    texts, path, old = {}, None, None
    for line in edit.read_text().splitlines():
        word, _, rest = line.partition(':')
        rest = rest.removeprefix(' ')
        if word == 'file':
            path = TOP / 'crates' / crate / rest.strip()
            if not path.is_file():
                return f'there is no {path.relative_to(TOP)}'
            texts.setdefault(path, path.read_text())
        elif word == 'old':
            old, times = rest, texts[path].count(rest) if path else 0
            if times != 1:
                return f'this stands {times} times, and not once: {old}'
        elif word == 'new' and path and old:
            texts[path] = texts[path].replace(old, rest)
    return None if old else 'it has no line `old: TEXT`'


def fitted(crates):
    """Prints each body that cannot be applied; returns whether all can."""
    edits = [(edit, edit.parent.name) for edit in sorted(TOP.glob('bench/wrong/*/*.edit'))]
    edits += [(edit, edit.parent.parent.name) for edit in sorted(TOP.glob('crates/*/must-fail/*.edit'))]
    edits = [(edit, crate) for edit, crate in edits if not crates or crate in crates]
    faults = [(edit, why) for edit, crate in edits if (why := misfit(edit, crate))]
    for edit, why in faults:
        print(f'{edit.relative_to(TOP)}: {why}')
    print(f'{len(edits) - len(faults)} fit, {len(faults)} do not')
    return not faults


def in_place(clone, crates):
    """Puts the wrong bodies of the crates in the place of those of the gate; returns how many there are."""
    count = 0
    for crate in crates:
        folder = clone / 'crates' / crate / 'must-fail'
        shutil.rmtree(folder, ignore_errors=True)
        folder.mkdir()
        for edit in sorted((TOP / 'bench' / 'wrong' / crate).glob('*.edit')):
            shutil.copy(edit, folder)
            count += 1
    return count


def kind_of(verdict):
    """What a verdict comes to: refused by a clause, or why it says little."""
    if verdict.startswith('refused, as it must be'):
        if '(only because a proof file' in verdict:
            return 'only a proof refuses'
        return 'only a limit refuses' if '(only by a limit' in verdict else 'refused'
    for word in ('NOT REFUSED', 'BAD EDIT', 'NOT TRIED'):
        if verdict.startswith(word):
            return word
    return 'NOT TRIED'


def tried(clone, crates):
    """Runs the bodies; prints each that no clause refuses, and returns the number of refused and of tried ones."""
    ran = subprocess.Popen(['rt', 'must-fail', *crates], cwd=clone, stdout=subprocess.PIPE, stderr=subprocess.STDOUT, text=True)
    refused = seen = 0
    for line in ran.stdout:
        found = VERDICT.match(line)
        if not found:
            continue
        seen += 1
        kind = kind_of(found[3])
        refused += kind == 'refused'
        if kind != 'refused':
            print(f'{found[1]}/{found[2]}: {kind}: {found[3][:160]}', flush=True)
    ran.wait()
    return refused, seen


def main():
    words = argparse.ArgumentParser(usage=__doc__)
    words.add_argument('--clone', type=pathlib.Path)
    words.add_argument('--fit', action='store_true')
    words.add_argument('crates', nargs='*')
    given = words.parse_args()
    if given.fit:
        sys.exit(not fitted(given.crates))
    crates = given.crates or sorted(folder.name for folder in (TOP / 'bench' / 'wrong').iterdir() if folder.is_dir())
    with tempfile.TemporaryDirectory() as room:
        clone = given.clone or pathlib.Path(room, 'clone')
        if not clone.exists():
            subprocess.run(['git', 'clone', '-q', TOP, clone], check=True)
        count = in_place(clone, crates)
        refused, seen = tried(clone.resolve(), crates)
    print(f'{refused} of {count} wrong bodies refused by a clause' + (f', {count - seen} not tried' if seen < count else ''))
    sys.exit(0 if refused == count else 1)


if __name__ == '__main__':
    main()
