#!/usr/bin/env python3
"""Plays small runs once for each request for memory, with just that request refused.

    bench/refused.py PROGRAM

Three runs of a triangle are played: one without a crash, one that goes on by migration, and one in which a second place
fails while it appends to its log. A library that is loaded before the program refuses one request for memory. Each run
must then end with status 1, with the line `out of memory` once the words are read, and its trace must be a first part of the
whole trace. It needs `gcc`. A line for each run says how many requests were refused; the status is 0 if all ended so.
"""
import argparse, os, pathlib, subprocess, sys, tempfile

SHIM = r'''
#define _GNU_SOURCE
#include <dlfcn.h>
#include <errno.h>
#include <stdlib.h>
static long left = -2;
static int refuses(void) {
    if (left == -2) { const char *n = getenv("REFUSED"); left = n ? atol(n) : -1; }
    return left > 0 && --left == 0;
}
#define REAL(name) static __typeof__(&name) real; if (!real) real = (__typeof__(&name))dlsym(RTLD_NEXT, #name)
void *malloc(size_t n) { REAL(malloc); if (refuses()) { errno = ENOMEM; return 0; } return real(n); }
void *realloc(void *p, size_t n) { REAL(realloc); if (refuses()) { errno = ENOMEM; return 0; } return real(p, n); }
void *aligned_alloc(size_t a, size_t n) { REAL(aligned_alloc); if (refuses()) { errno = ENOMEM; return 0; } return real(a, n); }
int posix_memalign(void **p, size_t a, size_t n) { REAL(posix_memalign); if (refuses()) return ENOMEM; return real(p, a, n); }
'''
GRAPH = '0 1\n1 2\n0 2\n'
TWO = 'places = 2\nprogram = "shortest"\nsource = 0\n'
FOUR = 'places = 4\nlosses = 2\nprogram = "shortest"\nsource = 0\n'


def each(word, places, count):
    """So many works or deliveries, place by place."""
    return [f'{word} {place}' for place in places for _ in range(count)]


RUNS = {
    'no crash': (TWO, ['finish']),
    'a crash, and migration': (TWO, ['settle', 'crash 0', 'barrier', 'finish']),
    'a second crash while a place appends': (FOUR, [
        'settle', 'crash 0', 'barrier', 'recover', *each('work', (1, 2, 3), 5), *each('deliver', (0,), 6), *each('work', (1, 2, 3), 3),
        *each('deliver', (0,), 6), 'work 1', 'work 1', 'crash 1 keep 7', 'finish']),
}


def play(program, folder, refused=None):
    """The status, both streams and the trace of a run."""
    surroundings = dict(os.environ, LD_PRELOAD=str(folder / 'shim.so'), **({'REFUSED': str(refused)} if refused else {}))
    trace = folder / 't'
    trace.unlink(missing_ok=True)
    run = subprocess.run([program, 'run', 'g', 'j', 's', 't'], cwd=folder, env=surroundings, capture_output=True, timeout=60)
    return run.returncode, run.stdout, run.stderr, trace.read_bytes() if trace.exists() else b''


def main():
    parser = argparse.ArgumentParser(description=__doc__, formatter_class=argparse.RawDescriptionHelpFormatter)
    parser.add_argument('program')
    program = os.path.abspath(parser.parse_args().program)
    wrong = 0
    with tempfile.TemporaryDirectory() as name:
        folder = pathlib.Path(name)
        (folder / 'shim.c').write_text(SHIM)
        subprocess.run(['gcc', '-O1', '-shared', '-fPIC', '-o', folder / 'shim.so', folder / 'shim.c', '-ldl'], check=True)
        for run, (job, lines) in RUNS.items():
            for file, content in (('g', GRAPH), ('j', job), ('s', '\n'.join(lines) + '\n')):
                (folder / file).write_text(content)
            whole = play(program, folder)
            assert whole[0] == 0, whole
            refused, bad = 0, 0
            while (seen := play(program, folder, refused + 1)) != whole:
                refused += 1
                if seen[0] != 1 or seen[1] not in (b'', whole[1][:len(seen[1])]) or seen[2] not in ((b'out of memory\n',) if seen[3] else (b'out of memory\n', b'')) or not whole[3].startswith(seen[3]):
                    bad += 1
                    print(f'{run}: request {refused} refused: status {seen[0]}, {seen[2]!r}, {len(seen[3])} bytes of trace')
            print(f'{run}: {refused} requests refused one at a time, {bad} of them with another end')
            wrong += bad + (refused == 0)
    sys.exit(1 if wrong else 0)


main()
