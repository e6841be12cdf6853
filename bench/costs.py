#!/usr/bin/env python3
"""Says what a run on the modelled cluster costs beside `plain`.

    bench/costs.py PROGRAM [--most EDGES] [--limit SECONDS]

For graphs of 10000, 100000 and 400000 edges (no more than EDGES), shortest ways from one vertex: a row for `plain`, and
one for `run` with the schedule `finish` for 1, 4 and 16 places and 0 and 1 losses. A row has the wall time, the peak
memory of the process, the bytes of the trace, the rounds, the steps (lines of the trace) and whether the output is that of
`plain`, byte for byte. A run that takes longer than SECONDS (300) is ended and its row says so. The exit status is 0
if every run that ended printed what `plain` printed. The trace is written in the folder for temporary files (TMPDIR).
"""
import argparse, filecmp, os, pathlib, signal, subprocess, sys, tempfile

TIME = '/usr/bin/time'
SIZES = (10000, 100000, 400000)
HEAD = f'{"edges":>8} {"words":>6} {"places":>6} {"losses":>6} {"time s":>9} {"memory MB":>9} {"trace bytes":>12} {"rounds":>6} {"steps":>8}  output'


def measured(words, out, limit):
    """Runs the words; returns the status, None if the limit passed, the wall time, and the peak memory in MB."""
    cost = f'{out}.cost'
    with open(out, 'wb') as taken:
        child = subprocess.Popen([TIME, '-f', '%e %M', '-o', cost, *words], stdin=subprocess.DEVNULL, stdout=taken, start_new_session=True)
        try:
            status = child.wait(limit)
        except subprocess.TimeoutExpired:
            os.killpg(child.pid, signal.SIGKILL)
            child.wait()
            return None, limit, '-'
    seconds, memory = pathlib.Path(cost).read_text().split()[-2:]
    return status, seconds, f'{int(memory) / 1024:.1f}'


def lines_of(name):
    """The number of lines of a file, which may be large."""
    with open(name, 'rb') as file:
        return sum(piece.count(b'\n') for piece in iter(lambda: file.read(1 << 20), b''))


def told(status, limit, plain, out):
    """What a row says of its output; `plain` is the file of the output of `plain`, None if that did not end well."""
    if status is None:
        return f'ended after {limit} s'
    if status != 0:
        return f'FAILED, status {status}'
    if plain == out:
        return '-'
    if plain is None:
        return 'nothing to compare with'
    return 'as plain' if filecmp.cmp(plain, out, shallow=False) else 'DIFFERS'


def compared(program, folder, edges, limit):
    """Prints the rows of one graph; returns whether all runs that ended printed what `plain` printed."""
    graph, job, schedule, trace, plain, out = (f'{folder}/{name}' for name in ('graph', 'job', 'schedule', 'trace', 'plain', 'out'))
    vertices = 1 << (edges // 4).bit_length() - 1
    maker = pathlib.Path(__file__).resolve().with_name('graphs.py')
    with open(graph, 'wb') as made:
        subprocess.run([sys.executable, str(maker), 'rmat', str(vertices), str(edges), '1'], stdout=made, check=True)
    pathlib.Path(schedule).write_text('finish\n')
    answers = []
    for places, losses in ((None, None), *((places, losses) for places in (1, 4, 16) for losses in (0, 1))):
        pathlib.Path(job).write_text(f'places = {places or 1}\nlosses = {losses or 0}\nprogram = "shortest"\nsource = 0\n')
        words = ['plain', graph, job] if places is None else ['run', graph, job, schedule, trace]
        to = plain if places is None else out
        status, seconds, memory = measured([program, *words], to, limit)
        if places is None and status != 0:
            plain = None
        answers.append(told(status, limit, plain, to))
        traced = os.path.exists(trace)
        first = open(to).readline().split() if status == 0 else []
        cells = (edges, words[0], places or '-', '-' if losses is None else losses, seconds, memory,
                 os.path.getsize(trace) if traced else '-', first[1] if len(first) == 3 else '-', lines_of(trace) if traced else '-')
        print(' '.join(f'{cell:>{width}}' for cell, width in zip(cells, (8, 6, 6, 6, 9, 9, 12, 6, 8))), answers[-1], sep='  ', flush=True)
        if traced:
            os.remove(trace)
    return not any(answer.startswith(('FAILED', 'DIFFERS')) for answer in answers)


def main():
    words = argparse.ArgumentParser(description=__doc__, formatter_class=argparse.RawDescriptionHelpFormatter)
    words.add_argument('program', metavar='PROGRAM')
    words.add_argument('--most', type=int, default=SIZES[-1], metavar='EDGES')
    words.add_argument('--limit', type=int, default=300, metavar='SECONDS')
    given = words.parse_args()
    if not os.access(TIME, os.X_OK):
        sys.exit(f'costs.py: {TIME} is wanted; Debian has it in the package time')
    print(HEAD, flush=True)
    good = True
    for edges in SIZES:
        if edges <= given.most:
            with tempfile.TemporaryDirectory() as folder:
                good &= compared(os.path.abspath(given.program), folder, edges, given.limit)
    sys.exit(not good)


main()
