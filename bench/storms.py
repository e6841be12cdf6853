#!/usr/bin/env python3
"""storms.py PROGRAM YARDSTICK COUNT SEED: random small worlds, played by PROGRAM and by another engine of the same rules.

A world is a graph, a job and a schedule: every program, both kinds of vertices, 1 to 6 places, 0 to 3 losses and spares,
and a schedule with crashes at every moment, torn log tails, rebirths, discards, repairs, drops and late deliveries.
YARDSTICK is any program with the same `run GRAPH JOB SCHEDULE TRACE`. Status, output and trace must be equal to the byte.
The worlds of a seed are always the same. A world that differs is printed with its number and kept in the folder
`storm-NUMBER`. The last line counts the worlds by status; the exit status is 0 if all were equal.
"""
import argparse, collections, concurrent.futures, os, pathlib, random, subprocess, sys, tempfile

PROGRAMS = ('shortest', 'hops', 'labels', 'rank', 'indegree', 'core', 'reach')
LIMIT = 60  # seconds for one play


def graph_of(draw):
    """The text of a small graph, now and then with lone vertices, loops, repeated edges and high vertices."""
    ids = draw.sample(range(draw.choice((4, 12, 40))), draw.randint(1, 4)) if draw.random() < 0.1 else list(range(draw.randint(1, 14)))
    hub = draw.choice(ids)
    lines = [f'{v}' for v in ids if draw.random() < 0.15]
    for _ in range(draw.randint(0, 3 * len(ids))):
        target = hub if draw.random() < 0.3 else draw.choice(ids)
        weight = f' {draw.randint(0, 9)}' if draw.random() < 0.4 else ''
        lines.append(f'{draw.choice(ids)} {target}{weight}')
    draw.shuffle(lines)
    return '\n'.join(lines) + '\n' if lines else '', ids


def job_of(draw, ids, most_places):
    """The text of a job, and its number of places."""
    places = draw.randint(1, most_places)
    program = draw.choice(PROGRAMS)
    keys = [f'places = {places}', f'program = "{program}"', f'spares = {draw.choice((0, 0, 1, 2, 3))}',
            f'losses = {draw.randint(0, 3)}', f'theta = {draw.choice((0, 1, 2, 3, 100))}']
    if draw.random() < 0.3:
        keys.append(f'rounds = {draw.randint(1, 5)}')
    if draw.random() < 0.3:
        keys.append('undirected = true')
    if program in ('shortest', 'hops'):
        keys.append(f'source = {draw.choice(ids)}')
    if program == 'core':
        keys.append(f'k = {draw.randint(0, 3)}')
    if program == 'reach':
        keys.append(f'seeds = {draw.sample(ids, min(len(ids), draw.randint(0, 3)))}')
    return '\n'.join(keys) + '\n', places


def event_of(draw, places):
    """One random event line."""
    p = draw.randrange(places)
    kind = draw.random()
    if kind < 0.40:
        return f'work {p}'
    if kind < 0.62:
        return f'deliver {draw.choice((0, 0, 0, 1, 2, 5))}'
    if kind < 0.66:
        return f'drop {draw.choice((0, 0, 1, 3))}'
    if kind < 0.74:
        return f'crash {p}' if draw.random() < 0.5 else f'crash {p} keep {draw.choice((1, 7, 17, 22, 40, 66, 1000))}'
    if kind < 0.84:
        return 'barrier'
    if kind < 0.92:
        named = sorted(draw.sample(range(places), draw.randint(1, places)))
        return 'recover' if draw.random() < 0.5 else 'recover rebirth ' + ' '.join(map(str, named))
    return 'repair' if draw.random() < 0.6 else 'discard'


def calm(draw, places):
    """A stretch of the schedule that brings the run on: canonical events, or the works of all places in some order."""
    if draw.random() < 0.5:
        return ['settle']
    lines = []
    for _ in range(draw.randint(1, 30)):
        lines += [f'work {draw.randrange(places)}'] * draw.randint(1, 4) if draw.random() < 0.6 else ['deliver 0'] * draw.randint(1, 4)
    return lines


def burst(draw, places):
    """A crash with what usually follows it, so that recoveries are reached and then disturbed again."""
    lost = draw.randrange(places)
    keep = f' keep {draw.choice((1, 21, 22, 23, 44, 100))}' if draw.random() < 0.3 else ''
    lines = [f'crash {lost}{keep}'] + (['barrier'] if draw.random() < 0.8 else [])
    lines += [draw.choice(('recover', f'recover rebirth {lost}'))] if draw.random() < 0.8 else []
    for _ in range(draw.randint(0, 40)):
        lines.append(f'work {draw.randrange(places)}' if draw.random() < 0.6 else 'deliver 0')
    if draw.random() < 0.3:
        lines.append(draw.choice(('discard', f'crash {draw.randrange(places)} keep {draw.randint(0, 60)}', 'repair', 'barrier')))
    return lines


def schedule_of(draw, places):
    """The text of a schedule."""
    lines = []
    for _ in range(draw.randint(1, 7)):
        part = draw.random()
        if part < 0.45:
            lines += calm(draw, places)
        elif part < 0.75:
            lines += burst(draw, places)
        else:
            lines += [event_of(draw, places) for _ in range(draw.randint(1, 25))]
    if draw.random() < 0.7:
        lines.append('finish')
    return '\n'.join(lines) + '\n'


def world_of(seed, number, most_places):
    """The three files of a world."""
    draw = random.Random(f'{seed} {number}')
    graph, ids = graph_of(draw)
    job, places = job_of(draw, ids, most_places)
    return {'graph': graph, 'job': job, 'schedule': schedule_of(draw, places)}


def played(program, folder, trace):
    """Status, output and trace of one play."""
    ran = subprocess.run([program, 'run', 'graph', 'job', 'schedule', trace], cwd=folder, stdin=subprocess.DEVNULL,
                         stdout=subprocess.PIPE, stderr=subprocess.DEVNULL, timeout=LIMIT)
    kept = pathlib.Path(folder, trace)
    return ran.returncode, ran.stdout, kept.read_bytes() if kept.is_file() else None


def compared(task):
    """Plays one world by both; the status, and what differs, if anything does."""
    program, yardstick, seed, number, most_places = task
    with tempfile.TemporaryDirectory() as folder:
        files = world_of(seed, number, most_places)
        for name, text in files.items():
            pathlib.Path(folder, name).write_text(text)
        try:
            ours, theirs = played(program, folder, 'ours'), played(yardstick, folder, 'theirs')
        except subprocess.TimeoutExpired:
            ours, theirs = (None, b'', None), (0, b'', None)
        if ours == theirs:
            return ours[0], number, None
        kept = pathlib.Path(f'storm-{number}')
        kept.mkdir(exist_ok=True)
        for name, text in files.items():
            (kept / name).write_text(text)
        parts = [what for what, a, b in zip(('status', 'output', 'trace'), ours, theirs) if a != b]
        return ours[0], number, f'world {number}: {" and ".join(parts)} differ (status {ours[0]} and {theirs[0]})'


def main():
    words = argparse.ArgumentParser(usage=__doc__)
    words.add_argument('program')
    words.add_argument('yardstick')
    words.add_argument('count', type=int)
    words.add_argument('seed', type=int)
    words.add_argument('--places', type=int, default=6, help='the most places of a world')
    words.add_argument('--jobs', type=int, default=os.cpu_count(), help='how many worlds are played at once')
    given = words.parse_args()
    program, yardstick = os.path.abspath(given.program), os.path.abspath(given.yardstick)
    tasks = ((program, yardstick, given.seed, number, given.places) for number in range(given.count))
    by_status, differ = collections.Counter(), 0
    with concurrent.futures.ThreadPoolExecutor(given.jobs) as pool:
        for status, _, fault in pool.map(compared, tasks):
            by_status[status] += 1
            if fault:
                differ += 1
                print(fault, flush=True)
    counts = ', '.join(f'{count} with status {status}' for status, count in sorted(by_status.items(), key=str))
    print(f'{given.count} worlds of seed {given.seed}: {counts}; {differ} differ')
    sys.exit(1 if differ else 0)


if __name__ == '__main__':
    main()
