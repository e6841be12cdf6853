#!/usr/bin/env python3
"""How fast are `plain` and `run` beside another engine of the same rules?

    bench/runs.py PROGRAM YARDSTICK [--small] [--tries NUMBER] [--limit SECONDS]

YARDSTICK is the path of a program that takes the same words and writes the same bytes; none is in the repository. For
each graph and number of places a line has the processor seconds of both (user and system, the best of NUMBER tries),
their peak memory in MB, the ratios of PROGRAM to YARDSTICK, and whether output and trace are equal to the byte. The
lines `crash` and `spare` have a crash after the first commit, without and with a spare. --small leaves out the graphs of
1048576 ids. A run that takes longer than the limit (300 seconds) is ended. The status is 1 if a run differs.
"""
import argparse, filecmp, os, pathlib, subprocess, sys, tempfile, time

HERE = pathlib.Path(__file__).resolve().parent
CRASH = 'settle\ncrash 1\nfinish\n'
GRAPHS = {  # the words of graphs.py, the numbers of places, and the numbers of places that are played with a crash too
    'rmat 131072 400000 1': ((1, 4, 16), (4,)),
    'road 102400 0 1': ((4, 16), ()),
    'rmat 1024 4000 1': ((16, 64), ()),
    'rmat 1048576 4190000 1': ((4, 16), ()),
    'road 1048576 0 1': ((), ()),
}


def cost(words, out, limit):
    """The status of a run, None if it was ended, its processor seconds and its peak memory in MB."""
    with open(out, 'wb') as to:
        child = subprocess.Popen(words, stdout=to, stderr=subprocess.DEVNULL)
    end = time.monotonic() + limit
    while True:
        pid, status, used = os.wait4(child.pid, os.WNOHANG)
        if pid:
            child.returncode = os.waitstatus_to_exitcode(status)
            return child.returncode, used.ru_utime + used.ru_stime, used.ru_maxrss / 1024
        if time.monotonic() > end:
            child.kill()
            os.wait4(child.pid, 0)
            child.returncode = -9
            return None, float(limit), 0.0
        time.sleep(0.005)


def best(words, out, tries, limit):
    """The best of some tries; only one if the first is long."""
    costs = []
    for _ in range(tries):
        costs.append(cost(words, out, limit))
        if costs[-1][0] is None or costs[-1][1] > 20:
            break
    return costs[-1][0], min(c[1] for c in costs), max(c[2] for c in costs)


def forms(places, crashes):
    """The name, the number of places, the schedule and the number of spares of each run; `plain` has no schedule."""
    yield 'plain', 1, None, 0
    for count in places:
        yield str(count), count, 'finish\n', 0
    for count in crashes:
        yield f'{count} crash', count, CRASH, 0
        yield f'{count} spare', count, CRASH, 1


def main():
    parser = argparse.ArgumentParser(description=__doc__, formatter_class=argparse.RawDescriptionHelpFormatter)
    parser.add_argument('program')
    parser.add_argument('yardstick')
    parser.add_argument('--small', action='store_true')
    parser.add_argument('--tries', type=int, default=3)
    parser.add_argument('--limit', type=int, default=300)
    given = parser.parse_args()
    program, yardstick = os.path.abspath(given.program), os.path.abspath(given.yardstick)
    differ = 0
    with tempfile.TemporaryDirectory() as folder:
        os.chdir(folder)
        print(f'{"graph":24} {"places":>8} {"ours s":>8} {"yard s":>7} {"ratio":>6} {"ours MB":>8} {"yard MB":>8} {"ratio":>6}')
        for graph, (places, crashes) in GRAPHS.items():
            if given.small and '1048576' in graph:
                continue
            with open('g', 'wb') as to:
                subprocess.run([sys.executable, HERE / 'graphs.py', *graph.split()], stdout=to, check=True)
            for name, count, schedule, spares in forms(places, crashes):
                pathlib.Path('s').write_text(schedule or '')
                pathlib.Path('j').write_text(f'places = {count}\nspares = {spares}\nlosses = 1\nrounds = 10000\nprogram = "shortest"\nsource = 0\n')
                words = ['plain', 'g', 'j'] if schedule is None else ['run', 'g', 'j', 's']
                ours = best([program, *words, *([] if schedule is None else ['t1'])], 'o1', given.tries, given.limit)
                yard = best([yardstick, *words, *([] if schedule is None else ['t2'])], 'o2', given.tries, given.limit)
                same = filecmp.cmp('o1', 'o2', shallow=False) and (schedule is None or filecmp.cmp('t1', 't2', shallow=False))
                if ours[0] is None:
                    said = f'ended after {given.limit} s'
                else:
                    said = 'equal' if ours[0] == 0 and same else f'DIFFERS, status {ours[0]}'
                    differ += said != 'equal'
                print(f'{graph:24} {name:>8} {ours[1]:8.2f} {yard[1]:7.2f} {ours[1] / max(yard[1], 0.005):6.1f} {ours[2]:8.0f} {yard[2]:8.0f} {ours[2] / max(yard[2], 1):6.1f}  {said}', flush=True)
    sys.exit(1 if differ else 0)


main()
