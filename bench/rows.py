#!/usr/bin/env python3
"""Runs worked inputs through real files, byte for byte.

    bench/rows.py PROGRAM [WORD]

Each row runs PROGRAM in a fresh folder with the files g (graph), j (job), s (schedule) and t (trace) that the row
has, and compares the status, both streams and the trace. A line names each row that fails, and the last line says how many
passed; the exit status is 0 if all did. WORD picks the rows of one form of words, `plain`, `run` or `load`.
"""
import argparse, dataclasses, os, pathlib, re, subprocess, sys, tempfile

LIMIT = 60  # seconds for one row
PLAIN, RUN = 'plain g j', 'run g j s t'
USAGE = 'usage: imitate run GRAPH JOB SCHEDULE TRACE, plain GRAPH JOB, load SEED SIZE'


@dataclasses.dataclass
class Row:
    """What a run is given and what it must answer. A text's lines are parted by ` / `, the bytes of a file stand as they are."""
    name: str
    words: str
    graph: bytes | str | None = None
    job: str | None = None
    schedule: str | None = None
    status: int = 0
    out: str = ''
    err: str = ''
    full: bool = False  # standard output is a full disk
    folders: tuple = ()  # names that are folders
    before: bytes | None = None  # the trace before the run
    trace: str | bytes | None = None  # the whole trace; None if none may be made
    lines: dict = dataclasses.field(default_factory=dict)  # lines of the trace by number, from the end if negative
    has: tuple = ()  # lines that the trace has
    part: bytes | str | None = None  # lines that stand together in the trace
    lacks: str | None = None  # a pattern that the trace does not have
    ends: str | None = None  # how some line of the trace ends


def text(lines):
    """The bytes of a text whose lines are parted by ` / `."""
    if lines is None or isinstance(lines, bytes):
        return lines
    return ''.join(line + '\n' for line in lines.split(' / ')).encode() if lines else b''


def job(program, places=2, **more):
    """The text of a job, one key a line."""
    keys = [f'places = {places}', f'program = "{program}"']
    return ' / '.join(keys + [f'{key} = {value}' for key, value in more.items()])


def times(*pairs):
    """A schedule of lines, each so many times."""
    return ' / '.join(line for line, count in pairs for _ in range(count))


TRIANGLE = '0 1 / 1 2 / 0 2'
SHORTEST = job('shortest', source=0)
WAYS = 'done 2 3 / 0 0 / 1 1 / 2 1'
BARE = 'places = 2 / losses = 0 / theta = 4294967295 / program = "shortest" / source = 0'
BARE_ALONE = BARE.replace('places = 2', 'places = 1')
STAR = ' / '.join(f'{v} 0' for v in range(1, 7))
INTO_STAR = 'done 1 7 / 0 6 / 1 0 / 2 0 / 3 0 / 4 0 / 5 0 / 6 0'
RANKED = 'done 2 2 / 0 150000 / 1 277500'
MANY_FORMS = b'# Directed graph\r\n# FromNodeId\tToNodeId\r\n0\t1\r\n1\t2'
ONE_EDGE = 'done 1 2 / 0 0 / 1 1'
ALONE = ('work 0 compute gather / work 0 compute update / work 0 compute signal / work 0 compute call'
         ' / work 0 compute end / work 0 ready 0')
ALONE_WHOLE = ALONE + ' / barrier committed 1 round 1 due 0'
TWO_PLACES = b'''work 0 compute gather
work 0 send 0 gather to 1
delivered 0 from 0 to 1 epoch 0 round 0 gather taken
work 1 compute gather
work 1 send 1 gather to 0
delivered 1 from 1 to 0 epoch 0 round 0 gather taken
work 0 compute update
work 0 send 2 update to 1
delivered 2 from 0 to 1 epoch 0 round 0 update taken 0:0:0
work 1 compute update
work 1 send 3 update to 0
delivered 3 from 1 to 0 epoch 0 round 0 update taken
work 0 compute signal
work 0 send 4 signal to 1
delivered 4 from 0 to 1 epoch 0 round 0 signal taken
work 1 compute signal
work 1 send 5 signal to 0
delivered 5 from 1 to 0 epoch 0 round 0 signal taken
work 0 compute call
work 0 send 6 call to 1
delivered 6 from 0 to 1 epoch 0 round 0 call taken
work 1 compute call
work 1 send 7 call to 0
delivered 7 from 1 to 0 epoch 0 round 0 call taken
work 0 compute end
work 0 ready 0
work 1 compute end
work 1 ready 0
barrier committed 1 round 1 due 0
'''
LAST_OF_WAYS = {0: 'work 0 compute gather', -1: 'barrier committed 2 round 2 due 0'}
OUT_OF_ORDER = 'work 0 / work 0 / work 1 / work 1 / deliver 1 / deliver 0'
BOTH_SENT = 'work 0 compute gather / work 0 send 0 gather to 1 / work 1 compute gather / work 1 send 1 gather to 0'
SWAPPED = (BOTH_SENT + ' / delivered 1 from 1 to 0 epoch 0 round 0 gather taken'
           ' / delivered 0 from 0 to 1 epoch 0 round 0 gather taken')
PART_SENT = 'work 1 compute gather / work 1 send 0 gather to 0 / delivered 0 from 1 to 0 epoch 0 round 0 gather taken'

PLAIN_ROWS = [
    Row('triangle, shortest ways', PLAIN, TRIANGLE, SHORTEST, out=WAYS),
    Row('triangle, shortest ways, every key of the cluster given', PLAIN, TRIANGLE, BARE, out=WAYS),
    Row('no vertex', PLAIN, '', SHORTEST, out='done 0 0'),
    Row('blanks in a row part numbers', PLAIN, b'0  1\n', SHORTEST, out='done 1 2 / 0 0 / 1 1'),
    Row('comments, tabs, line ends of two bytes and no last one', PLAIN, MANY_FORMS, job('labels', places=1),
        out='done 2 3 / 0 0 / 1 0 / 2 0'),
    Row('a vertex that is not reached', PLAIN, '7', SHORTEST, out='done 1 1 / 7 inf'),
    Row('rank after one round', PLAIN, '0 1', job('rank', rounds=1), out='done 1 2 / 0 150000 / 1 1000000'),
    Row('rank to its end', PLAIN, '0 1', job('rank', rounds=9), out=RANKED),
    Row('in-degree of a star', PLAIN, STAR, job('indegree'), out=INTO_STAR),
    Row('rank with repeated edges and a loop', PLAIN, '0 1 / 0 1 / 1 1', job('rank'), out='done 2 2 / 0 150000 / 1 1850000'),
    Row('hops by the least of two parents', PLAIN, '0 2 / 1 2 / 3 0 / 3 1', job('hops', source=3),
        out='done 2 4 / 0 1 3 / 1 1 3 / 2 2 0 / 3 0 3'),
    Row('hops to a vertex that is not reached', PLAIN, '7', job('hops', source=0), out='done 1 1 / 7 inf inf'),
    Row('core of a triangle with a tail', PLAIN, '0 1 / 1 2 / 2 0 / 2 3', job('core', undirected='true', k=2),
        out='done 2 4 / 0 1 / 1 1 / 2 1 / 3 0'),
    Row('reach from two seeds', PLAIN, '0 1 / 3 1 / 1 2', job('reach', seeds=[0, 3]), out='done 2 4 / 0 1 / 1 3 / 2 3 / 3 2'),
    Row('a number with a point', PLAIN, '0 1 / 1 2 / 0 2 / 1 2.5', SHORTEST, status=5, err='graph line 4: bad line'),
    Row('a number of 33 bits', PLAIN, '4294967296 1', SHORTEST, status=5, err='graph line 1: number too large'),
    Row('65 places', PLAIN, TRIANGLE, job('shortest', places=65, source=0), status=6, err='job: out of range places'),
    Row('no program', PLAIN, TRIANGLE, 'places = 2 / source = 0', status=6, err='job: missing program'),
    Row('a further key', PLAIN, TRIANGLE, SHORTEST + ' / colour = 1', status=6, err='job: unknown key colour'),
    Row('no TOML', PLAIN, TRIANGLE, 'places =', status=6, err='job: not TOML'),
    Row('a word for a number', PLAIN, TRIANGLE, SHORTEST.replace('2', '"two"'), status=6, err='job: wrong type places'),
    Row('a program of no name known', PLAIN, TRIANGLE, job('longest'), status=6, err='job: unknown program'),
    Row('the job is read before the graph', PLAIN, 'a', 'places =', status=6, err='job: not TOML'),
    Row('no graph', PLAIN, None, SHORTEST, status=3, err='cannot read g'),
    Row('no job', PLAIN, TRIANGLE, None, status=3, err='cannot read j'),
    Row('a folder for a graph', PLAIN, None, SHORTEST, folders=('g',), status=3, err='cannot read g'),
    Row('output on a full disk', PLAIN, TRIANGLE, SHORTEST, full=True, status=11, err='cannot write output'),
    Row('no words', '', status=2, err=USAGE),
    Row('plain without a job', 'plain g', TRIANGLE, status=2, err=USAGE),
    Row('plain with a word too many', 'plain g j s', TRIANGLE, SHORTEST, status=2, err=USAGE),
    Row('a word for help', '--help', status=2, err=USAGE),
]

RUN_ROWS = [
    Row('a run of no vertex', RUN, '', job('indegree'), '', out='done 0 0', trace=''),
    Row('a run of no vertex is done before its first line', RUN, '', job('indegree'), 'work 0 / finish',
        out='done 0 0', trace='work 0 idle'),
    Row('a run of one vertex without an edge', RUN, '5', job('indegree'), 'finish', out='done 1 1 / 5 0',
        lines={-1: 'barrier committed 1 round 1 due 0'}),
    Row('a run of the triangle', RUN, TRIANGLE, SHORTEST, 'finish', out=WAYS, lines=LAST_OF_WAYS),
    Row('the triangle round by round', RUN, TRIANGLE, SHORTEST, 'settle / settle', out=WAYS, lines=LAST_OF_WAYS),
    Row('nothing happens after the end', RUN, TRIANGLE, SHORTEST, 'finish / finish / settle / work 1 / barrier', out=WAYS,
        lines={-3: 'barrier committed 2 round 2 due 0', -2: 'work 1 idle', -1: 'barrier idle'}),
    Row('the later batch arrives first', RUN, TRIANGLE, SHORTEST, OUT_OF_ORDER + ' / finish', out=WAYS,
        lines={4: SWAPPED.split(' / ')[4], 5: SWAPPED.split(' / ')[5], -1: 'barrier committed 2 round 2 due 0'}),
    Row('the later batch arrives first, and no more', RUN, TRIANGLE, BARE, OUT_OF_ORDER,
        status=9, out='unfinished 0', trace=SWAPPED),
    Row('a place waits for a batch', RUN, TRIANGLE, SHORTEST, 'work 0 / work 0 / work 0', status=9, out='unfinished 0',
        trace='work 0 compute gather / work 0 send 0 gather to 1 / work 0 wait gather 1'),
    Row('no batch to deliver and none to drop', RUN, TRIANGLE, SHORTEST, 'deliver 7 / drop 0', status=9, out='unfinished 0',
        trace='deliver 7 idle / drop 0 idle'),
    Row('a batch of a living place is not dropped', RUN, TRIANGLE, SHORTEST, 'work 0 / work 0 / drop 0 / finish', out=WAYS,
        lines={2: 'drop 0 idle', 3: 'delivered 0 from 0 to 1 epoch 0 round 0 gather taken'}),
    Row('one commit of two', RUN, TRIANGLE, SHORTEST, 'settle', status=9, out='unfinished 1',
        lines={-1: 'barrier committed 1 round 1 due 1'}),
    Row('comments, blanks and leading zeros in a schedule', RUN, TRIANGLE, SHORTEST, b'# all\r\n\r\n \twork\t 000 \r\n\nfinish',
        out=WAYS, lines=LAST_OF_WAYS),
    Row('a run of rank for one round', RUN, '0 1', job('rank', rounds=1), 'finish', out='done 1 2 / 0 150000 / 1 1000000'),
    Row('a run of rank', RUN, '0 1', job('rank', rounds=9), 'finish', out=RANKED),
    Row('parts of a high vertex come from two places', RUN, STAR, job('indegree', places=3, theta=3), 'finish', out=INTO_STAR,
        has=('delivered 2 from 1 to 0 epoch 0 round 0 gather taken 0:2', 'delivered 4 from 2 to 0 epoch 0 round 0 gather taken 0:2')),
    Row('a low vertex gets no parts', RUN, STAR, job('indegree', places=3, theta=6), 'finish', out=INTO_STAR, lacks=r' gather taken .'),
    Row('the first part of a high vertex', RUN, STAR, job('indegree', places=3, losses=0, theta=3), 'work 1 / work 1 / deliver 0',
        status=9, out='unfinished 0', trace=PART_SENT + ' 0:2'),
    Row('no part of a low vertex', RUN, STAR, job('indegree', places=3, losses=0, theta=6), 'work 1 / work 1 / deliver 0',
        status=9, out='unfinished 0', trace=PART_SENT),
    Row('a run of rank with repeated edges and a loop', RUN, '0 1 / 0 1 / 1 1', job('rank'), 'finish',
        out='done 2 2 / 0 150000 / 1 1850000'),
    Row('a run of hops', RUN, '0 2 / 1 2 / 3 0 / 3 1', job('hops', source=3), 'finish',
        out='done 2 4 / 0 1 3 / 1 1 3 / 2 2 0 / 3 0 3'),
    Row('a run of cores', RUN, '0 1 / 1 2 / 2 0 / 2 3', job('core', undirected='true', k=2), 'finish',
        out='done 2 4 / 0 1 / 1 1 / 2 1 / 3 0'),
    Row('a run of reach', RUN, '0 1 / 3 1 / 1 2', job('reach', seeds=[0, 3]), 'finish', out='done 2 4 / 0 1 / 1 3 / 2 3 / 3 2'),
    Row('one place, step by step', RUN, '0 1', BARE_ALONE, times(('work 0', 6), ('barrier', 1)), out='done 1 2 / 0 0 / 1 1',
        trace=ALONE_WHOLE),
    Row('one place is not ready', RUN, '0 1', BARE_ALONE, times(('work 0', 5), ('barrier', 1)), status=9, out='unfinished 0',
        trace=ALONE.replace(' / work 0 ready 0', ' / barrier notready 0')),
    Row('one place by itself', RUN, '0 1', job('indegree', places=1, losses=0), 'finish', out=ONE_EDGE, trace=ALONE_WHOLE),
    Row('one place with copies to spare', RUN, '0 1', job('indegree', places=1), 'finish', out=ONE_EDGE, trace=ALONE_WHOLE),
    Row('two places, the whole trace', RUN, '0 1', job('indegree'), 'finish', out=ONE_EDGE, trace=TWO_PLACES),
    Row('a trace takes the place of an older one', RUN, '0 1', job('indegree'), 'finish', before=TWO_PLACES + b'more\n',
        out=ONE_EDGE, trace=TWO_PLACES),
    Row('no word after crash', RUN, TRIANGLE, SHORTEST, 'crash', status=7, err='schedule line 1: bad line'),
    Row('a place that is not there', RUN, TRIANGLE, SHORTEST, 'work 2', status=7, err='schedule line 1: place out of range'),
    Row('the second line is bad', RUN, TRIANGLE, SHORTEST, '# first / walk 1', status=7, err='schedule line 2: bad line'),
    Row('a refused schedule leaves the trace', RUN, TRIANGLE, SHORTEST, 'crash', before=b'older\n', status=7,
        err='schedule line 1: bad line', trace=b'older\n'),
    Row('the graph is read before the schedule', RUN, 'a', SHORTEST, 'crash', status=5, err='graph line 1: bad line'),
    Row('a run without its graph', RUN, None, SHORTEST, 'finish', status=3, err='cannot read g'),
    Row('a run without its job', RUN, TRIANGLE, None, 'finish', status=3, err='cannot read j'),
    Row('a run without its schedule', RUN, TRIANGLE, SHORTEST, None, status=3, err='cannot read s'),
    Row('run without names', 'run', status=2, err=USAGE),
    Row('run without a trace', 'run g j s', TRIANGLE, SHORTEST, 'finish', status=2, err=USAGE),
    Row('a folder for a trace', RUN, TRIANGLE, SHORTEST, 'finish', folders=('t',), status=10, err='cannot write t'),
    Row('a trace in no folder', 'run g j s none/t', TRIANGLE, SHORTEST, 'finish', status=10, err='cannot write none/t'),
    Row('a trace on a full disk', 'run g j s /dev/full', TRIANGLE, SHORTEST, 'finish', status=10, err='cannot write /dev/full'),
    Row('output of the triangle on a full disk', RUN, TRIANGLE, SHORTEST, 'finish', full=True, status=11, err='cannot write output',
        lines=LAST_OF_WAYS),
    Row('output on a full disk, the trace whole', RUN, '0 1', job('indegree'), 'finish', full=True, status=11,
        err='cannot write output', trace=TWO_PLACES),
]

# The triangle after its first commit: place 0 fails, and a spare takes its place.
BY_REBIRTH = b'''crash 0 kept 0
work 1 install 1
work 1 adopt 1
work 1 compute gather
work 1 send 8 gather to 0
delivered 8 from 1 to 0 epoch 1 round 1 gather down
barrier failed 0
work 1 adopt 2
recover epoch 3 rebirth 0
work 0 compute ask
work 0 send 9 ask to 1
delivered 9 from 0 to 1 epoch 3 round 1 ask taken
work 1 adopt 3
work 1 compute ask
work 1 send 10 ask to 0
delivered 10 from 1 to 0 epoch 3 round 1 ask taken
work 0 compute grant
work 0 send 11 grant to 1
delivered 11 from 0 to 1 epoch 3 round 1 grant taken
work 1 compute grant
work 1 send 12 grant to 0
delivered 12 from 1 to 0 epoch 3 round 1 grant taken 0:0:2:0:0,1:0:0 1:1:1:1:0,1:1:0 2:2:0:0:0,1:1:1
work 0 compute end
work 0 append 66
work 0 ready 1
work 1 compute end
work 1 append 66
work 1 ready 0
barrier committed 2 round 1 due 1
'''
# The same without a spare: the other place takes over the edges, and installs the commit before it adopts.
BY_MIGRATION = b'''crash 0 kept 0
barrier failed 0
work 1 install 1
work 1 adopt 2
recover epoch 3
work 1 adopt 3
work 1 compute ask
work 1 compute grant
work 1 compute end
work 1 append 100
work 1 ready 1
barrier committed 2 round 1 due 1
work 1 install 2
work 1 adopt 4
work 1 compute gather
work 1 compute update
work 1 compute signal
work 1 compute call
work 1 compute end
work 1 ready 0
barrier committed 3 round 2 due 0
'''
OWED_GRANT = ('0:0:1:0:0,1:150000:0 1:1:0:1:0,1:-:1 2:0:1:0:0,1:150000:0 3:1:1:1:0,1:277500:0 4:1:1:0:0,1:385875:0'
              ' 5:1:1:1:0,1:1000000:1 6:1:0:0:0,1:-:0')
TORN = times(('settle', 1), ('crash 0', 1), ('barrier', 1), ('recover', 1), ('work 1', 5), ('work 2', 5), ('work 3', 5),
             ('deliver 0', 6), ('work 1', 3), ('work 2', 3), ('work 3', 3), ('deliver 0', 6), ('work 1', 2),
             ('crash 1 keep 7', 1), ('finish', 1))
SPARE, THREE = SHORTEST + ' / spares = 1', job('shortest', places=3, source=0)
LOST_IT = dict(status=8, out='lost 1 / 2')

CRASH_ROWS = [
    Row('a spare takes the place of one that fails', RUN, TRIANGLE, SPARE, 'settle / crash 0 / finish', out=WAYS, part=BY_REBIRTH),
    Row('the other place takes over', RUN, TRIANGLE, SHORTEST, 'settle / crash 0 / barrier / finish', out=WAYS, part=BY_MIGRATION),
    Row('a place fails while it appends to its log', RUN, TRIANGLE, job('shortest', places=4, losses=2, source=0), TORN, out=WAYS,
        part='work 1 append 22 / crash 1 kept 7'),
    Row('a value that only its master had is computed anew', RUN, '0 1 / 2 3 / 3 4 / 4 5 / 5 6', job('rank', spares=1),
        'settle / settle / settle / crash 1 / finish',
        out='done 5 7 / 0 150000 / 1 277500 / 2 150000 / 3 277500 / 4 385875 / 5 477993 / 6 556294', ends=' grant taken ' + OWED_GRANT),
    Row('two of three places fail before the first commit', RUN, TRIANGLE, THREE, 'crash 0 / crash 2 / finish', **LOST_IT,
        lines={-1: 'recover lost 1'}),
    Row('two places fail, one after the other', RUN, TRIANGLE, THREE, 'crash 2 / settle / crash 0 / finish', **LOST_IT),
    Row('a repair between two failures', RUN, TRIANGLE, THREE, 'crash 2 / settle / repair / settle / crash 0 / finish', out=WAYS),
    Row('nothing to deliver, and a place that is down does nothing', RUN, TRIANGLE, SHORTEST, 'deliver 0 / crash 1 / work 1', status=9,
        out='unfinished 0', trace='deliver 0 idle / crash 1 kept 0 / work 1 idle'),
    Row('the spare fails, and the next one starts', RUN, TRIANGLE, job('shortest', places=3, losses=2, spares=2, source=0),
        'crash 0 / barrier / recover rebirth 0 / crash 0 / finish', out=WAYS),
    Row('a recovery is discarded, and its spare is used again', RUN, TRIANGLE, SPARE,
        'crash 0 / barrier / recover rebirth 0 / discard / finish', out=WAYS,
        lines=dict(enumerate(('crash 0 kept 0', 'barrier failed 0', 'recover epoch 2 rebirth 0', 'discard epoch 3')))),
    Row('a host that went back cannot crash', RUN, TRIANGLE, SPARE, 'crash 0 / barrier / recover rebirth 0 / discard / crash 0 / finish',
        out=WAYS, lines={4: 'crash 0 idle'}),
    Row('a rebirth without a spare', RUN, TRIANGLE, SHORTEST, 'crash 0 / barrier / recover rebirth 0 / finish', out=WAYS,
        lines={2: 'recover rebirth 0 idle'}),
    Row('a round is discarded', RUN, TRIANGLE, SHORTEST, 'settle / discard / finish', out=WAYS,
        part='barrier committed 1 round 1 due 1 / discard epoch 2'),
    Row('a repair of what is whole', RUN, TRIANGLE, THREE, 'repair / finish', out=WAYS,
        lines={0: 'repair epoch 1'}, has=('work 0 append 0', 'work 1 append 0', 'work 2 append 0'), lacks=r' append [1-9]'),
    Row('a recovery that was not committed counts for nothing', RUN, TRIANGLE, THREE, 'crash 2 / barrier / recover / crash 0 / finish',
        **LOST_IT),
    Row('all places fail', RUN, TRIANGLE, SHORTEST, 'crash 0 / crash 1 / finish', status=8, out='lost 3 / 0 / 1 / 2'),
    Row('events that are not enabled', RUN, TRIANGLE, SHORTEST, 'recover / recover rebirth 1 / crash 1 / crash 1 / repair / repair',
        status=9, out='unfinished 0',
        trace='recover idle / recover rebirth 1 idle / crash 1 kept 0 / crash 1 idle / repair epoch 1 / repair idle'),
    Row('an order of failures on a full disk', RUN, TRIANGLE, SPARE, 'settle / crash 0 / finish', full=True, status=11,
        err='cannot write output', part=BY_REBIRTH),
]

LOAD_ROWS = [
    Row('generated input, one edge', 'load 0 1', out='load 0 1 vertices 1 rounds 1 events 123 sum 0'),
    Row('generated input, leading zeros', 'load 000 0001', out='load 0 1 vertices 1 rounds 1 events 123 sum 0'),
    Row('generated input, a thousand edges', 'load 5 1000', out='load 5 1000 vertices 251 rounds 10 events 1465 sum 3265'),
    Row('generated input on a full disk', 'load 0 1', full=True, status=11, err='cannot write output'),
] + [Row(f'{words}: no such form', words, status=2, err=USAGE)
     for words in ('load', 'load 0', 'load 0 0', 'load 0 100001', 'load 4294967296 1', 'load x 1', 'load 0 1x', 'load -1 1', 'load 0 1 2')]


def made(program, row):
    """Runs the row in a folder of its own; returns the status, both streams and the trace, None if there is no such file."""
    with tempfile.TemporaryDirectory() as folder:
        for name, content in (('g', row.graph), ('j', row.job), ('s', row.schedule), ('t', row.before)):
            if content is not None:
                pathlib.Path(folder, name).write_bytes(text(content))
        for name in row.folders:
            os.mkdir(f'{folder}/{name}')
        with open('/dev/full' if row.full else f'{folder}/out', 'wb') as out:
            ran = subprocess.run([program, *row.words.split()], cwd=folder, stdin=subprocess.DEVNULL, stdout=out,
                                 stderr=subprocess.PIPE, timeout=LIMIT)
        out = b'' if row.full else pathlib.Path(folder, 'out').read_bytes()
        trace = pathlib.Path(folder, 't')
        return ran.returncode, out, ran.stderr, trace.read_bytes() if trace.is_file() else None


def first_difference(what, wanted, got):
    """One line that shows where two byte strings part."""
    if wanted is None or got is None:
        return f'{what}: {"none" if wanted is None else "a file"} is wanted'
    a, b = wanted.splitlines(True), got.splitlines(True)
    at = next((i for i, (x, y) in enumerate(zip(a, b)) if x != y), min(len(a), len(b)))
    shown = lambda lines: lines[at].decode(errors='replace') if at < len(lines) else 'no such line'
    return f'{what}, line {at + 1}: wanted {shown(a)!r}, got {shown(b)!r}'


def told_of_trace(row, trace):
    """What is wrong with the trace of a row that gives lines of it and not the whole."""
    if trace is None:
        return ['trace: a file is wanted']
    lines = trace.decode(errors='replace').split('\n')
    wrong = [] if lines.pop() == '' else ['trace: its last line has no end']
    for at, line in row.lines.items():
        got = lines[at] if -len(lines) <= at < len(lines) else 'no such line'
        if got != line:
            wrong.append(f'trace, line {at + 1 if at >= 0 else f"{-at} from the end"}: wanted {line!r}, got {got!r}')
    wrong += [f'trace: has no line {line!r}' for line in row.has if line not in lines]
    wrong += ['trace: the wanted part does not stand in it'] if row.part and text(row.part) not in trace else []
    wrong += [f'trace: no line ends in {row.ends!r}'] if row.ends and not any(line.endswith(row.ends) for line in lines) else []
    return wrong + [f'trace: has {line!r}' for line in lines if row.lacks and re.search(row.lacks, line)]


def faults(program, row):
    """What is wrong with the answer to a row."""
    try:
        status, out, err, trace = made(program, row)
    except subprocess.TimeoutExpired:
        return [f'no end within {LIMIT} s']
    wrong = [] if status == row.status else [f'status: wanted {row.status}, got {status}']
    wrong += [first_difference(what, text(wanted), got)
              for what, wanted, got in (('out', row.out, out), ('err', row.err, err)) if text(wanted) != got]
    by_lines = row.lines or row.has or row.lacks or row.part or row.ends
    if by_lines or row.trace is None and row.words == RUN and row.status in (0, 8, 9):
        return wrong + told_of_trace(row, trace)
    return wrong if text(row.trace) == trace else wrong + [first_difference('trace', text(row.trace), trace)]


def main():
    words = argparse.ArgumentParser(description=__doc__, formatter_class=argparse.RawDescriptionHelpFormatter)
    words.add_argument('program', type=os.path.abspath, metavar='PROGRAM')
    words.add_argument('word', nargs='?', metavar='WORD', help='run only the rows of this form of words')
    given = words.parse_args()
    program = given.program
    rows = [row for row in PLAIN_ROWS + RUN_ROWS + CRASH_ROWS + LOAD_ROWS if given.word is None or row.words.split()[:1] == [given.word]]
    failed = 0
    for row in rows:
        wrong = faults(program, row)
        failed += bool(wrong)
        if wrong:
            print(f'{row.name}: {"; ".join(wrong)}', flush=True)
    print(f'{len(rows) - failed} passed, {failed} failed')
    sys.exit(failed > 0)


if __name__ == '__main__':
    main()
