"""Makes a new user's mistakes, one after another, and compares what the program says: dispatch-tools hints DISPATCHER

DISPATCHER is the built program. Each case runs it in a folder of its own, on two trains that meet at one station. The case names
the status, and the lines that standard error must have in their order, without `dispatcher: ` in front. `...` stands for any
lines. If all is well the program says nothing. The status is 1 if a case differs.
"""
from __future__ import annotations

import os
import resource
import shutil
import subprocess
import tempfile
from typing import Callable, NamedTuple, Optional, Sequence

from dispatch_tools.here import TOP
from dispatch_tools.words import add_program, command_line

NET = os.path.join(TOP, 'crates', 'dispatcher', 'data', 'net')
EVENTS, ACTIVITIES = 'net/Events-expanded.giv', 'net/Activities-expanded.giv'
NET_BYTES = sum(os.path.getsize(os.path.join(NET, os.path.basename(name))) for name in (EVENTS, ACTIVITIES))

# What is done in the folder of a case before its call, by the program where it is needed.
Making = Callable[[str], object]

LIST = '`dispatcher --help` lists all commands and options'
EVENT_WORDS = 'id,periodic-id,type,time,weight,stop'


def read(name: str) -> bytes:
    with open(name, 'rb') as file:
        return file.read()


def write(name: str, data: bytes) -> None:
    with open(name, 'wb') as file:
        file.write(data)


def change(name: str, old: bytes, new: bytes) -> None:
    """Puts a text in the place of another, which stands in the file once."""
    data = read(name)
    assert data.count(old) == 1, (name, old)
    write(name, data.replace(old, new))


class Case(NamedTuple):
    """A call with what is due: its words, its status and the lines of its standard error."""
    name: str
    words: list[str]
    status: int
    lines: list[str]
    before: Optional[Making] = None
    memory: Optional[int] = None
    out: Optional[str] = None


def feed(data: bytes) -> Making:
    return lambda program: write('f', data)


def edit(name: str, old: bytes, new: bytes) -> Making:
    return lambda program: change(name, old, new)


def text(words: list[str], change_text: Callable[[bytes], bytes] = lambda data: data, lines: bytes = b'delay event 1 60\n') -> Making:
    """Makes the text of a run in `text`."""
    def make(program: str) -> None:
        write('f', lines)
        made = subprocess.run([program, 'run', 'net', 'f', *words], capture_output=True, check=True)
        write('text', change_text(made.stdout))
    return make


def make_sparse(name: str, size: int) -> Making:
    def make(program: str) -> None:
        with open(name, 'wb') as file:
            file.truncate(size)
    return make


def into_folder(name: str) -> Making:
    def make(program: str) -> None:
        os.remove(name)
        os.mkdir(name)
    return make


def new_folder(then: Making) -> Making:
    """Makes the folder of a store, and changes something then."""
    def make(program: str) -> None:
        os.mkdir('store')
        then(program)
    return make


def serve(words: list[str], then: Making = lambda program: None) -> Making:
    """Lets a server answer what its feed has, and end, and changes something then."""
    def make(program: str) -> None:
        os.mkdir('store')
        write('store/stop', b'')
        subprocess.run([program, *BEGIN, *words], capture_output=True, check=True)
        then(program)
    return make


RUN = ['run', 'net', 'f']
SERVE = ['serve', 'net', 'store', 'f']
BEGIN = ['serve', '--new', 'net', 'store', 'f']
MISSING = 'the folder has no journal: was the store moved, or is its disk not mounted? A new store is begun by `serve --new`'
TEXT = ['text', 'net', 'store', 'f']
PAGE = ['...', '  run DIR FEED..', '...', '  check DIR TEXT', '...', '  gen NUMBER TRAINS', '...',
        '  --penalty=3600   seconds for each passenger who misses a change, or whose train is cancelled (3600)', '...',
        'at most 64 feeds of 262144 bytes, 100000 events, 500000 activities, 1000000 entries, plans of 16384 nodes', '...',
        'status 0 all well, 1 a text is bad, 2 words, 3 something is refused, 4 something cannot be read,', '...']

USAGE = [
    Case('no word', [], 2, PAGE),
    Case('help', ['--help'], 2, PAGE),
    Case('short help', ['-h'], 2, PAGE),
    Case('unknown command', ['runs', 'net', 'f'], 2, ['word 1: "runs" is no command; commands are run, serve, text, check, gen, follow, window, rules and journey', LIST]),
    Case('no value', ['run', 'net', '--penalty', 'f'], 2, ['word 3: "--penalty" wants a value, as --penalty=3600', LIST]),
    Case('empty value', [*RUN, '--batch='], 2, ['word 4: --batch wants a value, as --batch=16', LIST]),
    Case('number too small', [*RUN, '--batch=0'], 2, ['word 4: --batch takes 1 to 1000000', LIST]),
    Case('number too large', [*RUN, '--penalty=1000001'], 2, ['word 4: --penalty takes 0 to 1000000', LIST]),
    Case('too many plans', [*RUN, '--plans=4097'], 2, ['word 4: --plans takes 1 to 4096', LIST]),
    Case('no number', [*RUN, '--penalty=1h'], 2, ['word 4: --penalty takes 0 to 1000000', LIST]),
    Case('given twice', [*RUN, '--batch=1', '--batch=1'], 2, ['word 5: --batch is given twice', LIST]),
    Case('unknown option', [*RUN, '--quiet'], 2, ['word 4: "--quiet" is no option; `dispatcher --help` lists them', LIST]),
    Case('option of another command', ['check', 'net', 'f', '--batch=1'], 2, ['word 4: `check` has no option --batch', LIST]),
    Case('empty word', ['run', 'net', ''], 2, ['word 3 is empty', LIST]),
    Case('no feed', ['run', 'net'], 2, ['names are missing: run DIR FEED..', LIST]),
    Case('too many feeds', ['run', 'net', *['f'] * 65], 2, ['65 feeds, at most 64', LIST]),
    Case('too many names', ['check', 'net', 'a', 'b'], 2, ['3 names are too many: check DIR TEXT', LIST]),
    Case('unknown column', [*RUN, '--event-columns=id,type,times,weight'], 2,
         [f'--event-columns: "times" is no column; columns are {EVENT_WORDS} and - for one to pass over', LIST]),
    Case('column twice', [*RUN, '--event-columns=id,type,time,weight,id'], 2, ['--event-columns: "id" stands twice', LIST]),
    Case('column missing', [*RUN, '--activity-columns=id,type,tail,head,lower'], 2,
         ['--activity-columns: "weight" is missing, which the file must have', LIST]),
    Case('held twice', ['window', 'net', 'f', '0', '9', '1', '--held=5,5'], 2,
         ['window takes two times, FROM and TO, of 0 to 1000000000 seconds, TO no earlier than FROM, and a BUDGET of 1 to 16384 nodes; '
          '--held takes 1 to 4096 different numbers of activities, as --held=5,6', LIST]),
    Case('minimal', ['window', 'net', 'f', '0', '9', '1', '--minimal=-1'], 2, ['word 7: --minimal takes 0 to 18446744073709551615', LIST]),
    Case('value of an option that takes none', ['window', 'net', 'f', '0', '9', '1', '--solve=1'], 2, ['word 7: --solve takes no value', LIST]),
    Case('plan by parts twice', ['rules', 'net', 'f', 'always', '1', '--solve', '--solve'], 2, ['word 7: --solve is given twice', LIST]),
    Case('no name of a file', [*RUN, '--cancelled='], 2, ['word 4: --cancelled wants a value, as --cancelled=Reserve.giv', LIST]),
    Case('cancelled events of a generated day', ['gen', '1', '9', '--cancelled=d'], 2, ['word 4: `gen` has no option --cancelled', LIST]),
    Case('plan by parts of a run', [*RUN, '--solve'], 2, ['word 4: `run` has no option --solve', LIST]),
    Case('boards', [*RUN, '--boards=2,2'], 2, ['--boards takes 1 to 64 different numbers of stops, as --boards=4,2', LIST]),
    Case('server without a feed', ['serve', 'net', 'store'], 2, ['names are missing: serve [--new] DIR STORE FEED..', LIST]),
    Case('too many feeds of a server', ['serve', 'net', 'store', *['f'] * 65], 2, ['65 feeds, at most 64', LIST]),
    Case('option that no text of a store has', [*TEXT, '--held=5'], 2, ['word 5: `text` has no option --held', LIST]),
    Case('generated day', ['gen', '1', '2001'], 2,
         ['gen takes a NUMBER of 0 to 18446744073709551615 and 1 to 2000 TRAINS', LIST]),
]

TEXTS = [
    Case('another penalty', ['check', 'net', 'text'], 1,
         ['text line 2: the line has not the form that must stand there',
          'line 2: the text\'s penalty is not the one of these words, which is 3600: give --penalty=10'], text(['--penalty=10'])),
    Case('fewer plans than the run had', ['check', 'net', 'text', '--plans=1'], 1,
         ['text line 8: the plan, or its tree, is not true of the rows at its entry',
          'line 8: are the network, its columns, the delays and the cancelled events at the start and --plans=1 those of the run, and the text unchanged?'],
         text([], lines=b'plan 1\nplan 1\n')),
    Case('line ends of Windows', ['check', 'net', 'text'], 1,
         ['text line 1: the line has not the form that must stand there',
          'line 1: the text has the line ends of Windows, CR before LF: a run writes LF alone'],
         text([], lambda data: data.replace(b'\n', b'\r\n'))),
    Case('no text of a run', ['check', 'net', EVENTS], 1,
         [f'{EVENTS} line 1: the line has not the form that must stand there',
          'line 1: the text of a run begins with `dm-run 2` or `dm-run 1`']),
    Case('text cut off', ['check', 'net', 'text'], 1,
         ['text line 1: the text ends before this line is whole', 'line 1: was the run cut off, or the text not copied whole?'],
         text([], lambda data: data[:4])),
    Case('another network', ['check', 'net', 'text'], 1,
         ['text line 8: the answer is not the one that the rows at its entry give',
          'line 8: are the network, its columns, the delays and the cancelled events at the start and --plans=16 those of the run, and the text unchanged?'],
         lambda program: write('text', b'dm-run 2\npenalty 3600\nfeeds 1\nentries 1\nentry 1 feed 1 line 1 delay event 1 60\n'
                               b'feed 1 2\n1 delay event 1 60 -> 1 ok\n2 time 1 -> 1 time 150\nend\n')),
    Case('no such text', ['check', 'net', 'text'], 4, ['text: No such file or directory (os error 2)']),
    Case('a text that is good', ['check', 'net', 'text'], 0, [], text([])),
    Case('what cannot be held', ['window', 'net', 'text', '0', '9', '1', '--held=1'], 3,
         ['--held: the network has no such activity, or it is neither a change nor a headway with one in the other direction'], text([])),
]

FILES = [
    Case('fields missing', RUN, 3,
         [f'{EVENTS} line 3: "2; 2; "arrival"; 200; 10" has 5 fields',
          f'{EVENTS} line 3: it is to have 6, with semicolons between: {EVENT_WORDS}'],
         edit(EVENTS, b'2; 2; "arrival"; 200; 10; 2', b'2; 2; "arrival"; 200; 10')),
    Case('no number', RUN, 3,
         [f'{EVENTS} line 4: column `time` holds "3:40", and a number is wanted, whole but for a weight'],
         edit(EVENTS, b'; 220;', b'; 3:40;')),
    Case('number above its largest', RUN, 3, [f'{ACTIVITIES} line 6: column `lower` holds "1000001", and 1000000 is the most'],
         edit(ACTIVITIES, b'; 20; 79;', b'; 1000001; 79;')),
    Case('unknown type', RUN, 3,
         [f'{ACTIVITIES} line 7: column `type` holds "headways", and it is one of drive, wait, turnaround, change and headway'],
         edit(ACTIVITIES, b'6; 6; "headway"', b'6; 6; "headways"')),
    Case('comments and blank lines are counted', RUN, 3,
         [f'{EVENTS} line 6: column `type` holds "", and it is one of departure and arrival'],
         edit(EVENTS, b'3; 3; "departure"', b'\n# a comment\n3; 3; ""')),
    Case('byte order mark of a file', RUN, 3,
         [f'{EVENTS} begins with a byte order mark (EF BB BF): save it as UTF-8 without one'],
         edit(EVENTS, b'# event-id', b'\xef\xbb\xbf# event-id')),
    Case('double event', RUN, 3,
         [f'{EVENTS} line 4: an event has the id 3', f'{EVENTS} line 5: an event has the id 3'],
         edit(EVENTS, b'4; 4; "arrival"', b'3; 4; "arrival"')),
    Case('unknown event', RUN, 3,
         ['an activity runs from or to an event that the events file has not:',
          f'{ACTIVITIES} line 5: activity 4 from event 5 to event 66, at least 95 seconds'],
         edit(ACTIVITIES, b'"drive"; 5; 6;', b'"drive"; 5; 66;')),
    Case('headway of nothing', RUN, 3,
         ['the lower bound of a headway is at least 1:',
          f'{ACTIVITIES} line 7: activity 6 from event 3 to event 5, at least 0 seconds'],
         edit(ACTIVITIES, b'"headway"; 3; 5; 8;', b'"headway"; 3; 5; 0;')),
    Case('cycle', RUN, 3,
         ['each of these waits for the one before it, and the first for the last:', '...',
          f'{ACTIVITIES} line 3: activity 2 from event 2 to event 3, at least 10 seconds', '...'],
         edit(ACTIVITIES, b'"drive"; 3; 4;', b'"drive"; 3; 2;')),
    Case('delay of no event', [*RUN, '--event-delays=d'], 3,
         ['net/d has a delay of event 9, and the events file has no such event'], lambda program: write('net/d', b'1; 5\n9; 5\n')),
    Case('no event to cancel', [*RUN, '--cancelled=d'], 3,
         ['net/d cancels event 9, and the events file has no such event'], lambda program: write('net/d', b'3\n9\n')),
    Case('no number of an event to cancel', [*RUN, '--cancelled=d'], 3,
         ['net/d line 2: column `id` holds "x", and a number is wanted, whole but for a weight'],
         lambda program: write('net/d', b'3\nx\n')),
    Case('no file of events to cancel', [*RUN, '--cancelled=d'], 4, ['net/d: No such file or directory (os error 2)']),
    Case('file too long', RUN, 3, [f'{EVENTS} has 67108865 bytes, and a file may have 67108864'], make_sparse(EVENTS, 67108865)),
    Case('no such folder', ['run', 'nets', 'f'], 4, ['nets/Events-expanded.giv: No such file or directory (os error 2)']),
    Case('a folder', RUN, 4, [f'{EVENTS} is a folder, and a file is wanted'],
         into_folder(EVENTS)),
]

FEEDS = [
    Case('all well', RUN, 0, [], feed(b'# a comment\n\ndelay event 1 60\r\ncost\n')),
    Case('no such feed', ['run', 'net', 'g'], 4, ['feed 1 ended with a fault', 'g: No such file or directory (os error 2)']),
    Case('feed that is a folder', ['run', 'net', 'f', 'net'], 4,
         ['feed 2 ended with a fault', 'net is a folder, and a file is wanted'], feed(b'cost\n')),
    Case('malformed lines', RUN, 0,
         ['feed 1, f: malformed lines: 5',
          'f line 1: "(control characters)": a tab: words stand between spaces',
          'f line 2: "Delay event 1 60": a capital letter: words are written in small letters',
          'f line 3: "delay event 1 -60": a minus sign: numbers are 0 or more',
          'f line 4: "delay event 1": the form is `delay event E D` or `delay activity A D`',
          'f line 5: "late 1 60": no line begins with this word: '
          'delay, pass, recall, cancel, restore, keep, drop, first, lock, unlock, now, time, cost, read, plan, solve, adopt, carry'],
         feed(b'delay\tevent 1 60\nDelay event 1 60\ndelay event 1 -60\ndelay event 1\nlate 1 60\n')),
    Case('plan by parts of no size', RUN, 0,
         ['feed 1, f: malformed lines: 3', *(f'f line {line}: "{said}": the form is `solve B`' for line, said in
                                             enumerate(['solve', 'solve 1 2', 'solve x'], 1)), 'lines answered with `range`: 2'],
         feed(b'solve\nsolve 1 2\nsolve x\nsolve 0\nsolve 16385\n')),
    Case('cancelled events and locks of another form', RUN, 0,
         ['feed 1, f: malformed lines: 5', 'f line 1: "cancel": the form is `cancel E`', 'f line 2: "restore x": the form is `restore E`',
          'f line 3: "lock 1 2 3": the form is `lock A` or `lock E F`', 'f line 4: "unlock": the form is `unlock A` or `unlock E F`',
          'f line 5: "carry 1": the form is `carry`'],
         feed(b'cancel\nrestore x\nlock 1 2 3\nunlock\ncarry 1\n')),
    Case('refusals of cancelled events and locks', RUN, 0,
         ['lines answered with `cancelled`: 2', 'lines answered with `not-cancelled`: 1', 'lines answered with `locked`: 2',
          'lines answered with `not-locked`: 1', 'lines answered with `noplan`: 1'],
         feed(b'cancel 3\ncancel 3\nfirst 5 3\nrestore 2\nlock 5\nlock 5\ndrop 5\nunlock 5\nunlock 5\ncarry\n')),
    Case('byte order mark', RUN, 0,
         ['feed 1, f: malformed lines: 1',
          'f line 1: "\ufeffdelay event 1 60": a byte order mark stands before it: save the feed as UTF-8 without one'],
         feed(b'\xef\xbb\xbfdelay event 1 60\n')),
    Case('line too long', RUN, 0,
         ['feed 1, f: malformed lines: 1', f'f line 2: "cost{" " * 76}": it has more than 1024 bytes'],
         feed(b'cost\ncost' + b' ' * 1021 + b'\n')),
    Case('CR without LF', RUN, 0,
         ['feed 1, f: malformed lines: 1',
          'f line 1: "(control characters)": a CR without LF: lines end with LF, or with CR and LF'],
         feed(b'delay event 1 60\rcost\n')),
    Case('CR at the end', RUN, 0,
         ['feed 1, f: malformed lines: 1',
          'f line 2: "(control characters)": a CR without LF: lines end with LF, or with CR and LF'],
         feed(b'cost\ncost\r')),
    Case('five of seven lines', RUN, 0,
         ['feed 1, f: malformed lines: 7', '...', 'f line 5: "costs": no line begins with this word: '
          'delay, pass, recall, cancel, restore, keep, drop, first, lock, unlock, now, time, cost, read, plan, solve, adopt, carry'], feed(b'costs\n' * 7)),
    Case('refusals by reason', RUN, 0,
         ['lines answered with `range`: 1', 'lines answered with `unknown-event`: 2', 'lines answered with `noplan`: 1'],
         feed(b'delay event 1 1000001\ndelay event 9 60\ntime 9\nadopt\n')),
    Case('feed too long', RUN, 3,
         ['feed 1, f, has more than 262144 bytes: what lies behind them was not answered'], feed(b'cost\n' + b'#' * 999 + b'\n' * 262144)),
    Case('board without events', [*RUN, '--boards=2,9'], 0, ['no event has the stop 9, so its board shows nothing'], feed(b'cost\n')),
]

LIVE = [
    Case('server that is told to end', SERVE, 0, ['...', 'told to end: the run is printed, and the store holds it'], serve([])),
    Case('text of a store', TEXT, 0, [], serve([])),
    Case('no store', SERVE, 3, [MISSING]),
    Case('a store that is begun without its folder', BEGIN, 4,
         ['the folder store must be there, and its files be read and written']),
    Case('a store that was begun', BEGIN, 3,
         ['the store was begun before: `serve` without --new goes on with it'], serve([])),
    Case('other files of the network', SERVE, 3,
         ['the store was begun over other files of the network: bring those back, or go on in a new store with `dispatch-tools carry`'],
         serve([], edit(EVENTS, b'# event-id', b'# event-number'))),
    Case('a new store in another place', [*SERVE, '--new'], 2, ['word 5: --new stands right behind `serve` alone', LIST]),
    Case('no journal', TEXT, 4, ['store/journal: No such file or directory (os error 2)']),
    Case('another penalty of a store', TEXT, 3,
         ['the store was begun with another --penalty, other --plans or another number of feeds'], serve(['--penalty=10'])),
    Case('another number of feeds', [*SERVE, 'f'], 3,
         ['the store was begun with another --penalty, other --plans or another number of feeds'], serve([])),
    Case('answered line that was changed', SERVE, 3,
         ['feed 1 was cut, replaced or changed; `dispatch-tools refill` puts its lines back from reply-1.txt of the store'],
         serve([], feed(b'read\n'))),
    Case('misshapen block', TEXT, 3,
         ['block 1 of the journal is not as a server writes it: bring the store back from a copy'],
         serve([], edit('store/journal', b'dm-store 1', b'dm-stone 1'))),
    Case('reply file with more', SERVE, 3,
         ['reply-1.txt shows what the journal does not hold: is the journal an older copy?'],
         serve([], lambda program: write('store/reply-1.txt', read('store/reply-1.txt') + b'2 cost -> 0 cost 0\n'))),
    Case('store of another network', TEXT, 3,
         ['line 6 of the text of the journal: the answer is not the one that the rows at its entry give; '
          'are the network, its columns, the delays and the cancelled events at the start those of the store?'],
         serve([], edit('store/journal', b'0 cost 0', b'0 cost 1'))),
    Case('feed of a server that cannot be opened', ['serve', 'net', 'store', 'g'], 4,
         ['g: No such file or directory (os error 2)'], serve([])),
    Case('network that is refused', BEGIN, 3,
         [f'{EVENTS} begins with a byte order mark (EF BB BF): save it as UTF-8 without one'],
         new_folder(edit(EVENTS, b'# event-id', b'\xef\xbb\xbf# event-id'))),
    Case('text that is not taken', TEXT, 5,
         ['the output, the journal, a reply file or a feed could not be written or synced: has the disk room?'], serve([]), out='/dev/full'),
]

ENDS = [
    Case('output that is full', RUN, 5, ['the output could not be written to its end'], feed(b'cost\n'), out='/dev/full'),
    Case('no memory', ['check', 'net', 'text'], 6,
         [f'there is not enough memory: the files alone have {400000000 + NET_BYTES} bytes, and take some times that when they are read'],
         make_sparse('text', 400000000), memory=300 << 20),
]


def call(case: Case, program: str) -> tuple[int, list[str]]:
    """The status and the lines of the standard error of a case, in the folder where it is."""
    limit = (lambda: resource.setrlimit(resource.RLIMIT_AS, (case.memory, case.memory))) if case.memory else None
    with open(case.out or os.devnull, 'w') as out:
        done = subprocess.run([program, *case.words], stdout=out, stderr=subprocess.PIPE, preexec_fn=limit)
    return done.returncode, done.stderr.decode().splitlines()


def is_due(lines: list[str], due: list[str]) -> bool:
    """Whether lines are the due ones, where `...` stands for any."""
    if not due:
        return not lines
    if due[0] == '...':
        return any(is_due(lines[place:], due[1:]) for place in range(len(lines) + 1))
    return bool(lines) and lines[0] == due[0] and is_due(lines[1:], due[1:])


def differs(case: Case, program: str) -> Optional[str]:
    """What differs in a case, or nothing."""
    if case.before:
        case.before(program)
    status, lines = call(case, program)
    front = 'dispatcher: '
    if status != case.status:
        return f'status {status}, due {case.status}: {lines}'
    if not all(line.startswith(front) for line in lines):
        return f'a line without `{front}`: {lines}'
    said = [line[len(front):] for line in lines]
    return None if is_due(said, case.lines) else f'said {said}, due {case.lines}'


def main(argv: Sequence[str] | None = None) -> int:
    words = command_line(__doc__)
    add_program(words)
    program = words.parse_args(argv).program
    bad = 0
    cases = USAGE + TEXTS + FILES + FEEDS + LIVE + ENDS
    for case in cases:
        with tempfile.TemporaryDirectory() as folder:
            shutil.copytree(NET, os.path.join(folder, 'net'))
            os.chdir(folder)
            write('f', b'cost\n')
            what = differs(case, program)
            os.chdir('/')
        if what:
            bad += 1
            print(f'{case.name}: {what}')
    print(f'{len(cases) - bad} of {len(cases)} cases as due')
    return 1 if bad else 0
