#!/usr/bin/env python3
"""tests/python.py TEXTS [LIBRARY JOBS SEED]: the Python binding, examples/cheremysl.py. Its sentences against those in the file TEXTS, from the C header; its
job maker; and, given the shared library, every call on random jobs against 01 worked out in plain Python, all assignments tried, and the binding as a program.
The last line has the counts."""
import contextlib, ctypes, importlib.util, io, itertools, math, os, random, re, signal, struct, subprocess, sys

def module_at(path, *words):
    """A Python file as a module; a program runs with these words, and its definitions stay."""
    spec = importlib.util.spec_from_file_location(os.path.basename(path)[:-3], path)
    module = importlib.util.module_from_spec(spec)
    kept, sys.argv = sys.argv, [path, *words]
    with contextlib.redirect_stdout(io.StringIO()), contextlib.suppress(SystemExit):
        spec.loader.exec_module(module)
    sys.argv = kept
    return module

sys.dont_write_bytecode = True  # nothing of a test stays beside the sources
here = os.path.dirname(os.path.abspath(__file__))
examples = os.path.join(here, '../examples/')
binding = module_at(examples + 'cheremysl.py')
plain = module_at(os.path.join(here, 'sheet.py'), '0', '1')
passed = failed = 0
seen = set()

def check(what, found, expected):
    global passed, failed
    if found == expected:
        passed += 1
    else:
        failed += 1
        print('FAILED: %s: %r, not %r' % (what, found, expected))

def reply(call, *words):
    """What a call returns; a refusal as its three numbers."""
    try:
        return call(*words)
    except binding.Refusal as refusal:
        seen.add(refusal.number)
        return refusal.number, refusal.record, refusal.earlier
    except (OverflowError, TypeError, ValueError) as fault:
        return type(fault)

class Board:
    """A job as 01 reads it, or with a strip of slots one of the second form."""
    def __init__(self, job, strip=None):
        self.bad, self.n, self.apart = plain.refusal(job, strip), len(job) // 16, None
        if self.bad:
            return
        self.records, self.ports = list(struct.iter_unpack('<HHIii', job)), plain.heights(job, strip)
        self.right = sorted(range(self.n), key=lambda i: -self.records[i][2])
        self.pairs = list(itertools.product(range(self.n), range(len(self.ports))))
        self.on = plain.things(self.records, self.ports)

    def weighted(self, lengths, bends):
        """The table of weighted lengths and bends."""
        rise = lambda i, q: abs(self.records[i][3] - self.ports[q])
        return [lengths * (self.records[i][2] + rise(i, q)) + bends * (rise(i, q) > 0) for i, q in self.pairs]

    def total(self, table, f):
        return sum(table[i * len(self.ports) + f[i]] for i in range(self.n))

    def touching(self, f):
        for i in range(self.n):
            for j in range(i):
                if plain.touch(self.on[i, f[i]], self.on[j, f[j]]):
                    return i, j

    def sheets(self):
        """The layouts on which nothing touches."""
        if self.apart is None:
            self.apart = [f for f in itertools.permutations(range(len(self.ports)), self.n) if not self.touching(f)]
        return self.apart

    def best(self, table):
        """The least total, and the layouts that have it, in order."""
        apart = [(self.total(table, f), [f[i] for i in self.right], list(f)) for f in self.sheets()]
        least = min(apart)[0]
        return least, [f for t, _, f in sorted(apart) if t == least]

    def refusal(self, layout, second, work=True):
        """Measure's; without a layout, First's. second: 2 or 13, if the weights or the table deserve it, else 0. work: if there is room in it."""
        if self.bad and self.bad[0] == 1:
            return 1, 0, None
        if second:
            return second, 0, None
        if layout is not None and len(layout) < self.n:
            return 3, 0, None
        if not work and not (self.bad and self.bad[0] == 14):
            return 24, 0, None
        if self.bad:
            return (*self.bad, None)
        if layout is None and not self.sheets():
            return 15, 0, None
        for i in range(self.n) if layout else ():
            if layout[i] >= len(self.ports) or layout[i] in layout[:i]:
                return 8, i, None
        pair = self.touching(layout) if layout else None
        return (9, *pair) if pair else None

    def points(self, i, q):
        _, _, x, y, _ = self.records[i]
        port = self.ports[q]
        return [(a / 4, -b / 4) for a, b in ([(x, y)] if y == port else [(x, y), (x, port)]) + [(0, port)]]

def try_calls(what, calls, board, table, second, given):
    """First, Next and Measure, by weights or a table, on a job of either form and from these layouts too. Answers the best sheets, as First does."""
    first, next_, measure = calls
    bad = board.refusal(None, second)
    total, best = (None, []) if bad else board.best(table)
    every = [(total, f) for f in best] + [None]
    check(what + 'first', reply(first), bad or every[0])
    for at, f in enumerate(best[:30]):
        check(what + 'next', reply(next_, f), every[at + 1])
        check(what + 'next, a longer list', reply(next_, tuple(f) + (0, 65535)), every[at + 1])
    for layout in given:
        bad, f = board.refusal(layout, second), layout[:board.n]
        check(what + 'measure', reply(measure, layout), bad or board.total(table, f))
        if bad or f not in best:
            check(what + 'next', reply(next_, layout), bad or (10, 0, None))
    return every[:-1]

def try_weights(library, job, board, weights, given):
    """The calls by weights, Page and the listing among them."""
    second, table = 2 if max(weights) > 1000 else 0, [] if board.bad else board.weighted(*weights)
    calls = lambda: library.first(job, *weights), lambda f: library.next_(job, f, *weights), lambda f: library.measure(job, f, *weights)
    every = try_calls('', calls, board, table, second, given)
    best = [f for _, f in every]
    binding.PAGE_SHEETS = len(best) % 4 + 1
    check('sheets', reply(list, library.sheets(job, *weights)), board.refusal(None, second) or every)
    for at, f in enumerate(best[:30]):
        for sheets in 0, 1, 3, len(best):
            check('page', library.page(job, f, sheets, *weights), best[at + 1:at + 1 + sheets])
    for layout in given:
        bad = board.refusal(layout, second)
        if bad or layout[:board.n] not in best:
            check('page', reply(library.page, job, layout, 2, *weights), bad or (10, 0, None))
    try_places(library, job, board.refusal(None, second), every, weights)

def try_places(library, job, bad, every, weights):
    """The number of best sheets, and each at its place, with a buffer that holds anything, and too short by one number."""
    buffer = binding.buffer_of(job)
    ctypes.memset(buffer, len(job) % 251, ctypes.sizeof(buffer))
    held = bytes(buffer)
    short = (ctypes.c_uint64 * (len(buffer) - 1)).from_buffer(buffer)
    check('count, a short buffer', reply(library.count, job, *weights, short), bad or (18, 0, None))
    check('place, a short buffer', reply(library.place, job, 2 ** 64 - 1, *weights, short), bad or (18, 0, None))
    check('a buffer after a refusal', bytes(buffer), held)
    check('count', reply(library.count, job, *weights), bad or len(every))
    for place in [*range(min(len(every), 30)), len(every) - 1] if every else ():
        check('place', reply(library.place, job, place, *weights), every[place])
        check('place, the same buffer', reply(library.place, job, place, *weights, buffer), every[place])
    check('count, the same buffer', reply(library.count, job, *weights, buffer), bad or len(every))
    for place in len(every), len(every) + 1, 2 ** 63, 2 ** 64 - 1:
        check('a place past the last', reply(library.place, job, place, *weights, buffer), bad or (17, 0, None))

def try_table(library, job, board, table, given):
    calls = lambda: library.table_first(job, table), lambda f: library.table_next(job, tuple(table), f), lambda f: library.table_measure(job, table, f)
    try_calls('table_', calls, board, table, 13 if len(table) != board.n ** 2 else 0, given)

def try_slots(library, pads, strip, weights, r):
    """The calls on a strip of slots, with a work list that holds anything, and too short by one number."""
    board, work = Board(pads, strip), binding.work_of(pads, strip)
    second, table = 2 if max(weights) > 1000 else 0, [] if board.bad else board.weighted(*weights)
    ctypes.memset(work, r.randrange(256), ctypes.sizeof(work))
    calls = (lambda: library.slots_first(pads, strip, *weights, *r.choice([[], [work]])),
             lambda f: library.slots_next(pads, strip, f, *weights, *r.choice([[], [work]])),
             lambda f: library.slots_measure(pads, strip, f, *weights))
    given = list(layouts(r, min(board.n, 5), min(len(strip) // 4, 128))) if board.n else [[], [0]]
    every = try_calls('slots_', calls, board, table, second, given)
    check('slots_sheets', reply(list, library.slots_sheets(pads, strip, *weights)), board.refusal(None, second) or every)
    short = (ctypes.c_uint64 * (len(work) - 1)).from_buffer(work)
    held = bytes(work)
    check('slots_first, a short work list', reply(library.slots_first, pads, strip, *weights, short), board.refusal(None, second, False))
    for layout in given:
        check('slots_next, a short work list', reply(library.slots_next, pads, strip, layout, *weights, short), board.refusal(layout, second, False))
    check('a work list after a refusal', bytes(work), held)

def on_strip(r, job):
    """Pads and a strip of slots, made of a job: its ports and some more, or fewer; some have a fault."""
    pads, heights = bytearray(job), [h for *_, h in struct.iter_unpack('<HHIii', job[:len(job) // 16 * 16])]
    for at in range(12, len(job) - 3, 16):
        struct.pack_into('<i', pads, at, r.choice([-1, 1, 2 ** 31 - 1]) if r.random() < .02 else 0)
    for _ in range(r.randint(0, max(0, 6 - len(heights)))):
        heights += [min(2 ** 31 - 1, max(heights, default=0) + r.randint(8, 12))]
    if r.random() < .1:
        heights = heights[1:]
    if heights and r.random() < .2:
        at = r.randrange(len(heights))
        heights[at] = r.choice([-1000001, 1000001, -2 ** 31, heights[at - 1], heights[at - 1] + 7 * (heights[at - 1] < 1000000)])
    strip = binding.ports_of(heights)
    return bytes(pads), r.choice([b'', strip[:-1], strip * 129]) if r.random() < .05 else strip

def tables(r, board):
    """Tables of every kind: random, with ties, with the largest figure, of weighted leaders; and of another length."""
    n = min(board.n, 65) ** 2  # a larger job is refused before its table is looked at
    for most in 1, 9, 4294967295:
        yield [r.choice([0, most, r.randint(0, most)]) for _ in range(n)]
    if not board.bad:
        yield board.weighted(r.randint(0, 1000), r.randint(0, 1000))
    yield r.choice([[0] * (n + 1), [0] * max(n - 1, 0), [0] * (2 * n), [], [1] * board.n])

def quarter(units):
    """A quarter of a whole number in decimal, as Python writes it."""
    return repr(units / 4).removesuffix('.0')

def try_svg(library, job, board, given):
    """The text of every layout on which nothing touches, in just enough bytes and in one less; else the refusal, without any room too."""
    for layout in given + [list(f) for f in ([] if board.bad else board.sheets()[:20])]:
        bad = board.refusal(layout, 0)
        if bad:
            check('svg', (reply(library.svg, job, layout), reply(library.svg, job, layout, 0)), (bad, bad))
            continue
        points = [board.points(i, layout[i]) for i in range(board.n)]
        text = ''.join('<polyline points="%s"/>\n' % ' '.join(','.join(quarter(round(4 * v)) for v in point) for point in line) for line in points)
        check('svg', (reply(library.svg, job, layout), reply(library.svg, job, tuple(layout), len(text))), (text, text))
        check('svg, a short text', reply(library.svg, job, layout, len(text) - 1), (19, 0, None))

WORD, QUOTED = rb'[^",]*', rb'"(?:[^"]|"")*"'
LINE = re.compile(rb'(%s|%s),(%s|%s),(%s|%s)' % ((QUOTED, WORD) * 3))
PAD = re.compile(rb'(0|[1-9][0-9]*),(0|[1-9][0-9]*),(0|-?[1-9][0-9]*)')

def unquoted(line):
    """A line without its quotes, which stand around whole fields; None if it is no line."""
    fields = LINE.fullmatch(line)
    return fields and b','.join(field[1:-1] if field[:1] == b'"' else field for field in fields.groups())

def pads_in(text, room):
    """02's reading of a list of pads: what read_csv replies."""
    lines = text.split(b'\r\n')
    lines = lines[:-1] if len(lines) > 1 and not lines[-1] else lines
    if len(text) > 16384:
        return 20, 0, None
    pads = []
    for at, line in enumerate(lines, 1):
        pad = PAD.fullmatch(unquoted(line) or b'')
        if not pad if at > 1 else unquoted(line) != b'name,x,y':
            return 21, at, None
        pads += [tuple(int(field[:12]) for field in pad.groups())] if pad else []  # so many are outside every range, whatever follows
    if not 1 <= len(pads) <= 64 or room < 16 * len(pads):
        return 22 if 1 <= len(pads) <= 64 else 1, 0, None
    for i, (name, x, y) in enumerate(pads):
        if not (1 <= name <= 65535 and 1 <= x <= 1000000 and abs(y) <= 1000000):
            return 4, i, None
    for column in 0, 1:
        for i, pad in enumerate(pads):
            if pad[column] in [other[column] for other in pads[:i]]:
                return 6 + column, i, None
    return binding.pads_of(pads)

def spoilt_text(r, text):
    """A list with a byte or two left out, doubled, or other than it was."""
    for _ in range(r.randint(1, 2)):
        at = r.randrange(len(text) + 1)
        text = text[:at] + r.choice([b'', b'"', b',', b'\r\n', b'\n', b'0', b'-', b'1', b' ', text[at:at + 1] * 2]) + text[at + r.randint(0, 1):]
    return text

def try_csv(library, job, r):
    """The list of a job's pads, plain or with quotes, whole or spoilt, in just enough bytes and in one less."""
    rows = [(b'name', b'x', b'y')] + [tuple(b'%d' % v for v in (a, x, y)) for a, _, x, y, _ in struct.iter_unpack('<HHIii', job[:len(job) // 16 * 16])]
    quote = r.choice([0, 0, .2, 1])
    text = b''.join(b','.join(b'"%s"' % v if r.random() < quote else v for v in row) + b'\r\n' for row in rows)
    text = r.choice([text, text, text[:-2], spoilt_text(r, text), spoilt_text(r, text)])
    for room in 1024, 16 * (len(rows) - 1), 16 * (len(rows) - 1) - 1:
        check('read_csv', reply(library.read_csv, text, max(0, room)), pads_in(text, room))

def try_lists(library):
    """The list that lies beside the binding, and those at the limits."""
    with open(examples + 'sensor.csv', 'rb') as text, open(examples + 'sensor.pads', 'rb') as pads:
        check('read_csv', library.read_csv(text.read()), pads.read())
    most = [(1 + i, 999999 - i, i - 1000000) for i in range(65)]
    plain = lambda pads: ''.join('%s,%s,%s\r\n' % row for row in [('name', 'x', 'y'), *pads]).encode()
    check('64 pads', library.read_csv(bytearray(plain(most[:64]))), binding.pads_of(most[:64]))
    check('65 pads', reply(library.read_csv, plain(most)), (1, 0, None))
    longest = plain([(1, 2, '9' * (16384 - len(plain([(1, 2, '')])))) ])
    for text in longest, longest + b'0', longest[:-1] + b' ', b'', b'name,x,y', longest.replace(b'9', b'"', 1):
        check('read_csv', reply(library.read_csv, text), pads_in(text, 1024))
    for bad in 'name,x,y', None, 16:
        check('text', reply(library.read_csv, bad), TypeError)

def try_draw(library, job, board):
    for i, q in itertools.product(range(board.n + 1), repeat=2):
        there = max(i, q) < board.n
        drawn = reply(library.draw, job, i, q)
        check('draw', drawn, board.points(i, q) if there else (11, 0, None))
        check('a zero is positive', there and any(str(number) == '-0.0' for point in drawn for number in point), False)

def layouts(r, n, p):
    """Some of all, for n pads and p ports: whole, spoilt, shorter, longer."""
    f = r.sample(range(max(n, p)), n)
    yield f
    yield f + [r.randrange(65536)]
    yield f[:-1]
    yield [r.choice([q, r.randrange(p + 1), 65535]) for q in f]

WEIGHTS = [(1, 0), (0, 0), (0, 1), (1, 1), (2, 3), (1000, 1000), (1001, 0), (0, 4294967295)]

def try_job(library, job, r):
    weights, board = r.choice(WEIGHTS + [(r.randint(0, 9), r.randint(0, 9))]), Board(job)
    given = list(layouts(r, min(board.n, 64), min(board.n, 64))) if board.n else [[], [0]]
    try_weights(library, job, board, weights, given)
    try_svg(library, job, board, given)
    try_csv(library, job, r)
    for table in tables(r, board):
        try_table(library, job, board, table, given)
    if not board.bad:
        try_draw(library, job, board)
    else:
        check('draw', reply(library.draw, job, 0, 0), (*board.bad, None))
    try_slots(library, *on_strip(r, job), weights, r)

def many(n):
    """A job of many best sheets: all pads in the middle gap, half of them to be led up, half down."""
    return binding.job_of((i + 1, 10 + i, 8 * n // 2 - 4, 8 * i) for i in range(n))

def try_pages(library):
    """More sheets than one page has."""
    job = many(8)
    stepped = [library.first(job)]
    while stepped[-1]:
        stepped.append(library.next_(job, stepped[-1][1]))
    for binding.PAGE_SHEETS in 1, 7, 20, 69, 70, 1000:
        check('sheets', list(library.sheets(job)), stepped[:-1])
    check('sheets', len(stepped), 71)

def try_numbers(library):
    """A number that does not fit C's is not cut down to one that does; a job is bytes."""
    job = binding.job_of([(101, 5, 3, 3)])
    for bad in -1, 2 ** 32, 2 ** 64 + 1:
        check('weight', reply(library.first, job, bad, 0), OverflowError)
        check('weight', reply(library.measure, job, [0], 0, bad), OverflowError)
        check('record', reply(library.draw, job, bad, 0), OverflowError)
        check('figure', reply(library.table_first, job, [bad]), OverflowError)
        check('figure', reply(library.table_next, job, [bad], [0]), OverflowError)
        check('figure', reply(library.table_measure, job, [bad], [0]), OverflowError)
    for bad in -1, 65536, 2 ** 32:
        check('entry', reply(library.measure, job, [bad]), OverflowError)
        check('entry', reply(library.svg, job, [bad]), OverflowError)
        check('entry', reply(library.table_measure, job, [0], [bad]), OverflowError)
    strip = binding.ports_of([3, 11])
    for bad in -1, 2 ** 32:
        check('weight', reply(library.slots_first, job, strip, bad, 0), OverflowError)
        check('weight', reply(library.slots_next, job, strip, [0], 0, bad), OverflowError)
        check('weight', reply(library.slots_measure, job, strip, [0], bad, 0), OverflowError)
        check('entry', reply(library.slots_measure, job, strip, [bad]), OverflowError)
    for bad in 16, 'x' * 16, None:
        check('strip', reply(library.slots_measure, job, bad, [0]), TypeError)
    for bad in 0.5, None, 'x':
        check('figure', reply(library.table_first, job, [bad]), TypeError)
    for bad in 16, 'x' * 16, [0] * 16, None:
        check('job', reply(library.measure, bad, [0]), TypeError)
    for bad in -1, 2 ** 64:
        check('place', reply(library.place, job, bad), OverflowError)
    for bad in -1, 2 ** 32:
        check('weight', reply(library.count, job, bad, 0), OverflowError)
        check('weight', reply(library.place, job, 0, 0, bad), OverflowError)
    check('places', [reply(library.place, job, k) for k in range(2)], [(5, [0]), (17, 0, None)])
    for n in 8, 62:
        check('count', library.count(many(n)), math.comb(n, n // 2))
        check('last place', library.next_(many(n), library.place(many(n), math.comb(n, n // 2) - 1)[1]), None)
    check('too many', reply(library.count, many(64)), (16, 0, None))
    check('too many', reply(library.place, many(64), 0), (16, 0, None))
    check('job', library.first(bytearray(job)), (5, [0]))
    check('largest half-side', library.first(binding.job_of([(101, 5, 3, 3)], 2000)), (5, [0]))
    check('a larger one', reply(library.first, binding.job_of([(101, 5, 3, 3)], 2001)), (4, 0, None))
    check('a larger one', reply(library.draw, binding.job_of([(101, 5, 3, 3)], 2001), 0, 0), (4, 0, None))
    check('layout', library.measure(job, iter([0])), 5)
    check('largest job', reply(library.first, job * 65), (1, 0, None))
    most = binding.job_of((1 + i, 100 + i, 8 * i, 8 * i) for i in range(64))
    check('64 records', library.first(most), (sum(range(100, 164)), list(range(64))))
    longest = binding.job_of((1 + i, 999999 - 2 * i, 999003 + 8 * i, 999001 + 8 * i) for i in range(64))
    check('longest text', (len(reply(library.svg, longest, range(64))), reply(library.svg, longest, range(64), 4863)), (4864, (19, 0, None)))
    check('a long list of ports', library.measure(most, list(range(1000))), sum(range(100, 164)))
    check('largest figures', library.table_first(most, iter([4294967295] * 4096))[0], 274877906880)
    check('largest figures', library.table_measure(most, [4294967295] * 4096, range(64)), 274877906880)
    pads, strip = binding.pads_of((1 + i, 100 + i, 8 * i) for i in range(64)), binding.ports_of(8 * q - 256 for q in range(128))
    check('64 pads, 128 ports', library.slots_first(pads, strip), (sum(range(100, 164)), list(range(32, 96))))
    check('64 pads, 128 ports', library.slots_next(pads, bytearray(strip), range(32, 96)), None)
    check('129 ports', reply(library.slots_first, pads, strip + binding.ports_of([10000])), (1, 0, None))
    check('a long list of ports', library.slots_measure(pads, strip, list(range(32, 1000))), sum(range(100, 164)))
    level = binding.job_of([(101, 10, 20, 0), (102, 20, 10, 10)])  # by this table the leaders that touch cost nothing
    check('crossing pays', library.table_first(level, [0, 1, 1, 0]), (2, [1, 0]))
    check('crossing pays', library.table_next(level, [0, 1, 1, 0], [1, 0]), None)
    check('crossing pays', reply(library.table_measure, level, [0, 1, 1, 0], [0, 1]), (9, 1, 0))

def try_texts(texts):
    check('texts', binding.TEXTS, texts)
    check('text', str(binding.Refusal(12, 1)), 'refused 12 record 1: ' + texts[12])
    check('text', str(binding.Refusal(9, 2, 0)), 'refused 9 record 2 and record 0: ' + texts[9])
    check('text', str(binding.Refusal(21, 3)), 'refused 21 line 3: ' + texts[21])
    check('text', str(binding.Refusal(99, 0))[:20], 'refused 99 record 0:')
    for number, record, earlier in itertools.product(texts, [0, 1, 63, 127], [0, 1, 63]):
        if number == 9 or not earlier:
            answer = -(4294967296 * earlier + 65536 * number + record)
            check('answer', reply(binding.taken_apart, answer), (number, record, earlier if number == 9 else None))
    for answer in -1, 0, 192000064000, 274877906880:
        check('answers', binding.taken_apart(answer), answer)

def try_jobs():
    """The jobs that lie beside the binding, made again by it."""
    for name, half in ('J1', 0), ('J5', 0), ('matrix', 0), ('copper', 20):
        with open(examples + name + '.job', 'rb') as file:
            job = file.read()
        records = [(a, x, y, q) for a, _, x, y, q in struct.iter_unpack('<HHIii', job)]
        check('job', (binding.job_of(records, half), binding.records_in(job)), (job, len(records)))
        check('job', binding.job_of(iter(records), iter([half] * len(records))), job)
        check('half-sides', reply(binding.job_of, records, [half] * (len(records) + 1)), ValueError)
    with open(examples + 'sensor.pads', 'rb') as pads, open(examples + 'row.ports', 'rb') as ports:
        pads, ports = pads.read(), ports.read()
    named = [(a, x, y) for a, _, x, y, _ in struct.iter_unpack('<HHIii', pads)]
    check('pads', binding.pads_of(iter(named)), pads)
    check('half-sides', [half for _, half, *_ in struct.iter_unpack('<HHIii', binding.pads_of(named, range(9)))], list(range(9)))
    check('job', binding.job_of([(1, 2, 3, 4), (5, 6, 7, 8)], [9, 65535]), struct.pack('<HHIiiHHIii', 1, 9, 2, 3, 4, 5, 65535, 6, 7, 8))
    check('ports', binding.ports_of(range(10, 640, 20)), ports)
    check('work', len(binding.work_of(pads, ports)), 2 * 10 * 34 * 34)
    check('buffer', [len(binding.buffer_of(job)) for job in (b'', pads, bytes(1024), bytes(2000))], [8, 242, 8712, 8712])

def try_program(library, texts):
    """The binding as a program: its status, and what it writes."""
    def program(words, out=subprocess.PIPE, **environment):
        run = subprocess.run([sys.executable, examples + 'cheremysl.py', *words], stdout=out, stderr=subprocess.PIPE, env={**os.environ, **environment})
        return run.returncode, (run.stdout or b'').decode(), run.stderr.decode()
    given, j3 = {'CHEREMYSL_LIBRARY': library}, 'total 40: 1 0\ntotal 40: 0 1\n'
    says = lambda words: (2, '', 'cheremysl.py: %s\n' % words)
    check('program', program([examples + 'J3.job'], **given), (0, j3, ''))
    check('found', program([examples + 'J3.job'], LD_LIBRARY_PATH=os.path.dirname(library)), (0, j3, ''))
    slots = 'total 3593: 16 17 15 14 18 9 8 23 24\ntotal 3593: 16 17 15 14 18 10 8 23 24\n'
    slots += slots.replace('24', '25')
    check('program', program([examples + 'sensor.pads', examples + 'row.ports'], **given), (0, slots, ''))
    check('refused', program(['/dev/zero'], **given), (1, 'refused 1 record 0: %s\n' % texts[1], ''))
    check('refused', program([examples + 'sensor.pads', '/dev/zero'], **given), (1, 'refused 1 record 0: %s\n' % texts[1], ''))
    check('refused', program([examples + 'sensor.pads', '/dev/null'], **given), (1, 'refused 1 record 0: %s\n' % texts[1], ''))
    check('no file', program(['none'], **given), says("[Errno 2] No such file or directory: 'none'"))
    for words in [], ['one', 'two', 'three']:
        check('words', program(words, **given), says('usage: cheremysl.py JOB, or cheremysl.py PADS PORTS'))
    check('no library', program([examples + 'J3.job'], CHEREMYSL_LIBRARY='/none/lib.so'),
          says('/none/lib.so: cannot open shared object file: No such file or directory'))
    with open('/dev/full', 'wb') as full:
        for job in examples + 'J3.job', '/dev/null':
            check('full', program([job], full, **given), says('[Errno 28] No space left on device'))

def try_reader(library):
    """A reader that has enough: the program goes on listing until then, and says nothing of it."""
    run = subprocess.Popen([sys.executable, examples + 'cheremysl.py', '/dev/stdin'], stdin=subprocess.PIPE, stdout=subprocess.PIPE, stderr=subprocess.PIPE,
                           env={**os.environ, 'CHEREMYSL_LIBRARY': library})
    run.stdin.write(many(64))
    run.stdin.close()
    line = run.stdout.readline()
    run.stdout.close()
    check('enough', (line[:6], run.stderr.read(), run.wait()), (b'total ', b'', -signal.SIGPIPE))

with open(sys.argv[1]) as file:
    texts = {int(number): text for number, text in (line.split(' ', 1) for line in file.read().splitlines())}
try_texts(texts)
try_jobs()
if len(sys.argv) > 2:
    library, r = binding.Cheremysl(sys.argv[2]), random.Random(int(sys.argv[4]))
    for k in range(int(sys.argv[3])):
        job = (plain.spoilt if k % 4 == 3 else plain.sound)(r)
        if len(job) <= 80 or len(job) > 1024:
            try_job(library, job, r)
    try_pages(library)
    try_numbers(library)
    try_lists(library)
    try_program(sys.argv[2], texts)
    try_reader(sys.argv[2])
    check('refusals seen', seen, set(texts))
print('%d passed, %d failed' % (passed, failed))
sys.exit(failed > 0 or passed == 0)
