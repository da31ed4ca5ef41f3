#!/usr/bin/env python3
"""tests/draw.py PROGRAM..: draws the sample jobs and boards of every kind, and looks at the pictures as a reader does: each is well-formed, its
leaders are those of 01 worked out here, those touch that do by 01 and no others come close, no dot or name meets a foreign leader, and no text meets
another; the ports that stay free have their marks; a pad's square meets the leaders that it meets on the board, and so does a shaded area. The last
line has the counts."""
import glob, itertools, math, os, random, struct, subprocess, sys, tempfile
import xml.etree.ElementTree as xml

SVG = '{http://www.w3.org/2000/svg}'
LEAST = 7.98  # pixels from a line to the next: 8, and the last digit may be rounded
SIDE = 4.98  # pixels from a square's side to a line or to another side
SIZES = {64: (4200, 2400), 128: (5000, 4000)}  # pixels, for up to so many ports: no sound sheet has a larger picture ..
SQUARES = 600, 800  # .. but for what squares can add
passed = failed = 0

def check(what, good, *seen):
    global passed, failed
    passed, failed = passed + bool(good), failed + (not good)
    if not good:
        print('FAILED:', what, *seen)

def records(job):
    """Of each record the name, the half-side, x, y and the last field."""
    return [struct.unpack_from('<HHIii', job, 16 * i) for i in range(len(job) // 16)]

def square(record):
    """Left, low, right, high of a pad's square, on the board."""
    _, half, x, y, _ = record
    return x - half, y - half, x + half, y + half

# ---- reading a picture

def points(text):
    return [tuple(map(float, p.split(','))) for p in text.split()]

def box(text, size, half=0.37):
    """Left, top, right, bottom of a text: letters are 0.65 of the size wide, and digits reach 0.37 up and down from their middle."""
    x, y, wide = float(text.get('x')), float(text.get('y')), 0.65 * size * len(text.text)
    left = x - wide if text.get('anchor') == 'end' else x
    return left, y - half * size, left + wide, y + half * size

def meet(a, b):
    return a[0] < b[2] and b[0] < a[2] and a[1] < b[3] and b[1] < a[3]

def share(a, b):
    """Whether two boxes share a point, if only one of their sides."""
    return a[0] <= b[2] and b[0] <= a[2] and a[1] <= b[3] and b[1] <= a[3]

def segments(line):
    """The boxes of a leader's hand and arm."""
    return [(min(a, c), min(b, d), max(a, c), max(b, d)) for (a, b), (c, d) in zip(line, line[1:])]

def distance(a, b):
    """Of two boxes, each of them upright."""
    return math.hypot(max(a[0] - b[2], b[0] - a[2], 0), max(a[1] - b[3], b[1] - a[3], 0))

def apart(one, other):
    """Of two leaders, as their segments."""
    return min([distance(a, b) for a in one for b in other])

class Picture:
    def __init__(self, text):
        root = xml.fromstring(text)
        self.width, self.height, self.size = (float(root.get(k)) for k in ('width', 'height', 'font-size'))
        self.title, self.edge = root.find(SVG + 'title').text, root.find(SVG + 'path').get('d')
        self.ids = [e.get('id') for e in root.iter() if e.get('id')]
        group = root.findall(SVG + 'g')
        self.polygons = group.pop(0).findall(SVG + 'polygon') if group[0].find(SVG + 'polygon') is not None else []
        self.squares = {int(g.get('id').removeprefix('square-')): points(g.get('points')) for g in self.polygons}
        self.boxes = {i: corners[0] + corners[2] for i, corners in self.squares.items()}  # left, top, right, bottom
        self.leaders = group[0].findall(SVG + 'g')
        self.width_of_line = float(group[0].get('stroke-width'))
        self.lines = [points(g.find(SVG + 'polyline').get('points')) for g in self.leaders]
        self.segments = [segments(line) for line in self.lines]
        self.drawn = [g.find(SVG + 'polyline').get('data-points') for g in self.leaders]
        self.dots = [tuple(float(g.find(SVG + 'circle').get(k)) for k in ('cx', 'cy', 'r')) for g in self.leaders]
        self.heading, self.names, self.labels = root.findall(SVG + 'text'), list(group[1]), list(group[2])
        for label in self.labels:
            label.set('anchor', group[2].get('text-anchor'))

# ---- what must be on it

def number(v):
    return repr(v).removesuffix('.0')

def expected_leader(record, port):
    x, y, q = record[2] / 4, -record[3] / 4 + 0.0, -port / 4 + 0.0
    way = [(x, y), (0.0, q)] if y == q else [(x, y), (x, q), (0.0, q)]
    return ' '.join(number(a) + ',' + number(b) for a, b in way)

def check_leaders(what, picture, rs, hs, layout):
    """The leaders are Draw's, with their titles and the total."""
    lengths = [r[2] + abs(r[3] - hs[q]) for r, q in zip(rs, layout)]
    bends = [int(r[3] != hs[q]) for r, q in zip(rs, layout)]
    squares = [i for i, r in enumerate(rs) if r[1]]
    check(what + ': ids', picture.ids == ['square-%d' % i for i in squares] + ['leader-%d' % i for i in range(len(rs))], picture.ids)
    check(what + ': squares', [g.find(SVG + 'title').text for g in picture.polygons] == [
        'pad %d (record %d): half-side %d' % (rs[i][0], i, rs[i][1]) for i in squares])
    check(what + ': points', picture.drawn == [expected_leader(r, hs[q]) for r, q in zip(rs, layout)], picture.drawn)
    check(what + ': titles', [g.find(SVG + 'title').text for g in picture.leaders] == [
        'pad %d (record %d) to port %d: length %d, bends %d' % (r[0], i, layout[i], lengths[i], bends[i]) for i, r in enumerate(rs)])
    check(what + ': total', picture.title == what + ': length %d, bends %d' % (sum(lengths), sum(bends)), picture.title)
    check(what + ': total shown', picture.heading[0].text == picture.title)

def check_places(what, picture, rs, hs):
    """Pads, ports and squares' sides stand in the order of their heights and x, far enough from each other, and equal ones in one place."""
    apart = lambda at, least: len(at) == len(dict(at)) and all(b[1] - a[1] >= least for a, b in zip(at, at[1:]))
    lines = {(-r[3], dot[1]) for r, dot in zip(rs, picture.dots)} | {(-h, float(t.get('y'))) for h, t in zip(hs, picture.labels[1:])}
    check(what + ': heights apart', apart(sorted(lines), LEAST), lines)
    hands = {(0, picture.lines[0][-1][0])} | {(r[2], dot[0]) for r, dot in zip(rs, picture.dots)}
    check(what + ': pads apart', apart(sorted(hands), LEAST), hands)
    sides = [(square(rs[i]), box) for i, box in picture.boxes.items()]
    at = sorted(lines | {(-high, box[1]) for (_, _, _, high), box in sides} | {(-low, box[3]) for (_, low, _, _), box in sides})
    check(what + ': sides apart in height', apart(at, SIDE), at)
    across = sorted(hands | {(max(left, 0), box[0]) for (left, _, _, _), box in sides} | {(right, box[2]) for (_, _, right, _), box in sides})
    check(what + ': sides apart in x', apart(across, SIDE), across)
    check(what + ': upright squares', all(corners == [(a, b), (c, b), (c, d), (a, d)] for corners, (a, b, c, d) in zip(
        picture.squares.values(), picture.boxes.values())))
    check(what + ': squares inside', all(picture.lines[0][-1][0] <= a and c < picture.width and float(picture.edge[1:].split(',')[1].split('V')[0]) <= b
                                         and d < picture.height for a, b, c, d in picture.boxes.values()))
    check(what + ': one edge', len({line[-1][0] for line in picture.lines}) == 1)
    check(what + ': lines', all(line[0] == dot[:2] and all(a[0] == b[0] or a[1] == b[1] for a, b in zip(line, line[1:]))
                                and len(line) == len(drawn.split()) for line, dot, drawn in zip(picture.lines, picture.dots, picture.drawn)))
    if not any('not to scale' in line.text for line in picture.heading):
        scales = [(b[1] - a[1]) / (b[0] - a[0]) for a, b in itertools.chain(zip(at, at[1:]), zip(across, across[1:]))]
        check(what + ': to scale', max(scales) - min(scales) < 0.01 * max(scales), scales)

def check_texts(what, picture, rs, hs, layout):
    """The labels are all there, and no two texts meet, nor does one leave the picture. Free ports are marked on the edge, and gray."""
    named = [' '.join(str(r[0]) for r, q in zip(rs, layout) if q == k) for k in range(len(hs))]
    check(what + ': labels', [t.text for t in picture.labels] == ['port: pad'] + ['%d' % k + (': ' + n if n else '') for k, n in enumerate(named)])
    at = {q: line[-1][1] for q, line in zip(layout, picture.lines)}
    check(what + ': labels at their ports', all(float(picture.labels[q + 1].get('y')) == y for q, y in at.items()))
    left, *marks = picture.edge.split('M')[1:]
    free = [t for k, t in enumerate(picture.labels[1:]) if k not in layout]
    middle = ['%g,%s' % (float(mark.split(',')[0]) + float(mark.split('h')[1]) / 2, mark.split(',')[1].split('h')[0]) for mark in marks]
    check(what + ': free ports', middle == [left.split(',')[0] + ',' + t.get('y') for t in free], picture.edge)
    check(what + ': gray', [t for t in picture.labels[1:] if t.get('fill') == 'gray'] == free)
    below = sorted((q, line.get('stroke')) for q, line in zip(layout, picture.leaders))
    check(what + ': colours', all(a[0] == b[0] or a[1] != b[1] for a, b in zip(below, below[1:])), below)
    check(what + ': names', [(t.text, float(t.get('y'))) for t in picture.names] == [(str(r[0]), dot[1]) for r, dot in zip(rs, picture.dots)])
    boxes = [box(t, picture.size) for t in picture.heading + picture.names + picture.labels]
    check(what + ': texts inside', all(b[0] >= 0 and b[1] >= 0 and b[2] <= picture.width and b[3] <= picture.height for b in boxes))
    labels = [box(t, picture.size, 0.5) for t in picture.labels + picture.heading]
    check(what + ': labels apart', not any(meet(a, b) for a, b in itertools.combinations(labels, 2)))
    return boxes

def touch(a, p, b, q):
    """Of pads a and b, led to the port heights p and q."""
    (_, _, _, y, _), p, q = (b, p, q) if a[2] > b[2] else (a, q, p)  # the left pad's height, the right one's port, the left one's
    return min(y, q) <= p <= max(y, q)

def check_touching(what, picture, rs, hs, layout):
    """Leaders touch in the picture exactly if they do on the sheet, and others are far enough from each other for the width of a line. So it is with a
    leader and another pad's square, whose sides have just the places of lines in it."""
    bad = []
    for i, j in itertools.combinations(range(len(rs)), 2):
        near, touching = apart(picture.segments[i], picture.segments[j]), touch(rs[i], hs[layout[i]], rs[j], hs[layout[j]])
        if near > 0 if touching else near < LEAST:
            bad.append((i, j, near))
    check(what + ': leaders apart', not bad, bad)
    bad = []
    for i, j in itertools.product(range(len(rs)), picture.boxes):
        near, met = apart(picture.segments[i], [picture.boxes[j]]), meets(square(rs[j]), rs[i], hs[layout[i]])
        if i != j and (near > 0 if met else near < SIDE):
            bad.append((i, j, near))
    check(what + ': squares apart', not bad, bad)
    check(what + ': width of lines', picture.width_of_line < SIDE / 3)

def check_sound(what, picture, rs, hs, boxes):
    """On a sheet without touching records nothing meets a foreign leader or square but another square, and no two texts meet."""
    n, (widest, highest) = len(rs), min(size for ports, size in SIZES.items() if len(hs) <= ports)
    wider, higher = SQUARES if picture.boxes else (0, 0)
    check(what + ': size', picture.width <= widest + wider and picture.height <= highest + higher and picture.size >= 10, picture.width, picture.height)
    for i, (x, y, r) in enumerate(picture.dots):
        near = min([distance((x, y, x, y), s) for j in range(n) if j != i for s in picture.segments[j]], default=LEAST)
        clear = min([distance((x, y, x, y), s) for j, s in picture.boxes.items() if j != i], default=SIDE)
        check(what + ': dot of %d' % i, 2 <= r < near - picture.width_of_line and r < clear, r, near, clear)
    check(what + ': texts apart', not any(meet(a, b) for a, b in itertools.combinations(boxes, 2)))
    check(what + ': sound', all(apart(picture.segments[i], picture.segments[j] + [s for s in [picture.boxes.get(j)] if s]) > 0
                                for i, j in itertools.permutations(range(n), 2)))
    names = [(t.text, box(t, picture.size)) for t in picture.names]
    on = [(name, j) for name, place in names for j in range(n) for s in picture.segments[j] if meet(place, s)]
    check(what + ': names clear of leaders', not on, on)
    on = [(i, j) for i, (_, place) in enumerate(names) for j, s in picture.boxes.items() if i != j and meet(place, s)]
    check(what + ': names clear of squares', not on, on)

# ---- running it

def draw(path, *words):
    run = subprocess.run(program + [path] + list(words), stdout=subprocess.PIPE, stderr=subprocess.PIPE)
    check('%s %s: status' % (path, ' '.join(words)), run.returncode == 0 and not run.stderr, run)
    return run.stdout

def look(what, text):
    try:
        return Picture(text)
    except (xml.ParseError, AttributeError, IndexError, TypeError) as fault:
        check('%s: well-formed' % what, False, fault)

def board_at(path, slots=None):
    """The records of a job file, and its ports' heights, which with slots stand in a file of their own."""
    rs = records(open(path, 'rb').read())
    return rs, [h for h, in struct.iter_unpack('<i', open(slots, 'rb').read())] if slots else [r[4] for r in rs]

def ports_shown(picture):
    return [int(g.find(SVG + 'title').text.split(' to port ')[1].split(':')[0]) for g in picture.leaders]

def least_rise(rs, hs):
    """The least sum of distances from pads to ports of their own: some shortest sheet is led by the order of heights. least[k]: of the first k pads."""
    least = [0] + [math.inf] * len(rs)
    for h in hs:
        for k, y in reversed(list(enumerate(sorted(r[3] for r in rs)))):
            least[k + 1] = min(least[k + 1], least[k] + abs(y - h))
    return least[-1]

def try_board(path, layout=None, sound=True, slots=None):
    words = ['--slots', slots] * bool(slots) + [str(q) for q in layout or []] + ['--any'] * (not sound)
    text, (rs, hs), what = draw(path, *words), board_at(path, slots), os.path.basename(path)
    picture = look(what, text)
    if picture is None:
        return
    shown = ports_shown(picture)
    if layout is None:  # First's: no shorter sheet
        check(what + ': a layout', len(set(shown)) == len(rs) and set(shown) <= set(range(len(hs))))
        longer = sum(abs(r[3] - hs[q]) for r, q in zip(rs, shown)) - least_rise(rs, hs)
        check(what + ': shortest', longer == 0 or longer > 0 and picture.boxes, longer)
    layout = shown if layout is None else layout
    check_leaders(what, picture, rs, hs, layout)
    check_places(what, picture, rs, hs)
    boxes = check_texts(what, picture, rs, hs, layout)
    check_touching(what, picture, rs, hs, layout)
    if sound:
        check_sound(what, picture, rs, hs, boxes)
        check(what + ': drawn again', draw(path, *words) == text)

def meets(area, record, port):
    """Whether a leader shares a point with the area, on the board: left, low, right, high."""
    _, _, x, y, _ = record
    return any(share(area, part) for part in ((x, min(y, port), x, max(y, port)), (0, port, x, port)))

def try_area(r, path, slots=None):
    """In the picture a shaded area meets the leaders and squares that it meets on the board, but for what is lost in rounding; all else is drawn as
    without it."""
    words = ['--slots', slots] * bool(slots)
    (rs, hs), what, plain = board_at(path, slots), os.path.basename(path) + ', area', draw(path, *words)
    near = lambda places: r.choice(places) + r.choice((-30, -1, 0, 1, 30))
    for _ in range(3):
        x, u = (near([0] + [s[2] for s in rs] + [end for s in rs for end in square(s)[::2]]) for _ in 'xu')
        y, v = (near([s[3] for s in rs] + [end for s in rs for end in square(s)[1::2]] + hs) for _ in 'yv')
        text = draw(path, *words, '--area', '%d,%d,%d,%d' % (x, y, u, v))
        shaded = [line for line in text.splitlines() if b'id="area"' in line]
        check(what + ': the rest', [line for line in text.splitlines() if line not in shaded] == plain.splitlines() and len(shaded) < 2)
        area, picture = (min(x, u), min(y, v), max(x, u), max(y, v)), look(what, plain)
        met = [meets(area, s, hs[q]) for s, q in zip(rs, ports_shown(picture))]
        if not shaded:
            check(what + ': not shaded', not any(met), area)
            continue
        left, top, width, height = (float(xml.fromstring(shaded[0]).get(k)) for k in ('x', 'y', 'width', 'height'))
        met += [share(area, square(rs[j])) for j in picture.boxes]
        things = picture.segments + [[box] for box in picture.boxes.values()]
        for grow, wrong in (-0.02, lambda m: not m), (0.02, lambda m: m):
            box = left - grow, top - grow, left + width + grow, top + height + grow
            seen = [any(share(s, box) for s in boxes) for boxes in things]
            check(what + ': leaders and squares', not any(wrong(m) and (s if grow < 0 else not s) for m, s in zip(met, seen)), area, met, seen)

# ---- boards

END = 1000000

def spread(r, n, low, high, least=1):
    """n rising numbers, at least so far from each other."""
    free = high - low - (n - 1) * least
    return [low + place + k * least for k, place in enumerate(sorted(r.randint(0, free) for _ in range(n)))]

def boards(r):
    """Names of boards, with the pads' x and y and the ports."""
    for n in (1, 3, 24, 40, 64):
        any_x, any_y = lambda w: r.sample(range(1, w + 1), n), lambda low, high: [r.randint(low, high) for _ in range(n)]
        close = [8 * k - 4 * n for k in range(n)]
        high = spread(r, n, -END, END, 8)
        yield 'ports-8-apart-%d' % n, any_x(10 * n), any_y(-4 * n, 4 * n), close
        yield 'ports-8-apart-high-%d' % n, any_x(END), any_y(-END, END), close
        yield 'high-%d' % n, any_x(END), any_y(-END, END), high
        yield 'narrow-%d' % n, r.sample(range(1, n + 1), n), any_y(-END, END), high
        yield 'flat-%d' % n, any_x(END), any_y(0, 8), close
        yield 'one-height-%d' % n, any_x(END), [-END] * n, high
        yield 'corner-%d' % n, r.sample(range(1, n), n - 1) + [END], any_y(END - 2 * n, END)[1:] + [-END], high
        yield 'crowd-%d' % n, list(range(1, n)) + [END], [0] * n, high
        yield 'level-with-ports-%d' % n, any_x(2 * n), [r.choice(close) + r.choice((0, 0, 1, -1)) for _ in range(n)], close

def pack(r, xs, ys, ports, halves=itertools.repeat(0)):
    names = r.sample(range(1, 65536), len(xs))
    return b''.join(struct.pack('<HHIii', name, half, x, y, q) for name, half, x, y, q in zip(names, halves, xs, ys, ports))

def pack_heights(heights):
    return struct.pack('<%di' % len(heights), *heights)

def slots_boards(r):
    """Boards for a strip of slots: every second of those above with some of its pads, and with more ports on either side of its own."""
    for name, xs, ys, ports in itertools.islice(boards(r), 0, None, 2):
        few, more = r.randint(1, len(xs)), r.randint(0, 128 - len(ports))
        step = r.choice((8, 8, 30, 3000))
        below, above = [ports[0] - step * k for k in range(more // 2, 0, -1)], [ports[-1] + step * (k + 1) for k in range(more - more // 2)]
        strip = [h for h in below + ports + above if -END <= h <= END]
        yield name + '-%d-of-%d' % (few, len(strip)), xs[:few], ys[:few], strip
    for n in (1, 9, 64):  # as high as a picture gets, and all slots in one corner
        high, xs = spread(r, 128, -END, END, 8), r.sample(range(1, END), n)
        yield 'slots-%d-high' % n, xs, [r.choice(high) + 4 for _ in xs], high
        yield 'slots-%d-corner' % n, xs, [-END] * n, [END - 8 * k for k in range(127, -1, -1)]
        yield 'slots-%d-crowd' % n, xs, [r.randint(500, 516) for _ in xs], [8 * k for k in range(128)]

def try_slots(r, room):
    for name, xs, ys, strip in slots_boards(r):
        path, slots = os.path.join(room, name), os.path.join(room, 'strip')
        open(path, 'wb').write(pack(r, xs, ys, [0] * len(xs)))
        open(slots, 'wb').write(pack_heights(strip))
        try_board(path, slots=slots)
        try_area(r, path, slots)
        try_board(path, r.sample(range(len(strip)), len(xs)), False, slots)

def half_sides(r, n):
    """Of n pads: one for all, or any of them, some 0."""
    most = r.choice((20, 200, 2000))
    return [most] * n if r.random() < .3 else [r.choice((0, most, r.randint(0, most))) for _ in range(n)]

def has_no_sheet(path, slots):
    run = subprocess.run(program + ['--slots', slots] * bool(slots) + [path], stdout=subprocess.DEVNULL, stderr=subprocess.PIPE)
    return run.returncode == 1 and b': refused 15 record 0: ' in run.stderr

def squares_boards(r, room):
    """All boards again with half-sides, smaller and smaller until there is a sheet: the file, one of slots or None, and if there is."""
    forms = [(*board, False) for board in boards(r)] + [(*board, True) for board in slots_boards(r)]
    for name, xs, ys, ports, on_slots in forms:
        path, slots, halves = os.path.join(room, name), os.path.join(room, 'strip') if on_slots else None, half_sides(r, len(xs))
        if slots:
            open(slots, 'wb').write(pack_heights(ports))
        sound = False
        while not sound:
            open(path, 'wb').write(pack(r, xs, ys, [0] * len(xs) if slots else ports, halves))
            sound = not has_no_sheet(path, slots)
            yield path, slots, sound
            halves = [half // 3 for half in halves]

def try_squares(r, room):
    """What is drawn where pads are squares: touching and apart, sides at the places of lines, squares that overlap and that reach past the edge."""
    none = squares = 0
    for path, slots, sound in squares_boards(r, room):
        rs, hs = board_at(path, slots)
        try_board(path, r.sample(range(len(hs)), len(rs)), False, slots)
        none, squares = none + (not sound), squares + (sound and any(half for _, half, _, _, _ in rs))
        if sound:
            try_board(path, slots=slots)
            try_area(r, path, slots)
    check('boards with squares: %d without a sheet, %d with one' % (none, squares), none > 9 and squares > 20)

def odd_names(room):
    """Names of files, and how they are shown."""
    yield b'a & b <c> "d" \'e\'', 'a & b <c> "d" \'e\''
    yield 'плата № 7 – Ω 🔧'.encode(), 'плата № 7 – Ω 🔧'
    yield b'tab\tline\nescape\x1b\x7f', 'tab\ufffdline\ufffdescape\ufffd\ufffd'
    yield b'\xff\xc3(\xe2\x82', '\ufffd\ufffd(\ufffd\ufffd'
    yield b'\xc0\xaf\xed\xa0\x80\xef\xbf\xbe\xf4\x90\x80\x80\xc2\x9b', '\ufffd' * 14
    yield b'x' * 200, 'x' * 40 + '…'
    yield b'&' * 200, '&' * 40 + '…'
    yield ('Ж' * 100).encode(), 'Ж' * 40 + '…'

def main():
    r = random.Random(1)
    for path in sorted(glob.glob('examples/*.job')):
        try_board(path)
    try_board('examples/crossing.job', [3, 1, 2, 0], False)
    try_board('examples/level.job', [0, 1], False)
    try_board('examples/J5.job', [1, 1, 1], False)
    try_board('examples/matrix.job', [63] * 64, False)
    with open('examples/antenna.layout') as file:
        try_board('examples/antenna.job', [int(q) for q in file.read().split()])
    with open('examples/copper.layout') as file:
        try_board('examples/copper.job', [int(q) for q in file.read().split()], False)
    try_board('examples/sensor.pads', slots='examples/row.ports')
    try_board('examples/sensor.pads', [31, 17, 15, 14, 18, 10, 8, 23, 0], False, 'examples/row.ports')
    with tempfile.TemporaryDirectory() as room:
        for name, xs, ys, ports in boards(r):
            path = os.path.join(room, name)
            open(path, 'wb').write(pack(r, xs, ys, ports))
            try_board(path)
            try_area(r, path)
            if len(xs) > 1:
                try_board(path, r.sample(range(len(xs)), len(xs)), False)
        try_slots(r, room)
        try_squares(r, room)
        for name, shown in odd_names(room):
            path = os.path.join(room.encode(), name)
            open(path, 'wb').write(open('examples/J1.job', 'rb').read())
            picture = look(repr(name), draw(path))
            check(repr(name), picture and picture.title == shown + ': length 5, bends 0')
    print('%d passed, %d failed' % (passed, failed))
    sys.exit(failed > 0)

program = sys.argv[1:]
main()
