#!/usr/bin/env python3
"""tests/csv.py TEXTS SEED COMMAND..: so many texts of comma-separated values as Python's csv module reads them, beside ReadCsv, which the command asks
(tests/csv.sh): texts that the module writes, in each of its ways of quoting, and texts with damage. The last line has the counts."""
import io, random, re, struct, subprocess, sys
sys.path.pop(0)  # where this file stands, which has the module's name
import csv

NUMBERS = (re.compile('0|[1-9][0-9]*'), re.compile('0|[1-9][0-9]*'), re.compile('0|-?[1-9][0-9]*'))
RANGES = ((1, 65535), (1, 1000000), (-1000000, 1000000))
LIMIT = 16384
WORDS = ['0', '00', '-0', '-1', '+1', '-', '', ' 1', '1 ', '1.0', '1e3', '65535', '65536', '1000000', '1000001', '-1000000', '-1000001', '\u0661', '\xb2',
         '1_0', str(2 ** 32 + 1), str(2 ** 64 + 1), '9' * 5000, '"', '""', ',', 'a,b', 'a"b', '\r\n', '1\r\n', '\r', '\n', '\0', 'name', 'x', 'Y']
outcomes = []  # whether each check passed

def check(what, found, expected):
    outcomes.append(found == expected)
    if not outcomes[-1] and outcomes.count(False) < 10:
        print('FAILED: %s: %r, not %r' % (what, found, expected))

# ---- what the module reads

def fields(line):
    """Of one line, by the module; None if the line is bad. The module is given a line at a time, since for it a quoted field may go on over a CR LF,
    which ReadCsv takes for the line's end; and no line with a lone CR or LF, which it takes for a line's end where it is the last byte, and ReadCsv for a
    byte like any other. No number has one: the line is bad."""
    if '\r' in line or '\n' in line:
        return None
    try:
        rows = list(csv.reader([line], strict=True))
    except csv.Error:
        return None
    return rows[0] if rows else []

def first_bad(rows):
    """The number of the first bad line, from 1 on; 0 if there is none. The module's values are texts: which of them are numbers is said here, for int
    takes more of them."""
    for number, row in enumerate(rows, 1):
        good = row == ['name', 'x', 'y'] if number == 1 else row is not None and len(row) == 3 and all(
            form.fullmatch(value) for form, value in zip(NUMBERS, row))
        if not good:
            return number
    return 0 if rows else 1

def refused_pad(pads):
    for i, pad in enumerate(pads):
        if any(not low <= value <= high for value, (low, high) in zip(pad, RANGES)):
            return 4, i
    for number, field in ((6, 0), (7, 1)):
        seen = set()
        for i, pad in enumerate(pads):
            if pad[field] in seen:
                return number, i
            seen.add(pad[field])
    return None

def value(digits):
    """int refuses very many digits."""
    return int(digits) if len(digits) < 100 else 10 ** 99

def records(pads):
    return b''.join(struct.pack('<HHIiI', name, 0, x, y, 0) for name, x, y in pads)

def read(text, room):
    """The answer, and the room."""
    lines = text.decode('latin-1').split('\r\n')
    rows = [fields(line) for line in (lines[:-1] if lines[-1] == '' else lines)]
    bad = first_bad(rows)
    pads = [] if bad else [[value(word) for word in row] for row in rows[1:]]
    refused = ((20, 0) if len(text) > LIMIT else (21, bad) if bad else (1, 0) if not 1 <= len(pads) <= 64 else
               (22, 0) if len(room) < 16 * len(pads) else refused_pad(pads))
    if refused:
        return -(65536 * refused[0] + refused[1]), room
    return len(pads), records(pads) + room[16 * len(pads):]

# ---- texts

def any_pads():
    count = random.choice((1, 2, 3, 8, 63, 64, random.randint(1, 64)))
    names, xs = random.sample(range(1, 65536), count), random.sample(range(1, 1000001), count)
    return [[name, x, random.choice((0, -1, 1000000, -1000000, random.randint(-1000000, 1000000)))] for name, x in zip(names, xs)]

def written(rows):
    """By the module, in one of its ways of quoting; the last CR LF may be missing."""
    file = io.StringIO(newline='')
    quoting = random.choice((csv.QUOTE_MINIMAL, csv.QUOTE_ALL, csv.QUOTE_NONNUMERIC))
    csv.writer(file, quoting=quoting, lineterminator='\r\n').writerows(rows)
    text = file.getvalue().encode('latin-1', 'replace')
    return text[:-2] if random.random() < 0.3 else text

def damaged(rows):
    """Other values, lines and bytes."""
    for _ in range(random.choice((0, 1, 1, 2))):
        row = random.choice(rows)
        if row and random.random() < 0.8:
            row[random.randrange(len(row))] = random.choice(random.choice((WORDS, random.choice(rows) or WORDS)))
        else:
            rows.insert(random.randint(0, len(rows)), random.choice((list(row), [], ['1'], ['1', '2', '3', '4'])))
    text = bytearray(written(rows))
    for _ in range(random.choice((0, 0, 1, 1, 2, 3))):
        at = random.randint(0, len(text))
        text[at:at + random.randint(0, 2)] = random.choice((b'', b'"', b',', b'\r\n', b'\r', b'\n', b'-', b'0', b' ', bytes([random.randrange(256)])))
    if random.random() < 0.02:
        text += random.choice((b'7', b'1,1,1\r\n')) * random.randint(1, LIMIT)
    return bytes(text[:LIMIT + random.choice((0, 1, 1000))])

def questions(count):
    """Half of them good."""
    for k in range(count):
        pads = any_pads()
        rows = [['name', 'x', 'y']] + [list(pad) for pad in pads]
        text = written(rows) if k % 2 else damaged(rows)
        room = bytes([random.randrange(256)]) * (16 * len(pads) + random.choice((0, 0, 1, 40, -1)))
        yield text, room, records(pads) if k % 2 else None

def ask(command, asked):
    given = b''.join(struct.pack('<II', len(text), len(room)) + text + room for text, room, _ in asked)
    replies, at = subprocess.run(command, input=given, stdout=subprocess.PIPE, check=True).stdout, 0
    for _, room, _ in asked:
        answer, = struct.unpack_from('<q', replies, at)
        yield answer, replies[at + 8:at + 8 + len(room)]
        at += 8 + len(room)
    check('all replies', len(replies), at)

def main(count, seed, *command):
    random.seed(int(seed))
    asked = list(questions(int(count)))
    came = {}
    for (text, room, pads), (answer, after) in zip(asked, ask(command, asked)):
        check(text[:300], (answer, after), read(text, room))
        if pads is not None and len(room) >= len(pads):
            check('read back', after[:len(pads)], pads)
        came[min(answer, 0) // -65536] = came.get(min(answer, 0) // -65536, 0) + 1
    print('accepted %d, refused %s' % (came.pop(0, 0), ', '.join('%d: %d' % pair for pair in sorted(came.items()))))
    check('every refusal came', sorted(came), [1, 4, 6, 7, 20, 21, 22])
    print('%d passed, %d failed' % (outcomes.count(True), outcomes.count(False)))
    return False in outcomes

sys.exit(main(*sys.argv[1:]))
