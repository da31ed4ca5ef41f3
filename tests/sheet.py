#!/usr/bin/env python3
"""tests/sheet.py JOBS SEED PROGRAM..: runs the printing program on random jobs, sound and refused, and compares what it prints with 01 and 02 worked
out in plain Python: leaders and squares as sets of points, all assignments tried. The last line has the counts."""
import itertools, random, struct, subprocess, sys

def points(x, y, q):
    lo, hi = min(y, q), max(y, q)
    return {(x, h) for h in range(lo, hi + 1)} | {(w, q) for w in range(x + 1)}

def square(x, y, half):
    return {(u, v) for u in range(x - half, x + half + 1) for v in range(y - half, y + half + 1)}

def touch(one, other):
    """Of two records, each as the points of its leader and those of its square."""
    return bool(one[0] & other[0] or one[0] & other[1] or other[0] & one[1])

def things(rs, ports):
    """The points of each leader, and of its pad's square, by record and port."""
    squares = [square(x, y, half) for _, half, x, y, _ in rs]
    return {(i, q): (points(x, y, port), squares[i]) for i, (_, _, x, y, _) in enumerate(rs) for q, port in enumerate(ports)}

def heights(job, strip=None):
    """Of a job's ports, or of those of a strip of slots."""
    return [h for h, in struct.iter_unpack('<i', strip)] if strip is not None else [r[4] for r in struct.iter_unpack('<HHIii', job)]

def refusal(job, strip=None):
    """That of a job; with a strip, of a job of the second form: its pads, and a list of port heights."""
    if len(job) == 0 or len(job) % 16 or len(job) > 1024 or strip is not None and (len(strip) == 0 or len(strip) % 4 or len(strip) > 512):
        return 1, 0
    rs = [struct.unpack_from('<HHIii', job, 16 * i) for i in range(len(job) // 16)]
    ports = heights(job, strip)
    if len(ports) < len(rs):
        return 14, 0
    for i, (name, half, x, y, q) in enumerate(rs):
        if not name or half > 2000 or not 1 <= x <= 1000000 or abs(y) > 1000000 or abs(q) > (1000000 if strip is None else 0):
            return 4, i
    for q in range(len(ports)):
        if abs(ports[q]) > 1000000:
            return 4, q
    for q in range(1, len(ports)):
        if ports[q] <= ports[q - 1]:
            return 5, q
    for q in range(1, len(ports)):
        if ports[q] - ports[q - 1] < 8:
            return 12, q
    for i in range(len(rs)):
        if rs[i][0] in [r[0] for r in rs[:i]]:
            return 6, i
    for i in range(len(rs)):
        if rs[i][2] in [r[2] for r in rs[:i]]:
            return 7, i
    return None

def printed(job):
    bad = refusal(job)
    if bad:
        return 'refused %d record %d\n' % bad
    rs = [struct.unpack_from('<HHIii', job, 16 * i) for i in range(len(job) // 16)]
    n, right = len(rs), sorted(range(len(rs)), key=lambda i: -rs[i][2])
    length = lambda i, q: rs[i][2] + abs(rs[i][3] - rs[q][4])
    on = things(rs, heights(job))
    best = None
    for f in itertools.permutations(range(n)):
        key = (sum(length(i, f[i]) for i in range(n)), [f[i] for i in right])
        if (best is None or key < best[0]) and not any(touch(on[i, f[i]], on[j, f[j]]) for i in range(n) for j in range(i)):
            best = key, f
    if best is None:
        return 'refused 15 record 0\n'
    f = best[1]
    bends = [int(rs[i][3] != rs[f[i]][4]) for i in range(n)]
    lines = ['%d %d %d %d\n' % (rs[i][0], f[i], length(i, f[i]), bends[i]) for i in range(n)]
    return ''.join(lines) + 'total %d %d\n' % (best[0][0], sum(bends))

def half_sides(r, n):
    """Of n pads: none, small ones, or any up to one that leaves few jobs a sheet."""
    most = r.choice([0, 1, 2, 3, 5])
    return [r.choice([0, most, r.randint(0, most)]) for _ in range(n)]

def sound(r):
    """A job without a fault; it may yet have no sheet, because of its squares."""
    n = r.randint(1, 6)
    span = r.choice([6, 12, 30])
    ports = list(itertools.accumulate([r.randint(-span, 0)] + [r.randint(8, r.choice([8, 9, 12])) for _ in range(n - 1)]))
    names = r.sample(range(1, 65536), n)
    height = lambda: r.choice(ports) + r.randint(-1, 1) if r.random() < .5 else r.randint(-span, span + 8 * n)
    xs, halves = r.sample(range(1, 2 * span), n), half_sides(r, n)
    return b''.join(struct.pack('<HHIii', a, half, x, height(), q) for a, half, x, q in zip(names, halves, xs, ports))

def spoilt(r):
    job = bytearray(sound(r))
    for _ in range(r.randint(1, 2)):
        kind, at = r.randrange(9), 16 * r.randrange(len(job) // 16)
        if kind == 0:
            return bytes(job[:r.randrange(len(job))]) if r.random() < .5 else bytes(job) * r.randint(20, 3000)
        if kind == 1:
            struct.pack_into('<H', job, at + 2, r.choice([200, 2001, 32768, r.randint(2001, 65535)]))
        if kind == 2:
            struct.pack_into('<I', job, at + 4, r.choice([0, 1000001, 2 ** 32 - 1, 5]))
        if kind == 3:
            struct.pack_into('<i', job, at + r.choice([8, 12]), r.choice([-1000001, 1000001, -2 ** 31, 2 ** 31 - 1]))
        if kind == 4:
            struct.pack_into('<i', job, at + 12, r.randint(-30, 30))
        if kind == 5:
            job += job[at:at + 16]
        if kind == 7:
            job[at:at + 2] = job[:2]
        if kind == 8:
            struct.pack_into('<H', job, at, 0)
        if kind == 6 and at:
            struct.pack_into('<i', job, at + 12, min(2 ** 31 - 1, struct.unpack_from('<i', job, at - 4)[0] + r.randint(6, 9)))
    return bytes(job)

jobs, r, program = int(sys.argv[1]), random.Random(int(sys.argv[2])), sys.argv[3:]
passed = failed = 0
for k in range(jobs):
    job = (spoilt if k % 3 == 2 else sound)(r)
    wrote = subprocess.run(program, input=job, stdout=subprocess.PIPE).stdout.decode()
    if wrote == printed(job):
        passed += 1
    else:
        failed += 1
        print('differs on', job[:1040].hex(), repr(wrote), repr(printed(job)))
print('%d passed, %d failed' % (passed, failed))
sys.exit(failed > 0)
