#!/usr/bin/env python3
# Counts the places in crates/*/src that a form of today's Rattle could replace, by point of docs/DESIGN-PASS.md:
#     tools/places.py [-l]      -l lists each place
import glob, re, sys

FILES = sorted(glob.glob('crates/*/src/*.rt'))

def bare(line):
    return re.sub(r'//.*', '', line)

def functions(text):
    """Each function: its line, its name, its parameters, and its body."""
    for m in re.finditer(r'^ *(?:pub )?(?:extern "C" )?fn (\w+)(?:<[^(]*>)?\(', text, re.M):
        depth, i = 1, m.end()
        while depth:
            depth += {'(': 1, ')': -1}.get(text[i], 0)
            i += 1
        end = re.search(r'^ {0,4}\}', text[i:], re.M)
        yield text.count('\n', 0, m.start()) + 1, m.group(1), ' '.join(text[m.end():i - 1].split()), text[i:i + end.end()] if end else ''

def enums(text):
    for m in re.finditer(r'^(?:pub )?(enum|struct) (\w+)(?:<[^>]*>)? \{(.*?)^\}', text, re.M | re.S):
        body = ' '.join(bare(x) for x in m.group(3).splitlines())
        yield text.count('\n', 0, m.start()) + 1, m.group(1), m.group(2), body

def own_options(text):
    """Enums with variants that hold something beside one that holds nothing, a refusal or a reason; structs with a flag beside values; numbers for kinds and for none."""
    for line, kind, name, body in enums(text):
        parts = [p.strip() for p in re.split(r',(?![^(]*\))(?![^{]*\})', body) if p.strip()]
        if kind == 'enum':
            full = [p for p in parts if '(' in p or '{' in p]
            if full and (len(full) < len(parts) or any(re.match(r'Refused|Bad|Not\b', p) for p in parts)):
                yield line, 'enum ' + name
            elif not full and re.search(r'\bFound\b', body):
                yield line, 'enum ' + name
        else:
            if ': bool' in body:
                yield line, 'struct ' + name
            if re.search(r'\breason: u\d+', body):
                yield line, 'number in ' + name
    for m in re.finditer(r'^(?:pub )?const (NONE|MOST|NOT_YET)\b', text, re.M):
        yield text.count('\n', 0, m.start()) + 1, 'const ' + m.group(1)
    for line, name, params, body in functions(text):
        if re.search(r'\b128\b', body) and '-> usize' in body or name == 'next_port' and '-> usize' in body:
            yield line, 'none by number: ' + name

CONVERT = r'wide|half|word|signed|size|distance|raised|lowered|smaller|larger|four|fitting|is_digit|told|digit|octet|pack|narrow|downward|short|quarters|numeral|decimal|of_refusal|of_answer|of_counted|of_drawn|say_\w+|refused|whole|of_count|of_reply|first_of|step_of|answer_of|verdict|copy|clear|mark|double'

def conversions(text):
    for line, name, params, body in functions(text):
        if re.fullmatch(CONVERT, name):
            yield line, name

def loops(text):
    for n, line in enumerate(text.splitlines(), 1):
        if re.match(r"\s*('\w+: )?while ", bare(line)):
            yield n, line.strip()

GROUPS = [('form', 'job', 'ports'), ('order', 'lo', 'hi'), ('lo', 'hi'), ('cost', 'bars'), ('heads', 'totals'), ('lows', 'sums'), ('lw', 'bw'), ('text', 'at'), ('out', 'at'), ('job', 'figures'), ('at', 'seen', 'all'), ('x', 'y', 'port'), ('x', 'y', 'q'), ('buffer', 'n', 'base')]

def together(text):
    for line, name, params, body in functions(text):
        names = re.findall(r'(\w+): ', params)
        for g in GROUPS:
            if all(x in names for x in g):
                yield line, name + ': ' + ', '.join(g)
                break

def buffers(text):
    for n, line in enumerate(text.splitlines(), 1):
        if re.search(r'let mut \w+ = \[', bare(line)):
            yield n, line.strip()

def switches(text):
    for line, kind, name, body in enums(text):
        if kind == 'enum' and '(' not in body and '{' not in body:
            yield line, 'enum ' + name
    for line, kind, name, body in enums(text):
        if kind == 'enum' and name in ('Start', 'Asked'):
            if '(' in body:
                yield line, 'enum ' + name
    for n, line in enumerate(text.splitlines(), 1):
        if re.search(r'heads\.len\(\) == 0', bare(line)):
            yield n, line.strip()

POINTS = [
    ('1 own options, results, flags, numbers for none', own_options),
    ('3 loops that count by hand', loops),
    ('4 conversion, copying, order and printing by hand', conversions),
    ('5 parameters that travel together', together),
    ('6 buffers', buffers),
    ('7 switches on a kind', switches),
]

for title, find in POINTS:
    found = [(f, n, what) for f in FILES for n, what in find(open(f).read())]
    print('%4d  %s' % (len(found), title))
    if '-l' in sys.argv:
        for f, n, what in found:
            print('      %s:%d: %s' % (f.replace('crates/', '').replace('/src/', '/'), n, what))
