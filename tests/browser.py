#!/usr/bin/env python3
"""tests/browser.py SVG POINTS [DOM]: Svg's texts as other programs read them. An XML parser finds in the file SVG the leaders whose points stand in the file
POINTS, as bits of 32-bit floats, their numbers written as they must be. With a third file, which a browser dumped after the script of the page that
--page prints, the browser has just these points. The last line has the counts.
tests/browser.py --page SVG: prints that page."""
import html, re, struct, sys
import xml.etree.ElementTree as xml

NUMBER = r'(?:0|-?[1-9][0-9]*|-?(?:0|[1-9][0-9]*)\.(?:25|5|75))'
POINT = NUMBER + ',' + NUMBER
LEADER = re.compile('%s(?: %s){1,2}' % (POINT, POINT))
passed = failed = 0

# The browser's own numbers: a word for each coordinate, and how many leaders each sheet has.
SCRIPT = '''
const word = new Uint32Array(1), number = new Float32Array(word.buffer), lines = [];
function bits(value) {
    number[0] = value;
    return number[0] === value ? word[0].toString(16).padStart(8, '0') : 'no float ' + value;
}
for (const leader of document.querySelectorAll('polyline')) {
    const words = [];
    for (let k = 0; k < leader.points.numberOfItems; k++) {
        const point = leader.points.getItem(k);
        words.push(bits(point.x), bits(point.y));
    }
    lines.push(words.join(' '));
}
const sheets = Array.from(document.querySelectorAll('g'), sheet => sheet.children.length);
document.getElementById('sheets').textContent = sheets.join(' ');
document.getElementById('points').textContent = lines.join('\\n');
'''

def check(what, found, expected):
    global passed, failed
    if found == expected:
        passed += 1
    else:
        failed += 1
        if failed < 10:
            print('FAILED: %s: %r, not %r' % (what, found, expected))

def read(name):
    with open(name, newline='') as file:
        return file.read()

def page(svg):
    return ('<!DOCTYPE html>\n<meta charset="utf-8">\n<title>sheets</title>\n%s<pre id="sheets"></pre>\n<pre id="points"></pre>\n<script>%s</script>\n'
            % (svg, SCRIPT))

def bits(number):
    return struct.pack('>f', float(number)).hex()

def try_parser(svg, expected):
    """By expat: the leaders in order, and nothing beside them."""
    root = xml.fromstring(svg)
    sheets = [len(sheet) for sheet in root]
    leaders = [leader for sheet in root for leader in sheet]
    check('names', {leader.tag for leader in leaders}, {'{http://www.w3.org/2000/svg}polyline'})
    check('attributes', {tuple(leader.keys()) for leader in leaders}, {('points',)})
    check('leaders', len(leaders), len(expected))
    for leader, words in zip(leaders, expected):
        text = leader.get('points')
        check('written ' + text, bool(LEADER.fullmatch(text)), True)
        check('read ' + text, ' '.join(map(bits, re.split('[ ,]', text))), words)
    return sheets

def shown(dom, name):
    found = re.search('<pre id="%s">(.*?)</pre>' % name, dom, re.S)
    return html.unescape(found.group(1)) if found else ''

def try_browser(dom, sheets, expected):
    check('sheets', shown(dom, 'sheets'), ' '.join(map(str, sheets)))
    leaders = shown(dom, 'points').split('\n')
    check('leaders', len(leaders), len(expected))
    for found, words in zip(leaders, expected):
        check('points', found, words)

if sys.argv[1] == '--page':
    print(page(read(sys.argv[2])), end='')
    sys.exit()
expected = read(sys.argv[2]).splitlines()
sheets = try_parser(read(sys.argv[1]), expected)
if len(sys.argv) > 3:
    try_browser(read(sys.argv[3]), sheets, expected)
print('%d passed, %d failed' % (passed, failed))
sys.exit(failed > 0 or passed == 0)
