#!/bin/sh
# tests/browser.sh [ARCHIVE]: Svg's texts as those read them for whom they are written. Boards of 1 to 64 pads, in one file
# (tests/browser.c): XML parsers accept it, and one of them and a browser, Debian's chromium, in its own lists, have just the
# floats that Draw gives, bit by bit (tests/browser.py). And the page examples/sheet.html is what examples/webpage.c
# makes. Without a browser, or one that does not run, that trial is left out, and a line says so. The last
# line has the counts.
#   SEED  in the environment: other boards
set -u
cd "$(dirname "$0")/.." || exit 2
. tools/machine.sh
. tests/checks.sh
need_compilers
need python3 python3
archive=${1:-build/libcheremysl.a}
strict="-std=c99 -O2 -Wall -Wextra -Werror -pedantic -Iinclude $static"

check "browser.c" $cc $strict -o "$room/browser" tests/browser.c tests/boards.c "$archive"
check "boards" $run "$room/browser" "$room/sheets.svg" "$room/points" "${SEED:-1}"

# ---- a parser in C

polylines() { xmllint --xpath 'count(//*[local-name() = "polyline" and count(@*) = 1 and not(node())])' "$room/sheets.svg"; }
if have libxml2-utils xmllint; then
    check "xmllint" xmllint --noout "$room/sheets.svg"
    prints 0 "$(wc -l <"$room/points" | tr -d ' ')" polylines
else
    echo "tests/browser.sh: no xmllint here: another parser alone is tried"
fi

# ---- the example: a page that stands beside it

check "webpage.c" $cc $strict -o "$room/webpage" examples/webpage.c "$archive"
example() { $run "$room/webpage" examples/copper.job | cmp - examples/sheet.html; }
check "examples/sheet.html" example

# ---- a browser, which dumps the page after its script, and another parser

# In a folder of its own, and for no longer than a minute: it needs a second or two.
browse() {
    HOME=$room timeout 60 chromium --headless --no-sandbox --disable-gpu --disable-dev-shm-usage --user-data-dir="$room/chromium" \
        --dump-dom "file://$1" 2>/dev/null
}
python3 tests/browser.py --page "$room/sheets.svg" >"$room/sheets.html"
printf '<!DOCTYPE html>\n<p>here</p>\n' >"$room/probe.html"
dom=
if have_browser && browse "$room/probe.html" | grep -q '<p>here</p>'; then
    dom=$room/dom
    dump() { browse "$room/sheets.html" >"$dom"; }
    check "the browser dumps its page" dump
    leaders() { browse "$PWD/examples/sheet.html" | sed -n 's|^\(<polyline .*\)></polyline>$|\1/>|p' | cmp - "$room/leaders"; }
    grep '^<polyline' examples/sheet.html >"$room/leaders"
    check "the example's leaders in the browser" leaders
    echo "browser: $(chromium --version 2>/dev/null)"
else
    echo "tests/browser.sh: no browser runs here: what one reads is not tried"
fi
python3 tests/browser.py "$room/sheets.svg" "$room/points" ${dom:+"$dom"} >"$room/read" 2>&1
status=$?
sed '$d' "$room/read"
counts=$(sed -n '$s/^\([0-9]*\) passed, \([0-9]*\) failed$/\1 \2/p' "$room/read")
check "tests/browser.py, status $status: $(tail -n 1 "$room/read")" [ "$counts" -a $status -le 1 ]
passed=$((passed + ${counts% *} + 0)) failed=$((failed + ${counts#* } + 0))

counts
