#!/bin/sh
# tests/reading.sh: docs/AUDIT.md names each must-fail edit with the crate that it stands in, and no other. The last line has the counts.
set -u
cd "$(dirname "$0")/.." || exit 2
. tests/checks.sh

# In the table of wrong versions crates stand before their edits: 'find `a`, `b`; paper and cheremysl `c`'.
sed -n '/^## Wrong versions/,/^## /s/^|.*| \(.*\) |$/\1/p' docs/AUDIT.md | awk '
NR == FNR { sub(/[ :].*/, ""); if (!/^#/) listed[$0]; next }
{
    count = split($0, words, /[ ,;:()]+/)
    named = 0
    for (k = 1; k <= count; k++) {
        word = words[k]
        if (word in listed) {
            if (named) split("", crates)
            crates[word]
            named = 0
        } else if (word ~ /^`.*`$/) {
            named = 1
            for (name in crates) print name "/" substr(word, 2, length(word) - 2)
        }
    }
    split("", crates)
}' crates.txt - | LC_ALL=C sort -u >"$room/named"
ls crates/*/must-fail/*.edit | sed 's|crates/\(.*\)/must-fail/\(.*\)\.edit|\1/\2|' | LC_ALL=C sort >"$room/there"

while read -r edit; do check "named in AUDIT and not there" grep -qx "$edit" "$room/there"; done <"$room/named"
while read -r edit; do check "not named in AUDIT" grep -qx "$edit" "$room/named"; done <"$room/there"
counts
