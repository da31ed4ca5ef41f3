#!/bin/sh
# tests/import.sh [ARCHIVE]: builds the importing program with the archive, and shows what it makes of lists, all that it says of bad ones, how it ends if
# it cannot read or write, and the way from a list to a picture. The last line has the counts.
set -u
cd "$(dirname "$0")/.." || exit 2
. tools/machine.sh
. tests/checks.sh
need_compilers
need python3 python3
archive=${1:-build/libcheremysl.a}

for file in programs/cheremysl-import.c programs/cheremysl-draw.c examples/slots.c; do
    program=${file##*/}
    check "$file" $cc -std=c99 -O2 -Wall -Wextra -Werror -pedantic -Iinclude $static -o "$room/${program%.c}" $file "$archive"
done
import() { $run "$room/cheremysl-import" "$@"; }
list=$room/list.csv pads=$room/list.pads right=$room/right.pads heading='name,x,y\r\n'

# ---- lists: the records are those of mkjob, from a file and from standard input, to standard output and into a file

to_output() { import "$@" | cmp - "$right"; }
from_input() { import "$@" <"$list" | cmp - "$right"; }
into_file() { rm -f "$pads" && import "$@" && cmp "$pads" "$right"; }
from_input_into_file() { rm -f "$pads" && import "$@" <"$list" && cmp "$pads" "$right"; }

# read_well WHAT: the list has the pads that are wanted
read_well() {
    check "$1" to_output "$list"
    check "$1" to_output -o - -- "$list"
    check "$1" from_input
    check "$1" from_input -
    check "$1" into_file -o "$pads" "$list"
    check "$1" into_file "$list" -o "$pads"
    check "$1" from_input_into_file -o "$pads"
}

# reads FORMAT LINE..: what printf makes of the format has the pads of these lines
reads() {
    printf "$1" >"$list"
    shift
    printf '%s\n' "$@" | examples/mkjob --pads >"$right"
    read_well "$*"
}
reads "${heading}1,2,3\r\n" '1 2 3'
reads "${heading}1,2,3" '1 2 3'
reads "${heading}801,120,330\r\n802,190,-336\r\n" '801 120 330' '802 190 -336'
reads "${heading}65535,1000000,-1000000\r\n1,1,1000000\r\n2,2,0" '65535 1000000 -1000000' '1 1 1000000' '2 2 0'
reads '"name","x","y"\r\n"801","120","330"\r\n802,"190",-336\r\n' '801 120 330' '802 190 -336'

# rows N SEPARATOR END: so many pads
rows() { awk -v n="$1" -v between="$2" -v end="$3" 'BEGIN { for (i = 0; i < n; i++) printf "%d%s%d%s%d%s", 65535 - i, between, 1000000 - i, between, i - 1000000, end }'; }
many() { printf "$heading" && rows "$1" , '\r\n'; }
many 64 >"$list"
rows 64 ' ' '\n' | examples/mkjob --pads >"$right"
read_well '64 pads'

# ---- what is refused: number, line or record, and why; nothing is written, and a file that was there stays

# refused FORMAT MESSAGE: what printf makes of the format
refused() {
    printf "$1" >"$list"
    refused_list "$2"
}
refused_list() {
    ends 1 '' "cheremysl-import: $list: refused $1" import "$list"
    echo kept >"$pads"
    ends 1 '' "cheremysl-import: $list: refused $1" import -o "$pads" "$list"
    check "a file after a refusal" [ "$(cat "$pads")" = kept ]
    rm "$pads"
    ends 1 '' "cheremysl-import: $list: refused $1" import "$list" -o "$pads"
    check "a file made for a refusal" [ ! -e "$pads" ]
}

first='21 line 1: it is not name,x,y but'
refused '' "$first ''"
refused '\r\n' "$first ''"
refused 'Name,X,Y\r\n1,2,3\r\n' "$first 'Name,X,Y'"
refused 'name;x;y\r\n1;2;3\r\n' "$first 'name;x;y'"
refused 'name,x,y \r\n1,2,3\r\n' "$first 'name,x,y '"
refused '"name,x,y"\r\n1,2,3\r\n' "$first '\"name,x,y\"'"
refused '1,2,3\r\n' "$first '1,2,3'"
refused 'name\t\001\177,x,y,half-side and all the rest of what the tool knows' "$first 'name\\x09\\x01\\x7F,x,y,half-side and all the rest o'.."
many 64 | tr -d '\r\n' >"$list"
refused_list "$first 'name,x,y65535,1000000,-100000065534,9999'.."

line='21 line 2:'
refused "$heading\r\n1,2,3\r\n" "$line it is empty"
refused "${heading}1,2,3\r\n\r\n" '21 line 3: it is empty'
refused "${heading}1,2\r\n" "$line it has fewer fields than name, x and y"
refused "${heading}1\r\n" "$line it has fewer fields than name, x and y"
refused "${heading}1,\"2,3\"\r\n" "$line it has fewer fields than name, x and y"
refused "${heading}1,2,3,\r\n" "$line it has more fields than name, x and y"
refused "${heading}1,2,3,4,5\r\n" "$line it has more fields than name, x and y"
refused "${heading}1,2\"\",3\r\n" "$line a quote stands in a field that does not begin with one"
refused "${heading}1,2, \"3\"\r\n" "$line a quote stands in a field that does not begin with one"
refused "${heading}1,\"2,3\r\n4,5,6\"\r\n" "$line a quoted field does not end on its line"
refused "${heading}1,\"2\"0,3\r\n" "$line a quoted field goes on after its last quote"
refused "${heading}1,\"2\" ,3\r\n" "$line a quoted field goes on after its last quote"
for field in name x y; do
    case $field in name) at='%s,2,3' ;; x) at='1,%s,3' ;; y) at='1,2,%s' ;; esac
    for word in ' 7' '7 ' 1.5 +7 0x7 -- - 1e3 TP7 7.; do
        refused "$heading$(printf "$at" "$word")\r\n" "$line $field '$word' is not a whole number written in digits alone"
    done
    refused "$heading$(printf "$at" '')\r\n" "$line $field '' is empty"
    refused "$heading$(printf "$at" '""')\r\n" "$line $field '' is empty"
    refused "$heading$(printf "$at" '"7""7"')\r\n" "$line $field '7\"\"7' is not a whole number written in digits alone"
    refused "$heading$(printf "$at" 007)\r\n" "$line $field '007' has a leading zero"
    refused "$heading$(printf "$at" 00)\r\n" "$line $field '00' has a leading zero"
done
refused "${heading}-1,2,3\r\n" "$line name '-1' is negative"
refused "${heading}1,-2,3\r\n" "$line x '-2' is negative"
refused "${heading}1,2,-03\r\n" "$line y '-03' has a leading zero"
refused "${heading}1,2,-0\r\n" "$line y '-0' has a minus before 0"
refused "${heading}1,2,3\r\n4,5,6\r\n1,x,07\r\n" "21 line 4: x 'x' is not a whole number written in digits alone"
refused "${heading}1,2,3\r4,5,6\r\n" "$line it has more fields than name, x and y"

# What other programs write for text. The advice is taken.
alone="lines end with CR LF, and here with LF alone; awk '{ sub(/\\r*\$/, \"\\r\") } 1' puts that right"
put_right() { awk '{ sub(/\r*$/, "\r") } 1' "$list" | import | cmp - "$right"; }
printf '%s\n' '1 2 3' '4 5 6' | examples/mkjob --pads >"$right"
ends_alone() {
    refused "$1" "21 line $2: $alone"
    check "put right" put_right
}
ends_alone 'name,x,y\n1,2,3\n4,5,6\n' 1
ends_alone 'name,x,y\n1,2,3\n4,5,6' 1
ends_alone "${heading}1,2,3\n4,5,6\r\n" 2
ends_alone "${heading}1,2,3\n4,5,6" 2
ends_alone 'name,x,y\n1,2,3\r\n4,5,6\n' 1
ends_alone 'name,x,y\n1,2,3\r\n4,5,6' 1
ends_alone "${heading}1,2,3\r\n4,5,6\n" 3
unplain='it is no plain text (UTF-16?); save the list as UTF-8 without a byte order mark'
for coding in UTF-16LE UTF-16BE; do
    case $coding in *LE) mark='\377\376' ;; *BE) mark='\376\377' ;; esac
    for end in '\r\n' '\n'; do
        printf "name,x,y${end}1,2,3$end" | iconv -f ASCII -t $coding >"$list"
        refused_list "21 line 1: $unplain"
        { printf "$mark"; printf "name,x,y${end}1,2,3$end" | iconv -f ASCII -t $coding; } >"$list"
        refused_list "21 line 1: $unplain"
    done
    refused "$mark" "21 line 1: $unplain"
done
refused "${heading}1,2,3\r\n4,5,6\000\n" "21 line 3: $unplain"
refused "\357\273\277${heading}1,2,3\r\n" '21 line 1: a byte order mark stands before it; save the list without one'
refused '\357\273\277name,x,y\n1,2,3\n' '21 line 1: a byte order mark stands before it; save the list without one'

refused "$heading" '1 record 0: the list has 0 pads, not 1 to 64'
refused 'name,x,y' '1 record 0: the list has 0 pads, not 1 to 64'
many 65 >"$list"
refused_list '1 record 0: the list has 65 pads, not 1 to 64'

second='record 1 (line 3):'
refused "${heading}1,2,3\r\n0,0,3\r\n" "4 $second name '0' is outside 1 to 65,535"
refused "${heading}65536,2,3\r\n" "4 record 0 (line 2): name '65536' is outside 1 to 65,535"
refused "${heading}1,2,3\r\n4,0,1000001\r\n" "4 $second x '0' is outside 1 to 1,000,000"
refused "${heading}1,2,3\r\n4,\"1000001\",6\r\n" "4 $second x '1000001' is outside 1 to 1,000,000"
for y in 1000001 -1000001 10000000 -10000000; do
    refused "${heading}1,2,3\r\n4,5,$y\r\n" "4 $second y '$y' is outside -1,000,000 to 1,000,000"
done
digits() { awk -v n="$1" 'BEGIN { for (i = 0; i < n; i++) printf "7" }'; }
refused "${heading}1,2,3\r\n4,$(digits 40),6\r\n" "4 $second x '$(digits 40)' is outside 1 to 1,000,000"
refused "${heading}1,2,3\r\n4,5,$(digits 16000)\r\n" "4 $second y '$(digits 40)'.. is outside -1,000,000 to 1,000,000"
refused "${heading}1,2,3\r\n4,5,6\r\n\"1\",7,8\r\n" "6 record 2 (line 4): name '1' stands on line 2 too"
refused "${heading}1,2,3\r\n4,5,6\r\n4,5,8\r\n" "6 record 2 (line 4): name '4' stands on line 3 too"
refused "${heading}1,22,3\r\n4,\"2\",6\r\n7,2,8\r\n" "7 record 2 (line 4): x '2' stands on line 3 too"

# As many bytes as may be, of which the last are a bad line; one more; and without end.
long='20 record 0: The text with the pads is longer than 16,384 bytes.'
{ many 64; digits 20000; } | head -c 16384 >"$list"
refused_list '21 line 66: it has fewer fields than name, x and y'
{ many 64; digits 20000; } | head -c 16385 >"$list"
refused_list "$long"
endless() { yes | import; }
ends 1 '' "cheremysl-import: -: refused $long" endless
ends 1 '' "cheremysl-import: /dev/zero: refused $long" import /dev/zero
empty_input() { import "$@" </dev/null; }
ends 1 '' "cheremysl-import: -: refused $first ''" empty_input
ends 1 '' "cheremysl-import: -: refused $first ''" empty_input -

# ---- words

helped() { import --help | sed -n '1p; $p'; }
usage='usage: cheremysl-import [-o PADS] [CSV] >PADS'
whole_usage=$(import --help)
version=$(sed -nE 's/^.define CHEREMYSL_VERSION_(MAJOR|MINOR|PATCH) //p' include/cheremysl.h | paste -sd. -)
ends 0 "$usage
The status is 0 if the pads were written, 1 for a refused list, 2 for any other failure." '' helped
ends 0 "cheremysl-import $version" '' import --version
for word in -x --no-such -ofile; do
    ends 2 '' "cheremysl-import: there is no option $word
$whole_usage" import $word
done
ends 2 '' "cheremysl-import: -o takes a file for the pads
$whole_usage" import "$list" -o
ends 2 '' "cheremysl-import: there is more than one list
$whole_usage" import "$list" "$list"
for other in "$room/other" "$pads" -; do
    ends 2 '' "cheremysl-import: there is more than one file for the pads
$whole_usage" import -o "$pads" examples/sensor.csv -o "$other"
    ends 2 '' "cheremysl-import: there is more than one file for the pads
$whole_usage" import -o "$other" -o "$pads" examples/sensor.csv
    check "a file made by neither" [ ! -e "$pads" ]
done
in_room() { (cd "$room" && import "$@"); }
cp examples/sensor.csv "$room/-o"
sensor_again() { in_room -- -o | cmp - examples/sensor.pads; }
check "a file named as an option" sensor_again

# ---- what cannot be read or written: a file that could not be written whole is not left

cannot='cheremysl-import: cannot'
ends 2 '' "$cannot open $room/none: No such file or directory" import "$room/none"
ends 2 '' "$cannot open : No such file or directory" import ''
ends 2 '' "$cannot read tests: Is a directory" import tests
closed_input() { import <&-; }
ends 2 '' "$cannot read -: Bad file descriptor" closed_input
ends 2 '' "$cannot open $room/none/pads: No such file or directory" import examples/sensor.csv -o "$room/none/pads"
ends 2 '' "$cannot open tests: Is a directory" import examples/sensor.csv -o tests
full() { import "$@" >/dev/full; }
closed_output() { import "$@" >&-; }
ends 2 '' "$cannot write: No space left on device" full examples/sensor.csv
ends 2 '' "$cannot write: No space left on device" full --help
ends 2 '' "$cannot write: No space left on device" full --version
ends 2 '' "$cannot write: Bad file descriptor" closed_output examples/sensor.csv
ends 2 '' "$cannot write /dev/full: No space left on device" import examples/sensor.csv -o /dev/full
check "/dev/full is left" [ -c /dev/full ]
no_room() { (trap '' XFSZ && ulimit -f 0 && exec $run "$room/cheremysl-import" "$@" 2>&1) | cat; } # a limit on files, not on pipes
prints 0 "$cannot write $pads: File too large" no_room examples/sensor.csv -o "$pads"
check "a part of a file is left" [ ! -e "$pads" ]
ends 0 '' '' import examples/sensor.csv -o /dev/null
check "/dev/null is left" [ -c /dev/null ]
onto_itself() { cp examples/sensor.csv "$room/itself" && import -o "$room/itself" "$room/itself" && cmp "$room/itself" examples/sensor.pads; }
check "onto itself" onto_itself

# ---- from a list to a picture, as the README has it: its commands write what it shows, the sample's pads and the picture in docs/

mkdir "$room/there" "$room/there/build"
ln -s "$PWD/examples" "$room/there/examples"
for program in cheremysl-import cheremysl-draw slots; do
    printf '#!/bin/sh\nexec %s "%s" "$@"\n' "$run" "$room/$program" >"$room/there/build/$program"
    chmod +x "$room/there/build/$program"
done
sed -n '/^## From the board tool/,/^## In/s/^    //p' README.md | sed -n '/^\$ make examples/,/^uint8_t/{/make examples/d;/^uint8_t/d;p}' >"$room/shown"
pasted() { (cd "$room/there" && sed -n 's/^\$ //p' "$room/shown" | while read -r command; do eval "$command"; done); }
prints 1 "$(grep -v '^\$ ' "$room/shown")" pasted
check "the README's commands" [ "$(grep -c '^\$ ' "$room/shown")" = 7 ]
check "the README's pads" cmp "$room/there/sensor.pads" examples/sensor.pads
check "the README's picture" cmp "$room/there/sensor.svg" docs/slots.svg
check "the README's list" [ "$(head -n 3 examples/sensor.csv | tr -d '\r')" = "$(sed -n '/^    name,x,y/,/^$/s/^    //p' README.md)" ]
drawn() { import examples/sensor.csv | $run "$room/cheremysl-draw" --slots examples/row.ports - | sed 's/standard input/sensor.pads/' | cmp - docs/slots.svg; }
check "a list that is drawn" drawn

counts
