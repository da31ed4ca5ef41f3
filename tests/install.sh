#!/bin/sh
# tests/install.sh [WORD..]: installs into a temporary prefix, then does what a user does next: builds the examples by
# pkg-config, runs them, makes jobs, reads the manual, and uninstalls. Words go to make, as archive=FILE. The last line has
# the counts.
set -u
cd "$(dirname "$0")/.." || exit 2
. tools/machine.sh
. tests/checks.sh
need_compilers
need "make pkg-config python3 mandoc" make pkg-config python3 mandoc
readelf=${nm%nm}readelf

# ---- the package

# Where there is an emulator the programs are linked statically, so that the front runs without the library path, which
# what it starts would get as well.
word=${static:+CFLAGS=-O2 -std=c99 $static}
make_quietly() { make "$@" ${word:+"$word"} >"$room/make.log" 2>&1 || { cat "$room/make.log"; false; }; }
listing() { (cd "$1" && find . -type f -o -type l | LC_ALL=C sort); }

installed=$room/usr
check "make install" make_quietly install PREFIX="$installed" "$@"
share=$installed/share/cheremysl lib=$installed/lib
for file in lib/libcheremysl.a lib/libcheremysl.so include/cheremysl.h lib/pkgconfig/cheremysl.pc libexec/cheremysl/sheet \
    share/cheremysl/J5.job; do
    check "installed" [ -f "$installed/$file" ]
done
for program in programs/*.c; do
    program=${program#programs/}
    check "installed" [ -x "$installed/bin/${program%.c}" ]
done
listing "$installed" >"$room/direct"

# Staged, with folders of their own: the same files, and nothing in them of the stage.
stage=$room/stage
set -- "$@" DESTDIR="$stage" PREFIX=/opt/c LIBDIR=/opt/c/lib/x86_64-linux-gnu BINDIR=/opt/c/tools INCLUDEDIR=/srv/include MANDIR=/srv/man \
    LIBEXECDIR=/opt/c/lib DATADIR=/srv/data
check "make install, staged" make_quietly install "$@"
listing "$stage" | sed 's|^./opt/c/lib/cheremysl/|./libexec/cheremysl/|; s|^./opt/c/lib/x86_64-linux-gnu/|./lib/|; s|^./opt/c/tools/|./bin/|
    s|^./srv/include/|./include/|; s|^./srv/man/|./share/man/|; s|^./srv/data/|./share/|' | LC_ALL=C sort >"$room/staged"
check "the same files" cmp "$room/direct" "$room/staged"
check "no trace of the stage" sh -c '! grep -rl "$1" "$1"' sh "$stage"
check "no trace of another prefix" sh -c '! grep -rl "$1" "$2"' sh "$installed" "$stage"
check "the front's program" grep -q /opt/c/lib/cheremysl/sheet "$stage/opt/c/tools/cheremysl-sheet"
packaged() { PKG_CONFIG_PATH=$1/pkgconfig pkg-config "$2" cheremysl | sed 's/ *$//'; }
prints 0 -I/srv/include packaged "$stage/opt/c/lib/x86_64-linux-gnu" --cflags
prints 0 '-L/opt/c/lib/x86_64-linux-gnu -lcheremysl' packaged "$stage/opt/c/lib/x86_64-linux-gnu" --libs
version=$(sed -nE 's/^.define CHEREMYSL_VERSION_(MAJOR|MINOR|PATCH) //p' include/cheremysl.h | paste -sd. -)
prints 0 "$version" packaged "$lib" --modversion

# Uninstalled, files of others stay, in these folders too, and no others.
for folder in opt/c/tools opt/c/lib opt/c/lib/cheremysl opt/c/lib/x86_64-linux-gnu/pkgconfig srv/include srv/man/man1 srv/man/man3 srv/data/cheremysl; do
    echo other >"$stage/$folder/cheremysl-other"
done
listing "$stage" | grep other >"$room/others"
check "make uninstall, staged" make_quietly uninstall "$@"
listing "$stage" >"$room/left"
check "only files of others are left" cmp "$room/others" "$room/left"

# ---- the shared library

shared=$lib/libcheremysl.so.$version soname=libcheremysl.so.${version%%.*}
prints 0 "$soname" readlink "$lib/libcheremysl.so"
prints 0 "libcheremysl.so.$version" readlink "$lib/$soname"
defined() { $nm "$@" | sed 's/.* //' | LC_ALL=C sort; }
prints 0 "$(defined -g --defined-only "$lib/libcheremysl.a" | sed '/^$/d; /:$/d')" defined -D --defined-only "$shared"
dynamic() {
    $readelf -dW "$shared" | sed -En 's/.*\((SONAME|NEEDED|TEXTREL|RPATH|RUNPATH|INIT|FINI|INIT_ARRAY|FINI_ARRAY|FLAGS)\) +(.*: \[)?([^]]*)\]?$/\1 \3/p'
}
prints 0 "NEEDED libc.so.6
SONAME $soname
FLAGS BIND_NOW" dynamic
# What is bound when it is loaded is no call of the library's own: none can be taken by another library's.
bound() { $readelf -rW "$shared" | awk '/R_X86_64/ { sub("@.*", "", $5); print $3, $5 }' | grep -vxE 'R_X86_64_JUMP_SLOT? mem(cpy|set|move|cmp)'; }
prints 1 '' bound
segments() { $readelf -lW "$shared" | awk '/RWE|GNU_STACK.* R?W?E / { print "writable code:", $0 } /GNU_RELRO/ { print $1 }'; }
prints 0 GNU_RELRO segments

# ---- the C examples, compiled as a user does: with the shared library, and one with the archive

flags=$(packaged "$lib" --cflags) libs=$(packaged "$lib" --libs)
strict="-std=c99 -Wall -Wextra -Werror -pedantic"
compile() { $cc $strict -o "$room/$1" "$2" $flags $libs -Wl,-rpath,"$lib"; }
compile_archive() { $cc $strict $static -o "$room/sheets-archive" "$share/sheets.c" $flags "$lib/libcheremysl.a"; }
uses_shared() { $readelf -d "$room/$1" | grep -qF "[$soname]"; }
for program in sheets audit antenna slots thumbs webpage; do
    check "$program.c" compile $program "$share/$program.c"
    check "$program uses the shared library" uses_shared $program
done
check "sheets.c with the archive" compile_archive
prints 1 '' uses_shared sheets-archive

j5='total 90
  record 0 to port 1: (2.50, -2.50) (0.00, -2.50)
  record 1 to port 2: (5.00, -5.00) (0.00, -5.00)
  record 2 to port 0: (7.50, -7.50) (7.50, 0.00) (0.00, 0.00)'
prints 0 "$j5" $run "$room/sheets" "$share/J5.job"
prints 0 "$j5" $run "$room/sheets-archive" "$share/J5.job"
prints 0 'total 40
  record 0 to port 1: (2.50, -3.75) (2.50, -5.00) (0.00, -5.00)
  record 1 to port 0: (5.00, -3.75) (5.00, -2.50) (0.00, -2.50)
total 40
  record 0 to port 0: (2.50, -3.75) (2.50, -2.50) (0.00, -2.50)
  record 1 to port 1: (5.00, -3.75) (5.00, -5.00) (0.00, -5.00)' $run "$room/sheets" "$share/J3.job"
prints 1 'refused 1 record 0' $run "$room/sheets" "$share/sheets.c"

# The trial of 01's worked sheets, and the header's own, with the shared library.
trial() { $cc -std=c99 "$@" -o "$room/trial" $flags $libs -Wl,-rpath,"$lib" && $run "$room/trial" | tail -n 1 | grep -xE '[1-9][0-9]* passed, 0 failed'; }
check "the header, with the shared library" trial tests/abi.c
check "01's sheets, with the shared library" trial tests/sheets.c tests/trial.c tests/questions.c tests/guard.c tests/boards.c tests/plain.c tests/ranked.c tests/values.c

# Page by page, four sheets each: eight sheets end within the second page, five with a full first one.
ports_of() { $run "$room/sheets" "$1" | awk '/^total/ { printf line; line = "\n" } /to port/ { printf "%d", $5 }'; }
printf '1 10 15 10\n2 20 15 20\n3 30 35 30\n4 40 35 40\n5 50 55 50\n6 60 55 60\n' | "$share/mkjob" >"$room/eight.job"
prints 0 '103254
013254
102354
012354
103245
013245
102345
012345' ports_of "$room/eight.job"
printf '1 10 15 10\n2 20 15 20\n3 30 15 30\n4 40 15 40\n5 50 15 50\n' | "$share/mkjob" >"$room/five.job"
prints 0 '12340
12304
12034
10234
01234' ports_of "$room/five.job"

# What audit says, up to the reason, which is the header's; the README shows its line.
audit() {
    $run "$room/audit" "$@" >"$room/audited" 2>&1
    status=$?
    sed 's/: [A-Za-z ].*//' "$room/audited"
    return $status
}
prints 1 'refused 9 record 2 (pad 403) and record 1 (pad 402)' audit "$share/crossing.job" $(cat "$share/crossing.layout")
check "the README's crossing leaders" grep -qxF "    $(cat "$room/audited")" README.md
prints 0 'sound: length 546, bends 2' $run "$room/audit" "$share/crossing.job" 3 2 1 0
prints 1 'refused 9 record 1 (pad 102) and record 0 (pad 101)' audit "$share/J5.job" 0 1 2
apart='sound: length 50, bends 2'
prints 0 "$apart" $run "$room/audit" "$share/level.job" 1 0
check "the README's level pad" grep -qxF "    $apart" README.md
# The README's two pads at one x: moved apart in either order, the bends differ, and no other sheet is sound.
moved() {
    printf '%s\n' "$1" "$2" | "$share/mkjob" >"$room/moved.job"
    prints 0 "$3" $run "$room/audit" "$room/moved.job" $4
    check "the README's pads at one x" grep -qxF "      $3" README.md
    prints 1 "$6" audit "$room/moved.job" $5
}
moved '101 11 20 0' '102 10 10 10' 'sound: length 41, bends 1' '0 1' '1 0' 'refused 9 record 1 (pad 102) and record 0 (pad 101)'
moved '101 10 20 0' '102 11 10 10' 'sound: length 41, bends 2' '1 0' '0 1' 'refused 9 record 1 (pad 102) and record 0 (pad 101)'
# The README's pads of copper: the sheet for points runs across two of them, the best one across none, and with larger pads there is none.
prints 1 'refused 9 record 9 (pad 310) and record 5 (pad 306)' audit "$share/copper.job" $(cat "$share/copper.layout")
check "the README's arm across a pad" grep -qxF "    $(cat "$room/audited")" README.md
prints 0 'sound: length 17458, bends 22' $run "$room/audit" "$share/sequencer.job" $(cat "$share/copper.layout")
enlarged() { sed "s/half=20/half=$1/" "$share/copper.txt" | "$share/mkjob" >"$room/enlarged.job" && $run "$room/sheets" "$room/enlarged.job" | sed q; }
for half in 20 21; do prints 0 'total 17494' enlarged $half; done
prints 0 'refused 15 record 0' enlarged 22
squared() { sed "s/  #/ half=$1 #/" "$share/matrix.txt" | "$share/mkjob" >"$room/squared-$1.job" && $run "$room/sheets" "$room/squared-$1.job" | sed q; }
prints 0 'total 51676' squared 9
prints 0 'refused 15 record 0' squared 10
printf '101 10 0 10\n102 20 30 17\n' | "$share/mkjob" >"$room/close.job"
prints 1 "refused 12 record 1 (pad 102)" audit "$room/close.job" 0 1

# The antenna: the sheet that keeps off its area is the one that lies beside it and that the README shows; the shortest one crosses the area, and so does every
# sheet if the area is the whole board. A refusal is said in words.
antenna() { $run "$room/antenna" "$@"; }
antenna_errors() { antenna "$@" 2>&1 >/dev/null | sed "s|$room/||"; }
area=450,215,725,385
prints 0 "$(cat "$share/antenna.layout")" antenna "$share/antenna.job" $area
prints 0 "$(cat "$share/antenna.layout")" antenna - 725,215,450,385 <"$share/antenna.job"
check "the README's antenna" grep -qxF "    $(cat "$share/antenna.layout")" README.md
prints 0 'sound: length 7625, bends 10' $run "$room/audit" "$share/antenna.job" $(cat "$share/antenna.layout")
shortest='8 3 9 1 2 10 0 11 5 6 12 4 7'
prints 0 "$shortest" antenna "$share/antenna.job" 2000,0,3000,9
prints 1 "$shortest" sh -c '"$@" 2>/dev/null' sh $run "$room/antenna" "$share/antenna.job" 0,0,2000,2000
prints 0 'antenna: leaders that meet the area: 13; no sheet has fewer' antenna_errors "$share/antenna.job" 0,0,2000,2000
size='The pads are not 1 to 64 records of 16 bytes, or the list of ports, if there is one, not 1 to 128 heights of 4 bytes.'
prints 1 "refused 1 record 0: $size" antenna "$share/antenna.c" $area
prints 1 'refused 12 record 1: This port is less than 8 above the port before it.' antenna "$room/close.job" $area
for words in '' "$share/antenna.job" "$share/antenna.job 1,2,3" "$share/antenna.job 1,2,3,4 5"; do
    prints 0 'usage: antenna JOB X1,Y1,X2,Y2: a job file, and two corners of an area' antenna_errors $words
done

# The strip of slots: every best sheet of the board, as the README shows them; what is refused, of the pads and of the ports.
slots() { $run "$room/slots" "$@" 2>&1 | sed "s|$room/||"; }
on_strip='length 3593: 16 17 15 14 18 9 8 23 24
length 3593: 16 17 15 14 18 10 8 23 24
length 3593: 16 17 15 14 18 9 8 23 25
length 3593: 16 17 15 14 18 10 8 23 25'
prints 0 "$on_strip" $run "$room/slots" "$share/sensor.pads" "$share/row.ports"
check "the README's strip of slots" [ "$(grep -m 4 '^    length 3593: ' README.md)" = "$(echo "$on_strip" | sed 's/^/    /')" ]
prints 1 "refused 1 record 0: $size" $run "$room/slots" "$share/sensor.pads" "$share/slots.c"
prints 0 'refused 4 record 1: A number of this record, or the height of this port, is outside its range.' slots "$share/J5.job" "$share/row.ports"
printf '%s\n' 1 9 | "$share/mkjob" --ports >"$room/two.ports"
prints 0 'refused 14 record 0: There are fewer ports than pads.' slots "$share/sensor.pads" "$room/two.ports"
printf '7 10 5 half=2000\n8 20 5\n' | "$share/mkjob" --pads >"$room/inside.pads"
no_sheet='On every sheet of this board a leader meets another leader or the square of another pad.'
prints 0 "refused 15 record 0: $no_sheet" slots "$room/inside.pads" "$share/row.ports"
prints 1 "refused 15 record 0: $no_sheet" antenna "$room/enlarged.job" $area
for words in '' one 'one two three'; do prints 0 'usage: slots PADS PORTS: a file of pads, and one of port heights' slots $words; done

# The strip of thumbnails: amid the sheets with the fewest bends, as the README shows it, at the last of them from too far, at both of J3; of 63 pads in one gap
# so many as any 32 of them are, and of 64 more than have places; what is refused.
thumbs() { $run "$room/thumbs" "$@" 2>&1 | sed "s|$room/||"; }
amid='sheets: 16856, bends: 22
8428: 22 21 20 23 15 17 18 13 16 14 10 9 19 8 11 7 5 6 4 3 2 1 12 0
8429: 21 22 20 23 15 17 18 13 16 14 10 9 19 8 11 7 5 6 4 3 2 1 12 0
8430: 22 20 21 23 15 17 18 13 16 14 10 9 19 8 11 7 5 6 4 3 2 1 12 0
8431: 21 20 22 23 15 17 18 13 16 14 10 9 19 8 11 7 5 6 4 3 2 1 12 0
-------------------------------#--------------------------------'
prints 0 "$amid" $run "$room/thumbs" "$share/sequencer.job" 8428
check "the README's thumbnails" [ "$(sed -n '/^    sheets: 16856/,/^    -*#-*$/p' README.md)" = "$(echo "$amid" | sed 's/^/    /')" ]
for place in 16855 16856 18446744073709551616; do
    prints 0 'sheets: 16856, bends: 22
16855: 21 20 22 19 15 17 18 13 14 16 9 10 23 8 7 6 5 4 3 2 1 0 12 11
---------------------------------------------------------------#' thumbs "$share/sequencer.job" $place
done
prints 0 'sheets: 2, bends: 2
0: 1 0
1: 0 1
#---------------------------------------------------------------' thumbs "$share/J3.job" 0
in_one_gap() { awk -v n="$1" 'BEGIN { for (i = 0; i < n; i++) print i + 1, i + 10, 316, 10 * i }' | "$share/mkjob" >"$room/gap.job" && thumbs "$room/gap.job" 7 | sed 's/^\([0-9]*:\).*/\1/'; }
prints 0 'sheets: 916312070471295267, bends: 63
7:
8:
9:
10:
#---------------------------------------------------------------' in_one_gap 63
prints 0 'This board has more than 1,000,000,000,000,000,000 best sheets.
0:
1:
2:
3:' in_one_gap 64
check "the README's too many sheets" grep -qxF '    This board has more than 1,000,000,000,000,000,000 best sheets.' README.md
prints 1 "refused 1 record 0: $size" $run "$room/thumbs" "$share/thumbs.c" 0
prints 1 "refused 15 record 0: $no_sheet" $run "$room/thumbs" "$room/enlarged.job" 0
for words in '' one 'one 2 three'; do prints 0 'usage: thumbs JOB PLACE: a job file, and a place counted from 0' thumbs $words; done
for word in -1 x 1x ''; do prints 0 "thumbs: '$word' is not a place" thumbs "$share/J3.job" "$word"; done

# The web page: the one that lies beside it; the leaders stand in it as Svg writes them; what is refused, and where it cannot be written.
webpage() { $run "$room/webpage" "$@" 2>&1 | sed "s|$room/||"; }
page_again() { $run "$room/webpage" "$share/copper.job" | cmp - "$share/sheet.html"; }
check "the web page" page_again
leaders_of_j5() { $run "$room/webpage" "$share/J5.job" | grep '^<polyline'; }
prints 0 '<polyline points="2.5,-2.5 0,-2.5"/>
<polyline points="5,-5 0,-5"/>
<polyline points="7.5,-7.5 7.5,0 0,0"/>' leaders_of_j5
prints 1 '' sh -c '"$@" 2>/dev/null' sh $run "$room/webpage" "$room/enlarged.job"
prints 0 "webpage: refused 15 record 0: $no_sheet" webpage "$room/enlarged.job"
prints 0 "webpage: refused 1 record 0: $size" webpage "$share/webpage.c"
for words in '' 'one two'; do prints 0 'usage: webpage JOB >HTML: a job file' webpage $words; done
unwritten() { "$@" >/dev/full; }
prints 2 "$room/webpage: cannot write the page: No space left on device" unwritten $run "$room/webpage" "$share/J5.job"

# A file that is not there is named.
unopened() { $run "$@" 2>&1 | sed "s|.*cannot open $room/none: No such|No such|"; }
prints 0 'No such file or directory' unopened "$room/sheets" "$room/none"
prints 0 'No such file or directory' unopened "$room/audit" "$room/none" 0
prints 0 'No such file or directory' unopened "$room/antenna" "$room/none" $area
prints 0 'No such file or directory' unopened "$room/slots" "$share/sensor.pads" "$room/none"
prints 0 'No such file or directory' unopened "$room/thumbs" "$room/none" 0
prints 0 'No such file or directory' unopened "$room/webpage" "$room/none"

# The README's example is the one that was compiled.
readme_example() { sed -n '/^```c$/,/^```$/{/^```/!p}' README.md | cmp - examples/sheets.c; }
check "the README's example" readme_example

# ---- the sample jobs: each is what its list says, can be listed and made again, and is accepted

made_from_list() { "$share/mkjob" --$2 "$1.txt" | cmp - "$1.$2"; }
made_again() { "$share/mkjob" --$2 --list "$1.$2" "$room/list" && "$share/mkjob" --$2 "$room/list" | cmp - "$1.$2"; }
ports_apart() { awk '!/^#/ { if (seen && $4 < port + 8) near = 1; port = $4; seen = 1 } END { exit near || !seen }' "$room/list"; }
for job in "$share"/*.job; do
    job=${job%.job}
    check "made from its list" made_from_list "$job" job
    check "made again" made_again "$job" job
    check "ports 8 apart" ports_apart
    check "accepted" $run "$room/sheets" "$job.job"
done
for file in sensor.pads row.ports; do
    check "made from its list" made_from_list "$share/${file%.*}" ${file#*.}
    check "made again" made_again "$share/${file%.*}" ${file#*.}
done
import() { ${run%% *} "$installed/bin/cheremysl-import" "$@"; }
imported() { import "$share/sensor.csv" | cmp - "$share/sensor.pads"; }
check "the pads of the list" imported
prints 0 "cheremysl-import $version" import --version

# ---- the printing program and the Python binding

# Only a machine of its own kind starts the proved program from another: elsewhere a script does, by the emulator.
if [ "$run" ]; then
    mv "$installed/libexec/cheremysl/sheet" "$room/proved"
    printf '#!/bin/sh\nexec %s %s\n' "$run" "$room/proved" >"$installed/libexec/cheremysl/sheet"
    chmod +x "$installed/libexec/cheremysl/sheet"
fi
sheet() { ${run%% *} "$installed/bin/cheremysl-sheet" "$@"; }
prints 0 '101 1 10 0
102 2 20 0
103 0 60 1
total 90 1' sheet "$share/J5.job"
prints 1 'refused 1 record 0' sheet /dev/null
last_line() { sheet "$1" | tail -n 1; }
# with_squares FILE TEXT: the last line of its sheet, which the README has
with_squares() {
    prints 0 "$2" last_line "$1"
    check "the README's squares" grep -qx "    $2" README.md
}
with_squares "$share/copper.job" 'total 17494 23'
with_squares "$room/squared-9.job" 'total 51676 61'
with_squares "$room/squared-10.job" 'refused 15 record 0'
prints 1 'refused 15 record 0' sheet "$room/enlarged.job"
prints 0 "cheremysl-sheet $version" sheet --version
prints 2 "cheremysl-sheet: cannot open $room/none: No such file or directory" sheet "$room/none"

binding() { LD_LIBRARY_PATH=$lib "$share/cheremysl.py" "$@"; }
if [ -z "$run" ]; then
    prints 0 'total 40: 1 0
total 40: 0 1' binding "$share/J3.job"
    prints 0 "$(echo "$on_strip" | sed 's/length/total/')" binding "$share/sensor.pads" "$share/row.ports"
fi

# ---- the manual: it has a page under the name of every program and of every function of the header

for page in "$installed"/share/man/man?/*; do
    check "manual" mandoc -T lint -W warning "$page"
done
for program in "$installed"/bin/*; do check "manual" [ -f "$installed/share/man/man1/${program##*/}.1" ]; done
functions=$(sed -nE 's/^(static inline |int64_t ).*(cheremysl_[a-z_]+)\(.*/\2/p' include/cheremysl.h)
check "functions of the header: $functions" [ "$(echo $functions | wc -w)" -ge 20 ]
for function in $functions; do
    check "manual of each function" grep -q "$function(" "$installed/share/man/man3/$function.3"
done

# ---- uninstalled, nothing is left

check "make uninstall" make_quietly uninstall PREFIX="$installed"
prints 0 '' listing "$installed"
for folder in "$share" "$installed/libexec/cheremysl"; do check "a folder of the package's own is left" [ ! -d "$folder" ]; done

counts
