#!/bin/sh
# tests/tool.sh: tools/sheet in a tree of its own, where a stand-in for rt prints what it is told to and builds a stand-in
# for the printing program. So nothing is proved here. The last line has the counts.
set -u
cd "$(dirname "$0")/.." || exit 2
. tests/checks.sh
export MACHINE=x86_64 # the stand-ins run everywhere
mkdir -p "$room/tree/tools" "$room/tree/crates/sheet" "$room/bin" || exit 2
cp tools/sheet tools/build tools/machine.sh "$room/tree/tools" || exit 2
export ROOM="$room" PATH="$room/bin:$PATH"

# Four crates, of which the program needs two and so rests on three, and a library that is not the tree's.
cat >"$room/tree/crates.txt" <<'END'
# a comment: sheet
other: low
low:
high: low
sheet: high low io
END

# It prints the lines of the file says, builds the program if it is to succeed, and ends with the status.
cat >"$room/bin/rt" <<'END'
#!/bin/sh
pwd >"$ROOM/where"
echo "$*" >"$ROOM/asked"
cat >"$ROOM/eaten"
cat "$ROOM/says"
status=$(cat "$ROOM/status")
[ "$status" = 0 ] && mkdir -p out && cp "$ROOM/program" out/sheet
echo 'and this on standard error' >&2
exit "$status"
END
printf '#!/bin/sh\necho "the sheet of $(cat)"\n' >"$room/program"
chmod +x "$room/bin/rt" "$room/program"

# rt_says STATUS LINE..: what the stand-in does from now on
rt_says() {
    echo "$1" >"$room/status"
    shift
    printf '%s\n' "$@" >"$room/says"
}

printf 'a job' >"$room/board.job"
sheet() { "$room/tree/tools/sheet" "$@"; }
piped() { printf 'a job' | sheet; }
only_sheet() { sheet "$1" 2>/dev/null; }

# ---- the first time: a line a crate, and then the sheet

low='crate low: modules loaded=4 checked=4' high='crate high: modules loaded=7 checked=7' proved='logic=proved functions=2 sum=1'
own='crate sheet: modules loaded=2 checked=2' now='rt: running out/sheet; to give it other input, run that file yourself'
rt_says 0 'fn low::one: proved' "$low" "$proved" 'library low: modules loaded=4 checked=0' "$high" "$proved" 'library high: modules loaded=7 checked=0' \
    "$own" 'axioms libc: libc::read (1 of the 128 declared)' "$proved axioms=1" "$now" 'refused 1 record 0'
first_time='sheet: up to 3 crates are proved first, which can take minutes
sheet: low proved
sheet: high proved
sheet: sheet proved
the sheet of a job'
prints 0 "$first_time" sheet "$room/board.job"
prints 0 'run' cat "$room/asked"
prints 0 "$(cd "$room/tree/crates/sheet" && pwd)" cat "$room/where"
prints 0 '' cat "$room/eaten"
rm -rf "$room/tree/build"
prints 0 "$first_time" piped
prints 0 'the sheet of a job' only_sheet "$room/board.job"

# ---- later: nothing to say, or what changed alone

rt_says 0 'rt: nothing has changed since the last proved build, by out/sheet.stamp, so nothing is checked now' "$now" 'refused 1 record 0'
prints 0 'the sheet of a job' sheet "$room/board.job"
prints 0 'the sheet of a job' piped
rt_says 0 "$high" "$proved" "$own" "$proved" "$now" 'refused 1 record 0'
prints 0 'sheet: high proved
sheet: sheet proved
the sheet of a job' sheet "$room/board.job"

# ---- failures: no sheet, rt's whole text, status 2

for status in 1 2 3 10 127; do
    rt_says $status 'rt: low: begins with what a check kept in /elsewhere' 'src/lib.rt:3:1: error  \n %s' \
        'logic=not-proved functions=1' 0 'rt: the library high did not build, so nothing above it was checked'
    prints 2 'rt: low: begins with what a check kept in /elsewhere
src/lib.rt:3:1: error  \n %s
logic=not-proved functions=1
0
rt: the library high did not build, so nothing above it was checked
and this on standard error' sheet "$room/board.job"
done
rt_says 1 "$low" "$proved" "$now"
prints 2 "sheet: low proved
$low
$proved
$now
and this on standard error" piped
prints 2 '' only_sheet "$room/board.job"

# ---- files

# says_name NAME: the sheet of what cannot be read is refused with its name, and rt is not asked
says_name() {
    rm -f "$room/asked"
    said=$(sheet "$1" 2>&1)
    [ $? = 2 ] && [ ! -f "$room/asked" ] && case $said in *"$1"*) ;; *) false ;; esac
}
rt_says 0 'rt: ok'
check "a file that is not there" says_name "$room/no such.job"
check "a folder" says_name "$room/tree"
prints 2 'usage: tools/sheet [JOB]' sheet one two
mkdir "$room/else where" && cp "$room/board.job" "$room/else where/my board.job"
from_there() { (cd "$room/else where" && sheet 'my board.job'); }
prints 0 'the sheet of a job' from_there

# ---- a crate's line comes when it is proved, not at the end

cat >"$room/bin/rt" <<'END'
#!/bin/sh
echo 'crate low: modules loaded=4 checked=4'
echo 'logic=proved functions=2 sum=1'
for turn in 1 2 3 4 5 6 7 8 9 10; do
    grep -q '^sheet: low' "$ROOM/said" && exit 0
    sleep 0.5
done
exit 1
END
in_time() { sheet "$room/board.job" 2>"$room/said"; }
prints 0 'the sheet of a job' in_time

# ---- no rt at all

rm "$room/bin/rt"
no_rt() { (PATH=/usr/bin:/bin && { command -v rt || sheet "$room/board.job" 2>&1 | grep 'rt.*not found'; }); }
check "rt is not there" no_rt

counts
