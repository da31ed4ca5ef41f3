#!/bin/sh
# tests/run.sh [--no-search] [--random | --no-random] [ARCHIVE]: builds the library's archive, or takes the one given, then
# compiles and runs the C tests, once as they are and once more under the sanitizers. Fails on any failure; the last line
# has the counts.
#   --no-search  only what needs Measure, over weights, over a table or on slots, Draw, Svg and ReadCsv alone
#   --random, --no-random  the trials on random inputs alone, random and fuzz; all but those. Two such runs may go on side by side
#   SEED, TIMES  in the environment: another seed; so many times the usual number of random trials
# What is missing is installed by apt-get (tools/machine.sh).
set -u
cd "$(dirname "$0")/.." || exit 2
flags= archive= search=yes part=all seed=${SEED:-1} times=${TIMES:-1} passed=0 failed=0
for word; do
    case $word in
    --no-search) search= flags=-DNO_SEARCH ;;
    --random) part=random ;;
    --no-random) part=rest ;;
    -*) echo "usage: tests/run.sh [--no-search] [--random | --no-random] [ARCHIVE]" >&2; exit 2 ;;
    *) archive=$word ;;
    esac
done

. tools/machine.sh
need_compilers

if [ -z "$archive" ]; then
    archive=build/libcheremysl.a
    tools/build archive || exit 1
fi
out=build/tests/$part
rm -rf $out && mkdir -p $out || exit 2

# The sanitizers' own library does not run under the emulator: there, bad arithmetic traps.
sanitize="-fsanitize=address,undefined -fno-sanitize-recover=all"
export ASAN_OPTIONS=detect_leaks=0
echo 'int main(void) { return 0; }' >$out/probe.c
if [ "$run" ] || ! $cc $sanitize -o $out/probe $out/probe.c 2>/dev/null || ! $out/probe; then
    sanitize="-fsanitize=undefined -fsanitize-undefined-trap-on-error"
fi

echo "sanitized: $sanitize"

strict="-Wall -Wextra -Werror -pedantic $flags -Iinclude"
fail() { echo "FAILED: $*"; failed=$((failed + 1)); }

# try NAME COMMAND..: runs a test and adds the counts of its last line
try() {
    name=$1
    shift
    echo "$name: $*"
    began=$(date +%s)
    $run "$@" >$out/log 2>&1
    status=$?
    sed 's/^/    /' $out/log
    echo "    $(($(date +%s) - began)) s"
    counts=$(sed -n '$s/^\([0-9]*\) passed, \([0-9]*\) failed$/\1 \2/p' $out/log)
    case $counts in
    "" | "0 0") fail "$name: status $status, nothing counted" ;;
    *" 0") [ $status = 0 ] || fail "$name: status $status" ;;
    *) echo "FAILED: $name" ;;
    esac
    passed=$((passed + ${counts% *} + 0)) failed=$((failed + ${counts#* } + 0))
}

# What the tests share is compiled once as it is and once sanitized.
plain="-std=c99 -O2" checked="-std=c11 -O1 -g $sanitize"
for file in trial questions guard boards plain ranked values; do
    $cc $strict $plain -c -o $out/$file.o tests/$file.c && $cc $strict $checked -c -o $out/$file-sanitized.o tests/$file.c ||
        fail "$file.c does not compile"
done

# build FILE PROGRAM SUFFIX FLAGS..: with the shared objects of that suffix
build() {
    file=$1 program=$2 suffix=$3
    shift 3
    $cc $strict "$@" $static -o $out/$file tests/$program.c $out/trial$suffix.o $out/questions$suffix.o \
        $out/guard$suffix.o $out/boards$suffix.o $out/plain$suffix.o $out/ranked$suffix.o $out/values$suffix.o "$archive" ||
        { fail "$file does not compile"; false; }
}

# both PROGRAM [COUNT CHECKED_COUNT]: as it is, and sanitized; random trials with different seeds
both() {
    build $1 $1 "" $plain && try $1 $out/$1 ${2:+$(($2 * times)) $seed}
    build $1-sanitized $1 -sanitized $checked &&
        try "$1, sanitized" $out/$1-sanitized ${3:+$(($3 * times)) $((seed + 1))}
}

finish() {
    echo "$passed passed, $failed failed"
    [ $failed = 0 ]
    exit
}

# Random trials are so many a call; under the emulator, so many fewer that all take as long as those of eight calls. So with texts.
calls_tried=15 texts_tried=100000
[ -z "$run" ] || calls_tried=8 texts_tried=30000
[ $part = rest ] || {
    both fuzz $((50000 * calls_tried)) $((5000 * calls_tried))
    both random $((50000 * calls_tried)) $((5000 * calls_tried))
}
[ $part != random ] || finish

# The archive exports nothing but the calls, has no variables, and needs nothing but memcpy and its kin.
calls='first|next|page|count|place|measure|draw|svg|read_csv|(table|slots)_(first|next|measure)'
exports=$($nm -g --defined-only "$archive" | sed -En "/ cheremysl_($calls)\$/!s/.* . //p")
others=$($nm "$archive" | sed -En '/ [BbCDdGgSs] | U /{/ U (mem(cpy|set|move|cmp)|_GLOBAL_OFFSET_TABLE_)$/!s/.* //p}')
[ -z "$exports" ] && passed=$((passed + 1)) || fail "the archive exports" $exports
[ -z "$others" ] && passed=$((passed + 1)) || fail "the archive has or needs" $others

for form in c99 c11 c++11 c++17; do
    # A cross compiler's static libm names files of another machine: C++, which needs it, is linked to the shared one.
    case $form in c++*) compiler="$cxx -x c++" linker=$cxx ;; *) compiler=$cc linker="$cc $static" ;; esac
    if $compiler -std=$form $strict -c -o $out/abi.o tests/abi.c && $linker -o $out/abi $out/abi.o "$archive"
    then try "header as $form" $out/abi
    else fail "the header does not compile as $form"
    fi
done

both sheets
both refusals
both touching 100 10
both svg 300 30
both csv $texts_tried 5000
if [ $search ]; then
    both every $((3750 * calls_tried)) $((375 * calls_tried))
    both large 150 15
    both pages 200 20
    both places 200 20
fi
# Traps and registers as they happen to be are not for the sanitizers.
build floats floats "" $plain && try floats $out/floats $((600 * times)) $seed
# A stack of its own is not for the sanitizers. Bound at the start: binding a function when it is first called takes stack.
build stack stack "" $plain -Wl,-z,now && try stack $out/stack

# The header and the README state the figures that the test holds the calls to.
figures=$(sed -En 's/^([A-Za-z]+) .* stack, ([0-9]+) stated$/\1:\2/p' $out/log | sed -E 's/[0-9]{3}$/,&/; s/:,/:/')
[ "$figures" ] || fail "the stack test states no figures"
for figure in $figures; do
    call=${figure%:*} bytes=${figure#*:}
    if grep -qw "$call $bytes" include/cheremysl.h && grep -qx "| $call | $bytes |" README.md
    then passed=$((passed + 1))
    else fail "the header or the README does not say that $call takes $bytes bytes of stack"
    fi
done

finish
