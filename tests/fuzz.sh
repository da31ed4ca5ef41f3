#!/bin/sh
# tests/fuzz.sh [SECONDS [ARCHIVE]]: the fuzz trial for longer, by clang's fuzzer where that can be had, else by the trial's
# own driver, with a new seed each time. Inputs that brought something new stay in build/corpus for the next time.
# Prints the number of inputs; the last line has the counts.
set -u
cd "$(dirname "$0")/.." || exit 2
seconds=${1:-600} archive=${2:-build/libcheremysl.a}
. tools/machine.sh
need_compilers
[ $# -gt 1 ] || tools/build archive || exit 1
mkdir -p build/corpus || exit 2
files="tests/fuzz.c tests/trial.c tests/guard.c tests/boards.c tests/plain.c tests/ranked.c tests/values.c $archive"
strict="-Wall -Wextra -Werror -pedantic -Iinclude"

# Without the sanitizers, which tests/run.sh has: this is for the number of inputs.
if [ -z "$run" ] && (need "clang libclang-rt-dev" clang) 2>/dev/null &&
    clang -O2 -g -DLIBFUZZER -fsanitize=fuzzer $strict -o build/fuzz $files; then
    build/fuzz -max_total_time="$seconds" -max_len=400 -print_final_stats=1 -artifact_prefix=build/ build/corpus \
        >build/fuzz.log 2>&1
    status=$?
    [ $status = 0 ] || { cat build/fuzz.log; echo "0 passed, 1 failed" >>build/fuzz.log; }
    sed -n "s/^stat::number_of_executed_units: */inputs by clang's fuzzer: /p; \$p" build/fuzz.log
    exit $status
fi

$cc -std=c99 -O2 $strict $static -o build/fuzz $files || exit 1
end=$(($(date +%s) + seconds)) seed=$(date +%s) passed=0 failed=0 inputs=0
while [ "$(date +%s)" -lt $end ]; do
    $run build/fuzz 25000 $seed >build/fuzz.log || failed=$((failed + 1))
    counts=$(sed -n '$s/^\([0-9]*\) passed, 0 failed$/\1/p' build/fuzz.log)
    [ "$counts" ] || { cat build/fuzz.log; break; }
    passed=$((passed + counts)) inputs=$((inputs + 25000)) seed=$((seed + 1))
done
echo "inputs by the trial's own driver: $inputs"
echo "$passed passed, $failed failed"
[ $failed = 0 ] && [ $passed -gt 0 ]
