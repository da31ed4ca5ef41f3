# tools/machine.sh, to be sourced: how this machine compiles C and runs programs. The library's archive and its programs
# are x86-64 code; on another machine C is cross-compiled, and what is x86-64 runs under qemu-user.
#   cc, cxx, nm  the compilers, and nm for what they make
#   static       a word for linking; run: words before a program's name. Both empty on x86-64
#   MACHINE      in the environment: another machine's name, to try its ways on this one

if [ "${MACHINE:-$(uname -m)}" = x86_64 ]; then
    cross= run= static= headers=/usr/include compilers="gcc g++ libc6-dev"
else
    cross=x86_64-linux-gnu- static=-static headers=/usr/x86_64-linux-gnu/include
    # Without erms: with it libc fills and copies by one instruction, which the emulator runs byte by byte.
    run="qemu-x86_64 -cpu max,-erms -L /usr/x86_64-linux-gnu -E LD_LIBRARY_PATH=/usr/x86_64-linux-gnu/lib"
    compilers="gcc-x86-64-linux-gnu g++-x86-64-linux-gnu libc6-dev-amd64-cross qemu-user"
fi
cc=${cross}gcc cxx=${cross}g++ nm=${cross}nm

# Two scripts may need packages at once, and apt-get does not wait for another.
in_turn() { flock "${TMPDIR:-/tmp}/cheremysl-packages" "$@"; }

there() { { command -v "$1" || [ -f "$1" ]; } >/dev/null; }

# have PACKAGES COMMAND_OR_FILE..: installs the packages by apt-get if one of the others is missing; false if it stays missing
have() {
    packages=$1
    shift
    for thing; do
        there "$thing" && continue
        { in_turn apt-get update && in_turn apt-get install -y --no-install-recommends $packages; } >/dev/null 2>&1 && there "$thing"
        return
    done
}

# need PACKAGES COMMAND_OR_FILE..: the same, and the script ends with 2 if that fails
need() {
    have "$@" && return
    echo "$0: needs the packages $1" >&2
    exit 2
}

# What is needed to compile C and to run it; to run a program only.
need_compilers() { need "$compilers" $cc $cxx ${run%% *} $headers/stdio.h; }
need_run() { [ -z "$run" ] || need "qemu-user libc6-amd64-cross" ${run%% *} /usr/x86_64-linux-gnu/lib/libc.so.6; }

# A browser, if one can be had: for a trial that is left out without it.
have_browser() { have chromium chromium && chromium --version >/dev/null 2>&1; }
