# tests/checks.sh, to be sourced: counts what passes and what fails.
#   room  a temporary folder, removed at the end
room=$(mktemp -d) || exit 2
trap 'rm -rf "$room"' EXIT
passed=0 failed=0

# check WHAT COMMAND..: counts a command that must succeed; what it prints is shown if it fails
check() {
    what=$1
    shift
    if "$@" >"$room/log" 2>&1; then
        passed=$((passed + 1))
    else
        failed=$((failed + 1))
        echo "FAILED: $what: $*"
        cat "$room/log"
    fi
}

# prints STATUS TEXT COMMAND..: the command, which may be a pipe, ends with the status and writes just this text
prints() {
    expected=$2 wanted=$1
    shift 2
    written=$("$@" 2>&1)
    status=$?
    check "$* wrote '$written', status $status" [ "$written $status" = "$expected $wanted" ]
}

# ends STATUS TEXT MESSAGE COMMAND..: the command ends so, with just this text on standard output and this message on standard error
ends() {
    status=$1 text=$2 message=$3
    shift 3
    "$@" >"$room/out" 2>"$room/err"
    got="$? $(cat "$room/out"; echo .) $(cat "$room/err")"
    check "$*: $got" [ "$got" = "$status ${text:+$text
}. $message" ]
}

# counts: a script's last command: the counts, and whether all passed
counts() {
    echo "$passed passed, $failed failed"
    [ $failed = 0 ] && [ $passed -gt 0 ]
}
