# Counting tests, for the scripts that run them: a script sources this file and ends with `finish`.
passed=0 failed=0

# check NAME COMMAND..: a test, which the command's status decides
check() {
    local name=$1
    shift
    if "$@"; then
        passed=$((passed + 1))
    else
        failed=$((failed + 1))
        echo "FAIL $name"
    fi
}

# tally FILE: the numbers of its last line 'N passed, M failed', or nothing
tally() { tail -n 1 "$1" | sed -n 's/^\([0-9][0-9]*\) passed, \([0-9][0-9]*\) failed$/\1 \2/p'; }

# results FILE: the sums of its lines 'test result: ok. N passed; M failed; ..', which Rust's tests print
results() { awk '/^test result:/ { p += $4; f += $6 } END { print p + 0, f + 0 }' "$1"; }

# add STATUS [PASSED FAILED]: adds what a part with that status counted. A part that failed and counted no failure (it did
# not build, it crashed) is one failure, and so is a part that counted nothing at all.
add() {
    local rc=$1 p=${2:-0} f=${3:-0}
    if [ "$f" -eq 0 ] && { [ "$rc" -ne 0 ] || [ "$p" -eq 0 ]; }; then f=1; fi
    passed=$((passed + p)) failed=$((failed + f))
}

# finish: the last line; the status is 0 only where something passed and nothing failed
finish() {
    echo "$passed passed, $failed failed"
    [ "$failed" -eq 0 ] && [ "$passed" -gt 0 ]
}
