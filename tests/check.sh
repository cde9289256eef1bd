# Sourced by each test from the repository's root, with $work set: the folder for what the test writes.
mkdir -p "$work"
passed=0
failed=0
exec 3>&1

# build_plain: builds the second program and the plain C programs and names them (tests/fuzz/build.sh); a test whose build fails has failed.
build_plain() {
    if ! command -v cargo >/dev/null; then
        apt-get update && apt-get install -y --no-install-recommends cargo rustc
    fi
    if ! bash -e tests/fuzz/build.sh >"$work/log" 2>&1; then
        tail -n 40 "$work/log"
        echo "0 passed, 1 failed"
        exit 1
    fi
    set -e
    . tests/fuzz/build.sh
    set +e
}

# check NAME COMMAND...: one test, which passes where the command does; the output of a failed one is shown.
check() {
    local name=$1
    shift
    if "$@" >"$work/log" 2>&1; then
        echo "passed: $name"
        passed=$((passed + 1))
    else
        echo "FAILED: $name"
        tail -n 40 "$work/log"
        failed=$((failed + 1))
    fi
}

# shown COMMAND...: runs a comparison and prints what it counted, also where it passes.
shown() {
    "$@" >"$work/shown" 2>&1
    local status=$?
    cat "$work/shown" >&3
    return $status
}

# beside NAME COMMAND...: the same, of a comparison that must have loaded the library of this name.
beside() {
    local name=$1
    shift
    shown "$@" && grep -q "^reference beside $name" "$work/shown"
}

# add PASSED FAILED: counts what a program counted by itself.
add() {
    passed=$((passed + $1))
    failed=$((failed + $2))
}

# finish: the closing line, which scripts/test adds up, and the exit status.
finish() {
    echo "$passed passed, $failed failed"
    [ "$failed" -eq 0 ]
}
