#!/usr/bin/env bash
# The fields from C: builds the comparison of the archive's field functions with those of tests/c/expected_fields.h, and runs it, also under valgrind.
# SEED=N in the environment repeats a run.
set -uo pipefail
cd "$(dirname "$0")/.."

work=target/tests/field
. tests/check.sh
seed=${SEED:-$(od -An -N4 -tu4 /dev/urandom | tr -d ' ')}
strict="-Wall -Wextra -Werror -std=c99 -O2"

# The comparison must notice a fault of what it expects.
notices() {
    gcc $strict -DBROKEN="$1" -Iinclude -o "$work/broken" tests/c/fields.c "$archive" || return 1
    "$work/broken" "$seed" 2000 >"$work/broken.txt"
    [ $? -eq 1 ] && grep -q '^FAIL' "$work/broken.txt"
}

check "the archive is built" bash scripts/archive
archive=$(bash scripts/archive)
check "the comparison is built" gcc $strict -Iinclude -o "$work/fields" tests/c/fields.c "$archive"

# Each group of the comparison is a test of its own.
"$work/fields" "$seed" 200000 >"$work/fields.txt"
status=$?
cat "$work/fields.txt"
groups=$(grep -c '^ok ' "$work/fields.txt")
add "$groups" "$(grep -c '^FAIL ' "$work/fields.txt")"
if [ "$groups" -ne 5 ] || [ "$status" -ne 0 ]; then
    echo "FAILED: the comparison: $groups of 5 groups passed, status $status"
    add 0 1
fi

check "the comparison is clean under valgrind" valgrind -q --leak-check=full --error-exitcode=9 "$work/fields" "$seed" 5000
for fault in 1 2 3 4 5 6 7; do
    check "the comparison notices fault $fault of what it expects" notices "$fault"
done

finish
