#!/usr/bin/env bash
# The second program and the plain C store, which stand on no proved crate: builds them, and tries unit tests, random comparisons, and wrong stores that the
# comparison must tell. It reads and writes nothing in target/ where BUILT names another folder, so scripts/test runs it beside rt ci.
# SEED changes the random cases.
set -uo pipefail
cd "$(dirname "$0")/.."

seed=${SEED:-1}
work=${BUILT:-$PWD/target}/plain-tests
. tests/check.sh

build_plain

echo "-- unit tests"
cargo test --quiet --offline --release --features plain --manifest-path reference/Cargo.toml >"$work/unit" 2>&1
unit_status=$?
unit_passed=$(sed -n 's/^test result: .* \([0-9]*\) passed; .*/\1/p' "$work/unit" | awk '{ sum += $1 } END { print sum + 0 }')
unit_failed=$(sed -n 's/^test result: .* \([0-9]*\) failed; .*/\1/p' "$work/unit" | awk '{ sum += $1 } END { print sum + 0 }')
if [ "$unit_status" -ne 0 ] || [ "$unit_passed" -eq 0 ]; then
    cat "$work/unit"
    [ "$unit_failed" -gt 0 ] || unit_failed=1
fi
echo "$unit_passed unit tests passed, $unit_failed failed"
add "$unit_passed" "$unit_failed"

echo "-- comparisons, seed $seed"
check "replays, in batch" shown "$compare" replays --program "$plain_replay" --mode batch --seed "$seed" --count 40000
check "replays, each in a process" shown "$compare" replays --program "$plain_replay" --against "$replay_reference" --mode spawn \
    --seed "$((seed + 1))" --count 1500
check "calls on arbitrary buffers" beside "plain C store" "$compare" calls --seed "$seed" --count 1000000
check "runs" beside "plain C store" "$compare" runs --seed "$seed" --count 20000
check "fields" beside "plain C fields" "$compare" fields --seed "$seed" --count 1000000

echo "-- wrong stores"
python3 tests/fuzz/wrong_stores.py "$compare" "$work" "$seed" 2>&1 | tee "$work/wrong.log"
closing=$(grep -E '^[0-9]+ passed, [0-9]+ failed$' "$work/wrong.log" | tail -n 1)
closing=${closing:-0 passed, 1 failed}
add "$(echo "$closing" | cut -d' ' -f1)" "$(echo "$closing" | cut -d' ' -f3)"

finish
