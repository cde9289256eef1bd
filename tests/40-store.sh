#!/usr/bin/env bash
# The proved store and the proved replay against the second program, by running: 1,000,000 calls on arbitrary buffers and 20,000 runs through the calls
# for C, and random files through the replay. The proofs come first (rt ci). SEED changes the cases, REPLAYS the number of files.
set -uo pipefail
cd "$(dirname "$0")/.."

seed=${SEED:-1}
replays=${REPLAYS:-20000}
work=$PWD/target/store-tests
. tests/check.sh

# The proved calls in the place of the plain C store.
calls_for_c() {
    mkdir -p target/c/proved-store
    gcc -O3 $c_flags -fPIC -shared -Itools/src -Iinclude -Ibenches/c tests/c/proved_store.c tests/plain_fields.c "$(bash scripts/archive)" \
        -o target/c/proved-store/libplain.so
}

example() {
    tools/calls encode <"examples/$1.txt" >"$work/$1.bin" && target/bin/replay <"$work/$1.bin" >"$work/$1.out" &&
        diff "examples/$1.expected" "$work/$1.out"
}

# Every file that the guided fuzzer kept: the proved replay and the second program print the same.
corpus() {
    local file count=0
    for file in tests/fuzz/corpus/*; do
        target/bin/replay <"$file" >"$work/corpus.proved" && "$replay_reference" <"$file" >"$work/corpus.reference" && cmp "$work/corpus.proved" "$work/corpus.reference" ||
            { echo "$file differs"; return 1; }
        count=$((count + 1))
    done
    echo "$count files"
    [ "$count" -ge 100 ]
}

# The lists of the benchmark: the same answers and buffers on the proved store and on plain C.
benchmark() {
    bash benches/build || return 1
    for list in known reads write commit update written-back held waits caps-commit load; do
        for entries in 2 32; do
            target/bench/store_bench $list $entries 1024 16 20 || return 1
        done
    done
    for list in look-up-{known,new}-{read,hold,write,write-caps} many singles many-known singles-known; do
        for entries in 2 8 32; do
            target/bench/store_bench $list $entries 1024 16 20 || return 1
        done
    done
}

check "the second program is built" bash -c '. tests/fuzz/build.sh'
. tests/fuzz/build.sh
check "the replay is built" bash scripts/program
check "the replay on the fuzzer's corpus" shown corpus
check "the proved replay on random files" shown "$compare" replays --program "$PWD/target/bin/replay" --mode spawn --seed "$seed" --count "$replays"

# What stands on the archive for C comes last: it may still be in the making.
for name in listing skew mixed written_back hold waiting; do
    check "the replay of $name" example $name
done
check "the calls for C are built" calls_for_c
check "the proved calls on arbitrary buffers" beside "proved calls for C" env LD_LIBRARY_PATH="$PWD/target/c/proved-store" "$compare" calls --seed "$seed" --count 1000000
check "the proved calls in runs" beside "proved calls for C" env LD_LIBRARY_PATH="$PWD/target/c/proved-store" "$compare" runs --seed "$seed" --count 20000
check "the proved calls and plain C on the benchmark's lists" benchmark

finish
