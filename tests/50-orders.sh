#!/usr/bin/env bash
# The orders of document 01 that are not starred, run by the proved replay, and the numbers that no replay shows, run by the calls for C; what
# they print is held to what is stored or said here. scripts/program builds the replay.
set -uo pipefail
cd "$(dirname "$0")/.."

work=$PWD/target/orders
. tests/check.sh

# cells N: N starting cells of class 2 and value 3.
cells() {
    local i
    for ((i = 0; i < $1; i++)); do echo "cell 2 3"; done
}

# prints TEXT EXPECTED [LINES]: the replay of a text prints these lines, or begins with them.
prints() {
    tools/calls encode <"$1" >"$work/fields" && target/bin/replay <"$work/fields" >"$work/printed" && head -n "${3:-100000}" "$work/printed" | diff "$2" -
}

{ cells 3; printf 'begin 0\nread 0 2\nread 0 3\n'; } >"$work/edge.txt"
printf '1 100\n2 101 3\n3 3\nc 0 3\nc 1 3\nc 2 3\n' >"$work/edge.expected"
check "cell n-1 reads, cell n is 3" prints "$work/edge.txt" "$work/edge.expected"

{ cells 40; echo "begin 0"; for i in $(seq 0 32); do echo "read 0 $i"; done; echo "read 0 5"; } >"$work/full.txt"
{ echo "1 100"; for i in $(seq 2 33); do echo "$i 101 3"; done; echo "34 5"; echo "35 101 3"; } >"$work/full.expected"
check "a 32nd new cell reads, a 33rd is 5, a known one still reads" prints "$work/full.txt" "$work/full.expected" 35

sed 's/^read/hold/' "$work/full.txt" >"$work/full_of_holds.txt"
check "a 32nd new cell is held, a 33rd is 5, a known one is still held" prints "$work/full_of_holds.txt" "$work/full.expected" 35

{ cells 1024; printf 'begin 0\nread 0 1023\nread 0 1024\n'; } >"$work/most.txt"
{ printf '1 100\n2 101 3\n3 3\n'; for i in $(seq 0 1023); do echo "c $i 3"; done; } >"$work/most.expected"
check "n of 1,024 is set up" prints "$work/most.txt" "$work/most.expected"

printf 'begin 0\n' >"$work/none.txt"
{ cells 1025; printf 'begin 0\n'; } >"$work/many.txt"
printf 'setup 7\n' >"$work/seven.expected"
check "n of 0 is 7" prints "$work/none.txt" "$work/seven.expected"
check "n of 1,025 is 7" prints "$work/many.txt" "$work/seven.expected"

{ cells 1; for s in $(seq 0 15); do echo "begin $s"; done; for s in $(seq 1 15); do echo "read $s 0"; done; printf 'write 0 0 4\nseal 0\n'
    for s in $(seq 1 15); do printf 'advance 0\nseal %s\n' "$s"; done; printf 'advance 0\nadvance 0\nadvance 0\n'; } >"$work/crowd.txt"
{ for i in $(seq 1 16); do echo "$i 100"; done; for i in $(seq 17 31); do echo "$i 101 3"; done; printf '32 100\n33 102\n'
    for s in $(seq 1 15); do echo "$((32 + 2 * s)) 104 $((16 - s))"; echo "$((33 + 2 * s)) 105"; done; printf '64 103\n65 103\n66 105\nc 0 4\n'; } >"$work/crowd.expected"
check "fifteen others are in the way, and one less after each seal" prints "$work/crowd.txt" "$work/crowd.expected"

odd_buffers() {
    gcc -Wall -Wextra -Werror -std=c99 -O2 -Iinclude tests/c/odd_buffers.c "$(bash scripts/archive)" -o "$work/odd" && "$work/odd" | diff tests/c/odd_buffers.expected -
}
check "numbers 9 and 14, values written back, holds, waits, many reads, tables of caps, odd buffers and odd records" odd_buffers
check "the same, clean under valgrind" valgrind -q --error-exitcode=9 "$work/odd"

finish
