#!/usr/bin/env bash
# People's tools, which read and write fields by the proved functions, with the second program and the plain C replay behind them: examples, bad input,
# the time line; and the proved fields against the second program. SEED changes the random cases. tests/00-plain.sh tries the two programs themselves.
set -uo pipefail
cd "$(dirname "$0")/.."

seed=${SEED:-1}
work=$PWD/target/reference-tests
. tests/check.sh
examples="listing skew mixed written_back hold waiting"

# refused STATUS WORDS COMMAND...: the command ends with this status, writes nothing, and says these words on standard error.
refused() {
    local status=$1 words=$2
    shift 2
    "$@" >"$work/out" 2>"$work/err"
    [ $? -eq "$status" ] && [ ! -s "$work/out" ] && grep -qF "$words" "$work/err"
}

example() {
    tools/calls encode <"examples/$1.txt" >"$work/$1.bin" &&
        "$2" <"$work/$1.bin" >"$work/$1.out" &&
        diff "examples/$1.expected" "$work/$1.out"
}

decoded() {
    tools/calls encode <"examples/$1.txt" | tools/calls decode | diff <(sed 's/#.*//; /^ *$/d' "examples/$1.txt") -
}

# The calls of an example up to session 1's first seal.
opening() {
    sed '/^#/d; /^cell/d; /^seal 1$/q' "examples/$1.txt"
}

skew_with_holds() {
    diff <(opening skew | sed 's/^read/hold/') <(opening hold)
}

# The proved field functions in the place of the plain ones.
proved_fields() {
    mkdir -p target/c/proved
    gcc -O3 $c_flags -fPIC -shared -Itools/src -Iinclude benches/c/plain_store.c tools/src/proved_fields.c "$(bash scripts/archive)" \
        -o target/c/proved/libplain.so
}

encode_text() {
    printf "$1" | tools/calls encode
}

decode_bytes() {
    printf "$1" | tools/calls decode
}

# A refused field: the lines before it, the message, and exit status 1.
decode_refused() {
    decode_bytes '\001\001\000\005\007\000\000' >"$work/out" 2>"$work/err"
    [ $? -eq 1 ] && [ "$(cat "$work/out")" = "begin 5" ] && [ "$(cat "$work/err")" = "byte 4: refused field, 11" ]
}

picture() {
    tools/calls encode <"examples/$1.txt" >"$work/$1.bin" &&
        tools/timeline "$work/$1.bin" "examples/$1.expected" >"$work/$1.svg" &&
        python3 tests/label_overlaps.py "$work/$1.svg"
}

shows() {
    grep -qF ">$2</text>" "$work/$1.svg"
}

# marks NAME WORD PLACES: these are the places of the calls that the picture labels with the word.
marks() {
    awk -v label=">$2</text>" '/<title>/ { place = $1; gsub(/[^0-9]/, "", place) } /^<\/g>/ { place = "" } place && index($0, label) { print place }' \
        "$work/$1.svg" | xargs | diff <(echo "$3") -
}

# The marks of dropped writes, each a hollow square, and the one of the legend.
hollow() {
    [ "$(grep -c '^<rect .* fill="white" stroke=' "$work/$1.svg")" -eq "$2" ]
}

# The tool follows random replays to their end, and by that tells each value found.
random_pictures() {
    local file dropped=0 held=0 waits=0
    rm -rf "$work/random" && mkdir "$work/random" && "$compare" write --to "$work/random" --seed "$seed" --count 80 || return 1
    for file in "$work/random"/*.bin; do
        "$replay_reference" <"$file" >"$work/random.out" && tools/timeline "$file" "$work/random.out" >"$work/random.svg" || { echo "$file"; return 1; }
        dropped=$((dropped + $(grep -c '>dropped</text>' "$work/random.svg")))
        held=$((held + $(grep -c '>held</text>' "$work/random.svg")))
        waits=$((waits + $(grep -c '>for [0-9]* others</text>' "$work/random.svg")))
    done
    echo "$dropped dropped writes, $held holds, $waits waits for several"
    [ "$dropped" -gt 0 ] && [ "$held" -gt 0 ] && [ "$waits" -gt 0 ]
}

# foreign_output NAME EDIT: the time line of an example's input with an edited output.
foreign_output() {
    sed "$2" "examples/$1.expected" >"$work/foreign"
    tools/timeline "$work/$1.bin" "$work/foreign"
}

build_plain

echo "-- examples"
for name in $examples; do
    check "$name on the second program" example "$name" "$replay_reference"
    check "$name on the plain C replay" example "$name" "$plain_replay"
    check "$name to fields and back" decoded "$name"
done
check "hold begins as skew does, with a hold for each read" skew_with_holds

echo "-- the text form"
check "an unknown word" refused 1 "line 2: unknown word 'bogus'" encode_text 'begin 0\nbogus 1\n'
check "a number missing" refused 1 "line 1: read takes 2 numbers, not 1" encode_text 'read 0\nbegin 0\n'
check "a number missing after hold" refused 1 "line 1: hold takes 2 numbers, not 1" encode_text 'hold 0\n'
check "a number too many" refused 1 "line 3: seal takes 1 number, not 2" encode_text '# one\n\nseal 0 0\n'
check "a cell too large" refused 1 "line 1: cell '65536' is not a number from 0 to 65535" encode_text 'read 0 65536\n'
check "a figure too large" refused 1 "line 1: figure '4294967296' is not a number" encode_text 'write 0 0 4294967296\n'
check "a session too large" refused 1 "line 1: session '256' is not a number from 0 to 255" encode_text 'begin 256'
check "a sign" refused 1 "line 1: figure '-4' is not a number" encode_text 'cell 0 -4'
check "a zero byte" refused 1 "line 2: a zero byte" encode_text 'begin 0\nseal\000 0\n'
check "a refused field" decode_refused

echo "-- the time line"
for name in $examples; do
    check "$name without overlapping labels" picture "$name"
done
check "a commit is shown" shows listing "commit"
check "a roll-back is shown" shows listing "rolled back"
check "a wait is shown, and for how many" shows listing "for 1 other"
check "a stored value is shown" shows listing "= 4"
check "a wrong cell line is refused" refused 1 "from line 14 on, the cells are not those that the calls leave" foreign_output listing 's/^c 0 4$/c 0 3/'
check "a missing answer is refused" refused 1 "line 13 is not the answer of call 13" foreign_output listing '/^13 /d'
check "a value that the cell has not is refused" refused 1 "call 3 reads 7 where the cell has 3" foreign_output listing 's/^3 101 3$/3 101 7/'
check "a roll-back past the last lock is refused" refused 1 "call 13 is answered 6 with no cell left to lock" foreign_output listing 's/^13 105$/13 6/'
check "a cell written back has no reader from the seal on" marks written_back "session 1" 23
check "dropped writes are counted" shows written_back "3 cells, 40 calls, 7 transactions, 7 committed, 2 waits, 6 writes dropped"
check "dropped writes are marked, and no others" marks written_back "dropped" "5 6 14 16 17 39"
check "a dropped write is a hollow square" hollow written_back 7
check "commits go by the cells that are changed" marks written_back "commit" "7 8 24 25 26 35 40"
check "a seal that drops nothing is refused" refused 1 "call 7 is answered 102 with 0 cells to publish" foreign_output written_back 's/^7 105$/7 102/'
check "a seal that drops a change is refused" refused 1 "call 22 is answered 105 with 1 cell to publish" foreign_output written_back 's/^22 102$/22 105/'
check "an advance for a dropped write is refused" refused 1 "call 30 is answered 103, advance 3 of 1 cell to publish" \
    foreign_output written_back 's/^30 105$/30 103/'
check "an end with a cell left is refused" refused 1 "call 28 is answered 105, advance 2 of 1 cell to publish" foreign_output written_back 's/^28 103$/28 105/'
check "holds are marked" marks hold "held" "3 4 5 6 20 24 40"
check "a write back to a held cell is not dropped" marks hold "dropped" "22"
check "a held cell is stored with the value found" marks hold "= 5" "16"
check "commits go by the cells that are held or changed" marks hold "commit" "14 32 34 42"
check "holds are counted as calls, and no write of theirs as dropped" shows hold "3 cells, 44 calls, 6 transactions, 4 committed, 2 rolled back, 2 waits, 1 write dropped"
check "a hold of a value that the cell has not is refused" refused 1 "call 4 reads 4 where the cell has 5" foreign_output hold 's/^4 101 5$/4 101 4/'
check "a seal that lets a held cell go is refused" refused 1 "call 41 is answered 105 with 1 cell to publish" foreign_output hold 's/^41 102$/41 105/'
check "an end with a held cell left is refused" refused 1 "call 15 is answered 105, advance 3 of 2 cells to publish" foreign_output hold 's/^15 103$/15 105/'
check "a wait for three others" marks waiting "for 3 others" "15 16"
check "a wait for two others" marks waiting "for 2 others" "18"
check "a wait for one other, which promotes" marks waiting "session 3" "20"
check "waits are counted" shows waiting "2 cells, 27 calls, 5 transactions, 3 committed, 1 rolled back, 1 abandoned, 4 waits, 1 write dropped"
check "a wait without its number is refused" refused 1 "call 9 is answered 104 with 0 numbers after it" foreign_output listing 's/^9 104 1$/9 104/'
check "a wait for none is refused" refused 1 "call 9 waits for 0 with 1 other in the way" foreign_output listing 's/^9 104 1$/9 104 0/'
check "a wait for another number is refused" refused 1 "call 18 waits for 3 with 2 others in the way" foreign_output waiting 's/^18 104 2$/18 104 3/'
check "a wait with nobody in the way is refused" refused 1 "call 11 waits for 0 with 0 others in the way" foreign_output listing 's/^11 103$/11 104 0/'
check "a wait past the last lock is refused" refused 1 "call 12 is answered 104 with no cell left to lock" foreign_output listing 's/^12 103$/12 104 1/'
check "a number after another answer is refused" refused 1 "call 11 is answered 103 with 1 number after it" foreign_output listing 's/^11 103$/11 103 1/'
check "random replays" random_pictures

echo "-- the proved fields, seed $seed"
check "the proved fields are built" proved_fields
check "the proved fields" beside "proved fields" env LD_LIBRARY_PATH="$PWD/target/c/proved" "$compare" fields --seed "$seed" --count 1000000

finish
