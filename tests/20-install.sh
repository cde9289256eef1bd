#!/usr/bin/env bash
# The installed copy: one header, one archive and a pkg-config file. The header stands alone in C99 and in C++, the archive has what the header
# declares and no more, and the firmware example is built against the copy and run, also under valgrind. The stack of each function is measured.
set -uo pipefail
cd "$(dirname "$0")/.."

work=$PWD/target/tests/install
. tests/check.sh
strict="-Wall -Wextra -Werror -pedantic"
prefix=$work/prefix
rm -rf "$prefix"

files() {
    (cd "$prefix" && find . -type f | sort) >"$work/files"
    printf './include/rukkanei.h\n./lib/librukkanei.a\n./lib/pkgconfig/rukkanei.pc\n' | diff - "$work/files" && cmp include/rukkanei.h "$prefix/include/rukkanei.h"
}

# flags: what pkg-config says of the copy; without pkg-config, what the file says.
flags() {
    if command -v pkg-config >/dev/null; then
        PKG_CONFIG_PATH=$prefix/lib/pkgconfig pkg-config --cflags --libs rukkanei
    else
        sed -n 's/^Cflags: //p; s/^Libs: //p' "$prefix/lib/pkgconfig/rukkanei.pc" | sed "s|\${includedir}|$prefix/include|; s|\${libdir}|$prefix/lib|"
    fi
}

exports() {
    grep -o '\brukkanei_[a-z_]*(' "$prefix/include/rukkanei.h" | tr -d '(' | sort >"$work/declared"
    nm -g --defined-only "$prefix/lib/librukkanei.a" | awk '$2 == "T" { print $3 }' | sort | diff "$work/declared" - && [ "$(wc -l <"$work/declared")" -eq 16 ]
}

needs() {
    nm -g --undefined-only "$prefix/lib/librukkanei.a" | awk '$1 == "U" && $2 !~ /^(memcpy|memset)$/ { print "needs " $2; more = 1 } END { exit more }'
}

# alone COMPILER...: a file with the header alone, twice, compiles.
alone() {
    printf '#include "rukkanei.h"\n#include "rukkanei.h"\n' >"$work/header.c"
    "$@" $strict -I"$prefix/include" -c -o "$work/header.o" "$work/header.c"
}

# One C++ program with a field function, calls, many reads and a table of caps of its own.
from_cpp() {
    cat >"$work/begin.cpp" <<'END'
#include "rukkanei.h"
int main() {
    uint32_t values[1] = {3}, logs[RUKKANEI_LOG_WORDS];
    uint8_t classes[1] = {2}, claimants[1], exclusives[1], field[RUKKANEI_FIELD_MAX];
    uint16_t readers[1];
    const uint32_t cells[2] = {0, 0};
    const uint32_t new_caps[RUKKANEI_CAPS] = {1, 2, 3, 4, 5, 6, 7, 8, 9, 10, 11, 12, 13, 14, 15, 16};
    uint32_t caps[RUKKANEI_CAPS] = {10, 20, 30, 40, 50, 60, 70, 80, 90, 100, 110, 120, 130, 140, 150, 160};
    uint32_t target[2];
    size_t length;
    rukkanei_set_up_reply up = rukkanei_set_up(rukkanei_sessions(), values, 1, classes, 1, readers, 1, claimants, 1, exclusives, 1, logs, RUKKANEI_LOG_WORDS);
    rukkanei_reply begun = rukkanei_begin(up.sessions.records[15], values, 1, classes, 1, readers, 1, claimants, 1, exclusives, 1, logs, RUKKANEI_LOG_WORDS, 15);
    rukkanei_read_many_reply got = rukkanei_read_many(begun.session, values, 1, classes, 1, readers, 1, claimants, 1, exclusives, 1, logs, RUKKANEI_LOG_WORDS, 15,
                                                      cells, 2, target, 2);
    rukkanei_reply held = rukkanei_hold(got.session, values, 1, classes, 1, readers, 1, claimants, 1, exclusives, 1, logs, RUKKANEI_LOG_WORDS, 15, 0);
    const uint32_t held_mark = logs[128 * 15 + 3];
    rukkanei_set_up_reply own = rukkanei_set_up_with_caps(up.sessions, values, 1, classes, 1, readers, 1, claimants, 1, exclusives, 1, logs,
                                                          RUKKANEI_LOG_WORDS, caps, RUKKANEI_CAPS);
    rukkanei_set_up_reply loaded = rukkanei_load_caps(own.sessions, values, 1, classes, 1, readers, 1, claimants, 1, exclusives, 1, logs, RUKKANEI_LOG_WORDS,
                                                      caps, RUKKANEI_CAPS, new_caps, RUKKANEI_CAPS);
    rukkanei_reply open = rukkanei_begin(loaded.sessions.records[0], values, 1, classes, 1, readers, 1, claimants, 1, exclusives, 1, logs, RUKKANEI_LOG_WORDS, 0);
    rukkanei_reply above = rukkanei_write_with_caps(open.session, values, 1, classes, 1, readers, 1, claimants, 1, exclusives, 1, logs, RUKKANEI_LOG_WORDS,
                                                    caps, RUKKANEI_CAPS, 0, 0, 4);
    return up.number == RUKKANEI_DONE && begun.number == RUKKANEI_DONE && begun.session.phase == 1 &&
           got.number == RUKKANEI_VALUE && got.count == 2 && got.session.count == 1 && target[0] == 3 && target[1] == 3 &&
           held.number == RUKKANEI_VALUE && held.value == 3 && held.session.count == 1 && held_mark == 2 &&
           own.number == RUKKANEI_DONE && loaded.number == RUKKANEI_DONE && caps[15] == 16 && above.number == RUKKANEI_ABOVE_CAP &&
           rukkanei_field_write(field, sizeof field, RUKKANEI_TAG_BEGIN, 15, 0, 0, 0, &length) == RUKKANEI_DONE && length == 4 ? 0 : 1;
}
END
    g++ $strict -std=c++11 "$work/begin.cpp" $(flags) -o "$work/begin" && "$work/begin"
}

firmware() {
    gcc $strict -std=c99 -O2 examples/firmware/firmware.c $(flags) -o "$work/firmware"
}

same_output() {
    "$work/firmware" >"$work/firmware.txt" && diff examples/firmware/expected.txt "$work/firmware.txt"
}

stack() {
    gcc $strict -std=gnu99 -O2 tests/c/stack.c $(flags) -o "$work/stack" && "$work/stack"
}

check "it is installed" bash scripts/install "$prefix"
check "three files, and the header as it stands" files
check "the archive has the sixteen functions that the header declares, and no other" exports
check "the archive needs nothing but memcpy and memset" needs
check "the header stands alone in C99" alone gcc -std=c99
check "the header stands alone in C++" alone g++ -x c++ -std=c++98
check "a C++ program" from_cpp
check "the firmware example is built against the copy" firmware
check "the firmware example prints what is expected" same_output
check "no function takes 512 bytes of stack" stack
check "the firmware example is clean under valgrind" valgrind -q --leak-check=full --error-exitcode=9 "$work/firmware"

finish
