#!/usr/bin/env python3
"""Shows that the comparison has teeth: edits the plain C store and the plain C replay into wrong ones, and asks that each is told from the second
program.

Usage: wrong_stores.py COMPARE TARGET [SEED]. COMPARE is the comparison linked with libplain.so, TARGET a directory to build in."""

import os
import signal
import subprocess
import sys

ROOT = os.path.dirname(os.path.dirname(os.path.dirname(os.path.abspath(__file__))))
STORE = os.path.join(ROOT, "benches/c/plain_store.c")
REPLAYER = os.path.join(ROOT, "benches/c/plain_replay.c")
FIELDS = os.path.join(ROOT, "tests/plain_fields.c")

# Most of the time is the compiler's: at -O1 the whole takes twice as long.
FLAGS = ["-O0", "-std=c99", "-fPIC", "-I" + os.path.join(ROOT, "benches/c"), "-I" + os.path.join(ROOT, "tools/src")]

CRASHES = (-signal.SIGSEGV, -signal.SIGBUS, -signal.SIGABRT)
REPLAY, RUN, BUFFERS = "on replays", "in runs", "on arbitrary buffers"

# The search for a cell's entry, and the test of the entries' cells.
SEARCH = "    while (i < count && log[PLAIN_ENTRY_WORDS * i + CELL] != cell) {\n        i++;\n    }\n    return i;\n"
JUDGED = "    for (uint32_t i = 0; i < record.count; i++) {\n        stray |= log[PLAIN_ENTRY_WORDS * i + CELL] >= n;\n"

# What counts as written from the seal on, and what a write and a hold leave in the fourth word.
CHANGED = "    uint32_t changed = entry[CURRENT_VALUE] != entry[SNAPSHOT_VALUE];\n"
PUBLISHES = "    return (entry[MARKS] & (HELD | DIRTY * changed)) != 0;\n"
WRITTEN = "    entry[MARKS] = DIRTY | (entry[MARKS] & HELD);\n"
HOLD = "    plain_answer found = read_entry(lent, sessions, session, cell, &entry);\n    if (found.number == 101) {\n"
MARKED = "        entry[MARKS] = HELD | (entry[MARKS] & DIRTY);\n"

# What a promotion waits for, and what it answers then; the number of the others.
OTHERS = "        uint32_t others = lent->readers[cell] & ~(1u << session);\n"
NUMBER = "(uint32_t)__builtin_popcount(others)"
WAITS = "            plain_answer waiting = {104, " + NUMBER + "};\n            return waiting;\n"
WAIT = "        if (others) {\n" + WAITS + "        }\n"
CLAIM = "        lent->claimants[cell] = session;\n"
CLAIMED = "            roll_back(lent, record, session);\n            return answer(6);\n        }\n" + CLAIM

# What a table, a set-up by one and a load are judged by, in the order of the tests.
RISES = "        rises &= caps[k - 1] < caps[k];\n"
PASSES = "    int rises = caps[0] > 0;\n    for (int k = 1; k < PLAIN_CAPS; k++) {\n" + RISES
SET_UP_LENGTHS = "    if (!lengths_fit(lent) || caps_len != PLAIN_CAPS) {\n        return answer(7);\n    }\n"
SET_UP_UNFIT = "    if (!passes(caps)) {\n        return answer(16);\n    }\n"
LOAD_LENGTHS = "    if (!lengths_fit(lent) || caps_len != PLAIN_CAPS || new_caps_len != PLAIN_CAPS) {\n        return answer(7);\n    }\n"
PHASES = "    uint8_t phases = IDLE;\n    for (int s = 0; s < PLAIN_SESSIONS; s++) {\n        phases |= sessions[s].phase;\n    }\n"
LOAD_IDLE = PHASES + "    if (phases != IDLE) {\n        return answer(2);\n    }\n"
LOAD_UNFIT = "    if (!passes(new_caps)) {\n        return answer(16);\n    }\n"
LOAD_CLASS = "        if (class > PLAIN_MAX_CLASS) {\n            return answer(8);\n        }\n"
LOAD_CELLS = ("    int above = 0;\n    for (size_t i = 0; i < lent->values_len; i++) {\n        uint8_t class = lent->classes[i];\n" + LOAD_CLASS +
              "        above |= lent->values[i] > new_caps[class];\n    }\n    if (above) {\n        return answer(17);\n    }\n")
LOAD_COPY = "    memcpy(caps, new_caps, PLAIN_CAPS * sizeof caps[0]);\n"
WRITE_LENGTH = "    if (caps_len != PLAIN_CAPS) {\n        return answer(7);\n    }\n"
WRITE_BY_TABLE = "    return write_by(lent, sessions, caps, session, cell, value);\n"

# Each wrong store: its name, where it must show, and the edit, an old text and a new one or several such pairs. Those that show on replays or in runs
# must show on arbitrary buffers too.
EDITS = [
    ("reader locks dropped after each read", REPLAY,
     "    lent->readers[cell] |= (uint16_t)(1u << session);\n", ""),
    ("read-only locks kept past the seal", REPLAY,
     "        } else {\n            leave(lent, session, cell);\n        }\n", "        }\n"),
    ("new readers let in past a claim", REPLAY,
     "    if (lent->claimants[cell] != PLAIN_NOBODY) {\n", "    if (0) {\n"),
    ("publishing while a later written cell is unpromoted", REPLAY,
     "    if (step.more) {", "    if (record->phase != PROMOTING && step.more) {"),
    ("freeing one cell before the last is published", REPLAY,
     "    if (step.more) {", "    if (record->phase != PUBLISHING && step.more) {"),
    ("6 to every new read", REPLAY,
     "    if (lent->claimants[cell] != PLAIN_NOBODY) {\n", "    if (1) {\n"),
    ("104 before looking at the readers", REPLAY,
     "        if (others) {", "        if (claimant == PLAIN_NOBODY || others) {"),
    ("everything published at the first promotion, and phase 3 a pretence", REPLAY,
     "        lent->exclusives[cell] = 1;\n    } else if (record->phase == PUBLISHING) {\n        lent->values[cell] = entry[CURRENT_VALUE];\n",
     "        lent->exclusives[cell] = 1;\n"
     "        const uint32_t *log = entry_at(lent, session, 0);\n"
     "        for (uint32_t i = 0; record->next == 0 && i < record->count; i++) {\n"
     "            const uint32_t *e = entry_at(lent, session, i);\n"
     "            if (publishes(e) && is_first(log, i)) {\n"
     "                lent->values[e[CELL]] = e[CURRENT_VALUE];\n"
     "            }\n"
     "        }\n"
     "    } else if (record->phase == PUBLISHING) {\n"
     "        ;\n"),
    ("each value published with its promotion", REPLAY,
     "        lent->exclusives[cell] = 1;\n", "        lent->exclusives[cell] = 1;\n        lent->values[cell] = entry[CURRENT_VALUE];\n"),
    ("105 with values unpublished", REPLAY,
     "        lent->values[cell] = entry[CURRENT_VALUE];\n", "        ;\n"),
    ("100 and nothing logged", REPLAY,
     "    entry[CURRENT_VALUE] = value;\n" + WRITTEN, "    (void)entry;\n"),
    ("101 with the same value each time", REPLAY,
     "plain_answer found = {101, (*entry)[CURRENT_VALUE]};", "plain_answer found = {101, 3};"),
    ("a claimant waited for and not met with 6", REPLAY,
     CLAIMED + OTHERS, OTHERS + "            plain_answer waiting = {104, " + NUMBER + "};\n            return waiting;\n        }\n" + CLAIM + OTHERS),
    ("a wait without a claim", REPLAY,
     CLAIM + OTHERS + WAIT, OTHERS + WAIT + CLAIM),
    ("a claim kept over a roll-back", REPLAY,
     "            lent->claimants[cell] = PLAIN_NOBODY;\n            lent->exclusives[cell] = 0;\n        }\n    }\n    go_idle",
     "            lent->exclusives[cell] = 0;\n        }\n    }\n    go_idle"),
    ("abandon let through while publishing", REPLAY,
     "    if (record->phase != RUNNING && record->phase != PROMOTING) {", "    if (record->phase == IDLE || record->phase == RELEASING) {"),
    ("a 32nd cell refused", REPLAY,
     "    if (i == PLAIN_MAX_ENTRIES) {", "    if (i >= PLAIN_MAX_ENTRIES - 1) {"),
    ("a full log told after the claim", BUFFERS,
     "    if (i == PLAIN_MAX_ENTRIES) {", "    if (i == PLAIN_MAX_ENTRIES && lent->claimants[cell] == PLAIN_NOBODY) {"),
    ("any entry that publishes counted, not the first of its cell", BUFFERS,
     " || !is_first(log, i)) {", ") {"),
    ("the next written cell in the order of the log", REPLAY,
     "        if (cell < lowest) {\n", "        if (!step.more) {\n"),
    ("later entries of a cell judged at the seal", BUFFERS,
     "            continue;\n        }\n        seen", "            ;\n        }\n        seen"),
    ("the fourth word judged whole", BUFFERS,
     PUBLISHES, "    return (entry[MARKS] & HELD) || (entry[MARKS] && changed);\n"),
    ("the own bit counted among the readers", BUFFERS,
     "        if (others) {",
     "        uint32_t all = lent->readers[cell];\n        if (all & (all - 1)) {"),
    ("claimants above 16 taken for nobody", BUFFERS,
     "        if (claimant != PLAIN_NOBODY && claimant != session) {", "        if (claimant < PLAIN_NOBODY && claimant != session) {"),
    ("a mark kept over a roll-back", BUFFERS,
     "            lent->exclusives[cell] = 0;\n        }\n    }\n    go_idle", "        }\n    }\n    go_idle"),
    ("a mark kept over the release", BUFFERS,
     "        lent->claimants[cell] = PLAIN_NOBODY;\n        lent->exclusives[cell] = 0;\n    }\n    if (step",
     "        lent->claimants[cell] = PLAIN_NOBODY;\n    }\n    if (step"),
    ("only one's own lock freed at the release", BUFFERS,
     "        leave(lent, session, cell);\n        lent->claimants[cell] = PLAIN_NOBODY;\n",
     "        leave(lent, session, cell);\n        if (lent->claimants[cell] == session)\n            lent->claimants[cell] = PLAIN_NOBODY;\n"),
    ("records judged in the idle phase too", BUFFERS,
     "    if (record.phase == IDLE) {\n        return 0;\n    }\n", ""),
    ("no 9 without a written cell left while publishing", BUFFERS,
     "        if (step->entry == record.count) {", "        if (step->entry == record.count && record.phase != PUBLISHING) {"),
    ("a peek of an unwritten cell from the log", BUFFERS,
     "    part.words = entry[MARKS] & DIRTY ? &entry[CURRENT_VALUE] : &lent->values[cell];", "    part.words = &entry[CURRENT_VALUE];"),
    ("a peek of a written cell from the snapshot value", BUFFERS,
     "? &entry[CURRENT_VALUE] : &lent", "? &entry[SNAPSHOT_VALUE] : &lent"),
    ("set-up that leaves the logs", BUFFERS,
     "    memset(lent->logs, 0, PLAIN_LOG_WORDS * sizeof lent->logs[0]);\n", ""),
    ("lengths of the marks not judged", BUFFERS,
     " && lent->exclusives_len == n", ""),
    ("written back: counted as written", REPLAY,
     PUBLISHES, "    return (entry[MARKS] & (HELD | DIRTY)) != 0;\n"),
    ("written back: another value counted without the written bit", BUFFERS,
     PUBLISHES, "    return (entry[MARKS] & HELD) || changed;\n"),
    ("written back: half of each value compared", BUFFERS,
     CHANGED, "    uint32_t changed = (uint16_t)entry[CURRENT_VALUE] != (uint16_t)entry[SNAPSHOT_VALUE];\n"),
    ("written back: only a larger value counted", REPLAY,
     CHANGED, CHANGED.replace("!=", ">")),
    ("written back: compared with the store's value at the seal", BUFFERS,
     "        if (publishes(entry)) {\n", "        if (entry[MARKS] & HELD || (entry[MARKS] & DIRTY && entry[CURRENT_VALUE] != lent->values[cell])) {\n"),
    ("written back: compared with the store's value on an advance", REPLAY,
     "lowest_publishing(const uint32_t *log, ", "lowest_publishing(const uint32_t *values, const uint32_t *log, ",
     "        if (!publishes(entry) || ", "        if (!(entry[MARKS] & HELD || (entry[MARKS] & DIRTY && entry[CURRENT_VALUE] != values[cell])) || ",
     "lowest_publishing(log, ", "lowest_publishing(lent->values, log, "),
    ("written back: compared with the value before the write", REPLAY,
     "    entry[CURRENT_VALUE] = value;\n" + WRITTEN,
     "    entry[MARKS] = (entry[CURRENT_VALUE] != value) | (entry[MARKS] & HELD);\n    entry[CURRENT_VALUE] = value;\n"),
    ("written back: the first write of a new cell taken for the value found", REPLAY,
     "    uint32_t *entry;\n    refused = enter(lent, &sessions[session], session, cell, &entry);\n    if (refused) {\n        return answer(refused);\n    }\n"
     "    entry[CURRENT_VALUE] = value;\n",
     "    uint32_t *entry;\n    uint8_t count = sessions[session].count;\n    refused = enter(lent, &sessions[session], session, cell, &entry);\n"
     "    if (refused) {\n        return answer(refused);\n    }\n"
     "    if (sessions[session].count > count) {\n        entry[SNAPSHOT_VALUE] = value;\n    }\n"
     "    entry[CURRENT_VALUE] = value;\n"),
    ("written back: dropped for good, though another value comes after it", REPLAY,
     WRITTEN, "    entry[MARKS] = DIRTY | (entry[MARKS] & (HELD | 4)) | (value == entry[SNAPSHOT_VALUE] ? 4 : 0);\n",
     PUBLISHES, "    return (entry[MARKS] & HELD) || ((entry[MARKS] & 5) == DIRTY && changed);\n"),
    ("written back: the write ignored, so that a change before it stays", REPLAY,
     "    entry[CURRENT_VALUE] = value;\n" + WRITTEN,
     "    if (value != entry[SNAPSHOT_VALUE]) {\n        entry[CURRENT_VALUE] = value;\n    }\n" + WRITTEN),
    ("written back: a new cell not entered", REPLAY,
     "    if (value > caps[class]) {\n        return answer(4);\n    }\n",
     "    if (value > caps[class]) {\n        return answer(4);\n    }\n"
     "    uint32_t count = sessions[session].count;\n"
     "    if (value == lent->values[cell] && find(entry_at(lent, session, 0), count, cell) == count && lent->claimants[cell] == PLAIN_NOBODY &&\n"
     "        count < PLAIN_MAX_ENTRIES) {\n        return answer(100);\n    }\n"),
    ("written back: no written bit set", RUN,
     WRITTEN, "    entry[MARKS] = (entry[SNAPSHOT_VALUE] != value) | (entry[MARKS] & HELD);\n"),
    ("written back: the written bit cleared at the seal", RUN,
     "        } else {\n            leave(lent, session, cell);\n",
     "        } else {\n            entry_at(lent, session, i)[MARKS] = 0;\n            leave(lent, session, cell);\n"),
    ("written back: the reader lock kept where another cell is changed", REPLAY,
     "        } else {\n            leave(lent, session, cell);\n        }\n    }\n    if (!any) {\n",
     "        } else if (!(entry[MARKS] & DIRTY)) {\n            leave(lent, session, cell);\n        }\n    }\n    if (!any) {\n"
     "        for (uint32_t i = 0; i < record->count; i++) {\n            leave(lent, session, log[PLAIN_ENTRY_WORDS * i + CELL]);\n        }\n"),
    ("written back: let go by the old rule, answered by the new one", REPLAY,
     "        } else {\n            leave(lent, session, cell);\n", "        } else if (!(entry[MARKS] & DIRTY)) {\n            leave(lent, session, cell);\n"),
    ("written back: let go by the new rule, answered by the old one", REPLAY,
     "            any = 1;\n        } else {\n", "            any = 1;\n        } else {\n            any |= entry[MARKS] & DIRTY;\n"),
    ("written back: passed by but in the promotion", REPLAY,
     "uint32_t count, uint32_t from)\n", "uint32_t count, uint32_t from, uint8_t phase)\n",
     "        if (!publishes(entry) || ", "        if (!(phase == PROMOTING ? (entry[MARKS] & (HELD | DIRTY)) != 0 : publishes(entry)) || ",
     "record.count, record.next)", "record.count, record.next, record.phase)"),
    ("written back: passed by but in the publication", REPLAY,
     "uint32_t count, uint32_t from)\n", "uint32_t count, uint32_t from, uint8_t phase)\n",
     "        if (!publishes(entry) || ", "        if (!(phase == PUBLISHING ? (entry[MARKS] & (HELD | DIRTY)) != 0 : publishes(entry)) || ",
     "record.count, record.next)", "record.count, record.next, record.phase)"),
    ("written back: passed by but in the release", REPLAY,
     "uint32_t count, uint32_t from)\n", "uint32_t count, uint32_t from, uint8_t phase)\n",
     "        if (!publishes(entry) || ", "        if (!(phase == RELEASING ? (entry[MARKS] & (HELD | DIRTY)) != 0 : publishes(entry)) || ",
     "record.count, record.next)", "record.count, record.next, record.phase)"),
    ("written back: passed by below the cell and not above it", REPLAY,
     "        if (cell < lowest) {\n            step.entry = i;\n            lowest = cell;\n        }\n    }\n",
     "        if (cell < lowest) {\n            step.entry = i;\n            lowest = cell;\n        }\n    }\n"
     "    for (uint32_t i = 0; step.entry < count && i < count; i++) {\n"
     "        step.more |= log[PLAIN_ENTRY_WORDS * i + CELL] > lowest && (log[PLAIN_ENTRY_WORDS * i + MARKS] & DIRTY) && is_first(log, i);\n"
     "    }\n"),
    ("written back: 9 by the old rule", BUFFERS,
     "        if (step->entry == record.count) {\n",
     "        int left = 0;\n"
     "        for (uint32_t i = 0; i < record.count; i++) {\n"
     "            const uint32_t *entry = log + PLAIN_ENTRY_WORDS * i;\n"
     "            left |= (entry[MARKS] & (HELD | DIRTY)) && entry[CELL] >= record.next && is_first(log, i);\n"
     "        }\n"
     "        if (!left) {\n",
     "    if (record->phase < PROMOTING) {\n", "    if (record->phase < PROMOTING || step.entry == record->count) {\n"),
    ("written back: the last entry of a cell judged at the seal", BUFFERS,
     "        if (publishes(entry)) {\n",
     "        for (uint32_t j = i + 1; j < record->count; j++) {\n"
     "            entry = log[PLAIN_ENTRY_WORDS * j + CELL] == cell ? log + PLAIN_ENTRY_WORDS * j : entry;\n"
     "        }\n"
     "        if (publishes(entry)) {\n"),
    ("written back: a cell's first changed entry taken on an advance", BUFFERS,
     " || !is_first(log, i)) {\n            continue;\n        }\n",
     ") {\n            continue;\n        }\n"
     "        int again = 0;\n"
     "        for (uint32_t j = 0; j < i; j++) {\n"
     "            again |= log[PLAIN_ENTRY_WORDS * j + CELL] == cell && (publishes(log + PLAIN_ENTRY_WORDS * j) || !(log[PLAIN_ENTRY_WORDS * j + MARKS] & DIRTY));\n"
     "        }\n"
     "        if (again) {\n            continue;\n        }\n"),
    ("written back: peeked in the store", RUN,
     "    part.words = entry[MARKS] & DIRTY ? ", "    part.words = entry[MARKS] & DIRTY && entry[CURRENT_VALUE] != entry[SNAPSHOT_VALUE] ? "),
    ("hold: a read and nothing else", REPLAY,
     MARKED, ""),
    ("hold: a read that holds", REPLAY,
     "    uint32_t *entry;\n    return read_entry(lent, sessions, session, cell, &entry);\n", "    return plain_hold(lent, sessions, session, cell);\n"),
    ("hold: many reads that hold", RUN,
     "        target[got] = entry[CURRENT_VALUE];\n", "        target[got] = entry[CURRENT_VALUE];\n        entry[MARKS] |= HELD;\n"),
    ("hold: higher bits kept", BUFFERS,
     MARKED, "        entry[MARKS] |= HELD;\n"),
    ("hold: the written mark dropped", RUN,
     MARKED, "        entry[MARKS] = HELD;\n"),
    ("hold: marked written too", RUN,
     MARKED, "        entry[MARKS] = HELD | DIRTY;\n"),
    ("hold: a known cell marked written too", RUN,
     HOLD, "    uint8_t count = sessions[session % PLAIN_SESSIONS].count;\n" + HOLD,
     MARKED, MARKED + "        entry[MARKS] |= sessions[session].count == count;\n"),
    ("hold: marked written and not held", REPLAY,
     MARKED, "        entry[MARKS] = DIRTY | (entry[MARKS] & HELD);\n"),
    ("hold: held where it was not, let go where it was", REPLAY,
     MARKED, "        entry[MARKS] = (entry[MARKS] ^ HELD) & (HELD | DIRTY);\n"),
    ("hold: forgotten by a write", REPLAY,
     WRITTEN, "    entry[MARKS] = DIRTY;\n"),
    ("hold: forgotten by a write of the value found", REPLAY,
     WRITTEN, "    entry[MARKS] = DIRTY | (value == entry[SNAPSHOT_VALUE] ? 0 : entry[MARKS] & HELD);\n"),
    ("hold: a write that holds", REPLAY,
     WRITTEN, "    entry[MARKS] = DIRTY | HELD;\n"),
    ("hold: a change that holds, so that the value found put back is not dropped", REPLAY,
     WRITTEN, "    entry[MARKS] = DIRTY | (value != entry[SNAPSHOT_VALUE] ? HELD : entry[MARKS] & HELD);\n"),
    ("hold: higher bits kept by a write", BUFFERS,
     WRITTEN, "    entry[MARKS] |= DIRTY;\n"),
    ("hold: the mark of an old entry kept by a new one", REPLAY,
     "    (*entry)[MARKS] = 0;\n", "    (*entry)[MARKS] &= HELD;\n"),
    ("hold: a new cell not marked", REPLAY,
     HOLD, "    uint8_t count = sessions[session % PLAIN_SESSIONS].count;\n" + HOLD.replace("== 101", "== 101 && sessions[session].count == count")),
    ("hold: a known cell not marked", REPLAY,
     HOLD, "    uint8_t count = sessions[session % PLAIN_SESSIONS].count;\n" + HOLD.replace("== 101", "== 101 && sessions[session].count > count")),
    ("hold: the last entry marked, whatever its cell", REPLAY,
     MARKED, "        entry = entry_at(lent, session, sessions[session].count - 1u);\n" + MARKED),
    ("hold: the last entry of the cell marked", BUFFERS,
     MARKED, "        for (uint32_t i = 0; i < sessions[session].count; i++) {\n"
     "            entry = entry_at(lent, session, i)[CELL] == cell ? entry_at(lent, session, i) : entry;\n        }\n" + MARKED),
    ("hold: the value found answered", REPLAY,
     MARKED, MARKED + "        found.value = entry[SNAPSHOT_VALUE];\n"),
    ("hold: the store's value answered", REPLAY,
     MARKED, MARKED + "        found.value = lent->values[cell];\n"),
    ("hold: no value answered", REPLAY,
     MARKED, MARKED + "        found.value = 0;\n"),
    ("hold: let in past a claim", REPLAY,
     HOLD, "    uint8_t none, *claimant = cell < lent->claimants_len ? &lent->claimants[cell] : &none, kept = *claimant;\n    *claimant = PLAIN_NOBODY;\n"
     + HOLD.replace(";\n    if", ";\n    *claimant = kept;\n    if")),
    ("hold: 6 to a known cell that another claims", REPLAY,
     MARKED, "        if (lent->claimants[cell] != PLAIN_NOBODY) {\n            roll_back(lent, &sessions[session], session);\n"
     "            return answer(6);\n        }\n" + MARKED),
    ("hold: still running after 6", REPLAY,
     HOLD, "    plain_session kept = sessions[session % PLAIN_SESSIONS];\n"
     + HOLD.replace("    if", "    if (found.number == 6) {\n        sessions[session] = kept;\n    }\n    if")),
    ("hold: the readers not joined", REPLAY,
     HOLD, "    uint8_t count = sessions[session % PLAIN_SESSIONS].count;\n" + HOLD,
     MARKED, "        if (sessions[session].count > count) {\n            leave(lent, session, cell);\n        }\n" + MARKED),
    ("hold: nothing in a full log", REPLAY,
     HOLD, HOLD.replace("    if", "    if (found.number == 101 && sessions[session].count == PLAIN_MAX_ENTRIES) {\n        return answer(5);\n    }\n    if")),
    ("hold: let through while promoting", REPLAY,
     HOLD, "    plain_session *record = &sessions[session % PLAIN_SESSIONS];\n    int promoting = record->phase == PROMOTING;\n"
     "    record->phase = promoting ? RUNNING : record->phase;\n" + HOLD.replace("    if", "    record->phase = promoting && record->phase ? PROMOTING : record->phase;\n    if")),
    ("hold: the cell's class judged", BUFFERS,
     MARKED, MARKED + "        if (lent->classes[cell] > PLAIN_MAX_CLASS) {\n            return answer(8);\n        }\n"),
    ("hold: unchanged cells let go at the seal", REPLAY,
     "        if (publishes(entry)) {\n", "        if (publishes(entry) && entry[CURRENT_VALUE] != entry[SNAPSHOT_VALUE]) {\n"),
    ("hold: the readers of unchanged cells left at the seal", REPLAY,
     "            any = 1;\n", "            any = 1;\n            if (entry[CURRENT_VALUE] == entry[SNAPSHOT_VALUE]) {\n                leave(lent, session, cell);\n            }\n"),
    ("hold: a commit at the seal where nothing is changed", REPLAY,
     "            any = 1;\n", "            any |= entry[MARKS] & DIRTY && entry[CURRENT_VALUE] != entry[SNAPSHOT_VALUE];\n"),
    ("hold: a commit at the seal where nothing is written", REPLAY,
     "            any = 1;\n", "            any |= (entry[MARKS] & DIRTY) != 0;\n"),
    ("hold: dropped where it is written back", REPLAY,
     PUBLISHES, "    return entry[MARKS] & DIRTY ? changed : (entry[MARKS] & HELD) != 0;\n"),
    ("hold: nothing where it is not written", REPLAY,
     PUBLISHES, "    return (entry[MARKS] & DIRTY) && ((entry[MARKS] & HELD) || changed);\n"),
    ("hold: only with another value than the one found", REPLAY,
     PUBLISHES, "    return (entry[MARKS] & (HELD | DIRTY)) && changed;\n"),
    ("hold: a word from 2 on taken for held", BUFFERS,
     PUBLISHES, "    return entry[MARKS] >= HELD || (entry[MARKS] & DIRTY && changed);\n"),
    ("hold: a word of 2 alone taken for held", REPLAY,
     PUBLISHES, "    return entry[MARKS] == HELD || (entry[MARKS] & DIRTY && changed);\n"),
    ("hold: a word of 2 or 3 alone taken for held", BUFFERS,
     PUBLISHES, "    return entry[MARKS] / 2 == 1 || (entry[MARKS] & DIRTY && changed);\n"),
    ("hold: bit 2 taken for bit 1", REPLAY,
     PUBLISHES, "    return (entry[MARKS] & (4 | DIRTY * changed)) != 0;\n"),
    ("hold: any entry of a cell counted at the seal", BUFFERS,
     "        if (publishes(entry)) {\n",
     "        int held = 0;\n"
     "        for (uint32_t j = i; j < record->count; j++) {\n"
     "            held |= log[PLAIN_ENTRY_WORDS * j + CELL] == cell && (log[PLAIN_ENTRY_WORDS * j + MARKS] & HELD);\n"
     "        }\n"
     "        if (held || publishes(entry)) {\n"),
    ("hold: any held entry of a cell counted on an advance", BUFFERS,
     " || !is_first(log, i)) {\n            continue;\n        }\n",
     " || !(is_first(log, i) || entry[MARKS] & HELD)) {\n            continue;\n        }\n"),
    ("hold: passed by in the promotion", REPLAY,
     "uint32_t count, uint32_t from)\n", "uint32_t count, uint32_t from, uint8_t phase)\n",
     "        if (!publishes(entry) || ", "        if (!publishes(entry) || (phase == PROMOTING && entry[CURRENT_VALUE] == entry[SNAPSHOT_VALUE]) || ",
     "record.count, record.next)", "record.count, record.next, record.phase)"),
    ("hold: passed by in the publication", REPLAY,
     "uint32_t count, uint32_t from)\n", "uint32_t count, uint32_t from, uint8_t phase)\n",
     "        if (!publishes(entry) || ", "        if (!publishes(entry) || (phase == PUBLISHING && entry[CURRENT_VALUE] == entry[SNAPSHOT_VALUE]) || ",
     "record.count, record.next)", "record.count, record.next, record.phase)"),
    ("hold: passed by in the release", REPLAY,
     "uint32_t count, uint32_t from)\n", "uint32_t count, uint32_t from, uint8_t phase)\n",
     "        if (!publishes(entry) || ", "        if (!publishes(entry) || (phase == RELEASING && entry[CURRENT_VALUE] == entry[SNAPSHOT_VALUE]) || ",
     "record.count, record.next)", "record.count, record.next, record.phase)"),
    ("hold: 9 by the changed cells alone", REPLAY,
     "        if (step->entry == record.count) {\n",
     "        int left = 0;\n"
     "        for (uint32_t i = 0; i < record.count; i++) {\n"
     "            const uint32_t *entry = log + PLAIN_ENTRY_WORDS * i;\n"
     "            left |= (entry[MARKS] & DIRTY) && entry[CURRENT_VALUE] != entry[SNAPSHOT_VALUE] && entry[CELL] >= record.next && is_first(log, i);\n"
     "        }\n"
     "        if (!left) {\n"),
    ("hold: an unchanged cell not stored", BUFFERS,
     "        lent->values[cell] = entry[CURRENT_VALUE];\n",
     "        if (entry[CURRENT_VALUE] != entry[SNAPSHOT_VALUE]) {\n            lent->values[cell] = entry[CURRENT_VALUE];\n        }\n"),
    ("hold: an unwritten cell not stored", BUFFERS,
     "        lent->values[cell] = entry[CURRENT_VALUE];\n",
     "        if (entry[MARKS] & DIRTY) {\n            lent->values[cell] = entry[CURRENT_VALUE];\n        }\n"),
    ("hold: an unwritten cell stored with the value found", BUFFERS,
     "        lent->values[cell] = entry[CURRENT_VALUE];\n", "        lent->values[cell] = entry[MARKS] & DIRTY ? entry[CURRENT_VALUE] : entry[SNAPSHOT_VALUE];\n"),
    ("hold: stored with the value found, written or not", REPLAY,
     "        lent->values[cell] = entry[CURRENT_VALUE];\n", "        lent->values[cell] = entry[MARKS] & HELD ? entry[SNAPSHOT_VALUE] : entry[CURRENT_VALUE];\n"),
    ("hold: promoted past other readers where unchanged", REPLAY,
     "        if (others) {", "        if (entry[CURRENT_VALUE] != entry[SNAPSHOT_VALUE] && others) {"),
    ("hold: kept over a roll-back", REPLAY,
     "        leave(lent, session, cell);\n        if (lent->claimants[cell] == session) {\n",
     "        if (log[PLAIN_ENTRY_WORDS * i + MARKS] & HELD) {\n            continue;\n        }\n"
     "        leave(lent, session, cell);\n        if (lent->claimants[cell] == session) {\n"),
    ("hold: peeked in the log", RUN,
     "    part.words = entry[MARKS] & DIRTY ? ", "    part.words = entry[MARKS] & (HELD | DIRTY) ? "),
    ("hold: a held and written cell peeked in the store", RUN,
     "    part.words = entry[MARKS] & DIRTY ? ", "    part.words = (entry[MARKS] & (HELD | DIRTY)) == DIRTY ? "),
    ("many reads: one more after a refusal", RUN,
     "            return many_answer(3, got);\n",
     "            if (got + 1 < cells_len) {\n"
     "                plain_read(lent, sessions, session, cells[got + 1]);\n"
     "            }\n"
     "            return many_answer(3, got);\n"),
    ("many reads: reading on past a cell that is not there", RUN,
     "        if (cell >= lent->values_len) {\n            return many_answer(3, got);\n        }\n",
     "        if (cell >= lent->values_len) {\n            continue;\n        }\n"),
    ("many reads: reading on after the roll-back", RUN,
     "        if (refused) {\n            return many_answer(refused, got);\n        }\n",
     "        if (refused == 6) {\n            continue;\n        }\n"
     "        if (refused) {\n            return many_answer(refused, got);\n        }\n"),
    ("many reads: a claim told without rolling back what the list read", RUN,
     "    for (uint32_t got = 0; got < cells_len; got++) {\n        uint32_t cell = cells[got];\n",
     "    for (uint32_t got = 0; got < cells_len; got++) {\n        uint32_t cell = cells[got];\n"
     "        uint32_t count = sessions[session].count;\n"
     "        if (got > 0 && cell < lent->values_len && count < PLAIN_MAX_ENTRIES && lent->claimants[cell] != PLAIN_NOBODY &&\n"
     "            find(entry_at(lent, session, 0), count, cell) == count) {\n"
     "            return many_answer(6, got);\n"
     "        }\n"),
    ("many reads: the target's next word touched", RUN,
     "        target[got] = entry[CURRENT_VALUE];\n", "        target[got] = entry[CURRENT_VALUE];\n        target[got + 1] = 0;\n"),
    ("many reads: 0 in the target where a read is refused", RUN,
     "        if (refused) {\n            return many_answer(refused, got);\n        }\n",
     "        if (refused) {\n            target[got] = 0;\n            return many_answer(refused, got);\n        }\n"),
    ("many reads: a count of 0 after a roll-back", RUN,
     "        if (refused) {\n            return many_answer(refused, got);\n        }\n",
     "        if (refused) {\n"
     "            return many_answer(refused, refused == 6 ? 0 : got);\n"
     "        }\n"),
    ("many reads: 13 before 15", RUN,
     "    if (cells_len == 0 || cells_len > PLAIN_MAX_LIST) {\n        return many_answer(15, 0);\n    }\n"
     "    if (target_len < cells_len) {\n        return many_answer(13, 0);\n    }\n",
     "    if (target_len < cells_len) {\n        return many_answer(13, 0);\n    }\n"
     "    if (cells_len == 0 || cells_len > PLAIN_MAX_LIST) {\n        return many_answer(15, 0);\n    }\n"),
    ("many reads: 7, 1, 9 and 2 before 15 and 13", RUN,
     "    if (cells_len == 0 || cells_len > PLAIN_MAX_LIST) {\n",
     "    if (admit(lent, sessions, session, RUNNING)) {\n"
     "        return many_answer(admit(lent, sessions, session, RUNNING), 0);\n"
     "    }\n"
     "    if (cells_len == 0 || cells_len > PLAIN_MAX_LIST) {\n"),
    ("many reads: an empty list let through", RUN,
     "    if (cells_len == 0 || cells_len > PLAIN_MAX_LIST) {\n", "    if (cells_len > PLAIN_MAX_LIST) {\n"),
    ("many reads: 33 cells let through", RUN,
     "    if (cells_len == 0 || cells_len > PLAIN_MAX_LIST) {\n", "    if (cells_len == 0 || cells_len > PLAIN_MAX_LIST + 1) {\n"),
    ("many reads: 32 cells refused", RUN,
     "    if (cells_len == 0 || cells_len > PLAIN_MAX_LIST) {\n", "    if (cells_len == 0 || cells_len >= PLAIN_MAX_LIST) {\n"),
    ("many reads: the list's length taken as a byte", RUN,
     "    if (cells_len == 0 || cells_len > PLAIN_MAX_LIST) {\n",
     "    cells_len = (uint8_t)cells_len;\n    if (cells_len == 0 || cells_len > PLAIN_MAX_LIST) {\n"),
    ("many reads: a target longer than the list refused", RUN,
     "    if (target_len < cells_len) {\n", "    if (target_len != cells_len) {\n"),
    ("many reads: the refused read counted", RUN,
     "            return many_answer(refused, got);\n", "            return many_answer(refused, got + 1);\n"),
    ("many reads: a cell that is not there counted", RUN,
     "            return many_answer(3, got);\n", "            return many_answer(3, got + 1);\n"),
    ("many reads: a repeated cell entered twice", RUN,
     "        target[got] = entry[CURRENT_VALUE];\n",
     "        uint32_t *again = entry_at(lent, session, sessions[session].count);\n"
     "        for (uint32_t k = 0; k < got && sessions[session].count < PLAIN_MAX_ENTRIES; k++) {\n"
     "            if (cells[k] == cell) {\n"
     "                memcpy(again, entry, 4 * PLAIN_ENTRY_WORDS);\n"
     "                sessions[session].count++;\n"
     "                break;\n"
     "            }\n"
     "        }\n"
     "        target[got] = entry[CURRENT_VALUE];\n"),
    ("many reads: a cell of the list not marked", RUN,
     ": record->count;\n        seen[cell / 64] |= bit;\n", ": record->count;\n"),
    ("many reads: the snapshot value of a written cell", RUN,
     "        target[got] = entry[CURRENT_VALUE];\n", "        target[got] = entry[SNAPSHOT_VALUE];\n"),
    ("many reads: all cells judged before the first is read", RUN,
     "    for (uint32_t got = 0; got < cells_len; got++) {\n        uint32_t cell = cells[got];\n",
     "    for (uint32_t got = 0; got < cells_len; got++) {\n"
     "        if (cells[got] >= lent->values_len) {\n"
     "            return many_answer(3, 0);\n"
     "        }\n"
     "    }\n"
     "    for (uint32_t got = 0; got < cells_len; got++) {\n        uint32_t cell = cells[got];\n"),
    ("many reads: undone where a cell is not there", RUN,
     "            return many_answer(3, got);\n",
     "            if (got > 0) {\n                roll_back(lent, &sessions[session], session);\n            }\n            return many_answer(3, got);\n"),
    ("many reads: entries of the log not judged", BUFFERS,
     "    uint32_t refused = admit(lent, sessions, session, RUNNING);\n    if (refused) {\n        return many_answer(refused, 0);\n    }\n"
     "    plain_session *record = &sessions[session];\n    const uint32_t *log = entry_at(lent, session, 0);\n"
     "    uint64_t seen[PLAIN_MAX_CELLS / 64] = {0};\n    for (uint32_t i = 0; i < record->count; i++) {\n"
     "        uint32_t cell = log[PLAIN_ENTRY_WORDS * i + CELL];\n",
     "    uint32_t refused = lengths_fit(lent) ? 0 : 7;\n"
     "    if (!refused && session >= PLAIN_SESSIONS) {\n        refused = 1;\n    }\n"
     "    if (!refused && (sessions[session].phase > RELEASING || (sessions[session].phase && sessions[session].count > PLAIN_MAX_ENTRIES))) {\n"
     "        refused = 9;\n    }\n"
     "    if (!refused && sessions[session].phase != RUNNING) {\n        refused = 2;\n    }\n"
     "    if (refused) {\n        return many_answer(refused, 0);\n    }\n"
     "    plain_session *record = &sessions[session];\n    const uint32_t *log = entry_at(lent, session, 0);\n"
     "    uint64_t seen[PLAIN_MAX_CELLS / 64] = {0};\n    for (uint32_t i = 0; i < record->count; i++) {\n"
     "        uint32_t cell = log[PLAIN_ENTRY_WORDS * i + CELL] % PLAIN_MAX_CELLS;\n"),
    ("look-up: the last entry of a cell", BUFFERS,
     SEARCH, "    for (i = count; i > 0 && log[PLAIN_ENTRY_WORDS * (i - 1) + CELL] != cell;) {\n        i--;\n    }\n    return i > 0 ? i - 1 : count;\n"),
    ("look-up: an entry past the entries", RUN,
     SEARCH, "    while (i < PLAIN_MAX_ENTRIES && log[PLAIN_ENTRY_WORDS * i + CELL] != cell) {\n        i++;\n    }\n"
     "    return i < PLAIN_MAX_ENTRIES ? i : count;\n",
     "    if (i < record->count) {\n", "    if (i < PLAIN_MAX_ENTRIES && (*entry)[CELL] == cell) {\n",
     "    return i < count ? 100 : 14;\n", "    return i < PLAIN_MAX_ENTRIES && (*entry)[CELL] == cell ? 100 : 14;\n"),
    ("look-up: the entry right past the entries", RUN,
     "    if (i < record->count) {\n", "    if (i < PLAIN_MAX_ENTRIES && (*entry)[CELL] == cell) {\n",
     "    return i < count ? 100 : 14;\n", "    return i < PLAIN_MAX_ENTRIES && (*entry)[CELL] == cell ? 100 : 14;\n"),
    ("look-up: the count taken for a place", RUN,
     "    if (i < record->count) {\n", "    if (i <= record->count && i < PLAIN_MAX_ENTRIES) {\n"),
    ("look-up: in session 0's log", RUN,
     "find(entry_at(lent, session, 0), record->count, cell), entry);", "find(entry_at(lent, 0, 0), record->count, cell), entry);"),
    ("look-up: a peek in session 0's log", BUFFERS,
     "find(entry_at(lent, session, 0), count, cell);", "find(entry_at(lent, 0, 0), count, cell);"),
    ("look-up: the first entry passed over", RUN,
     "    uint32_t i = 0;\n" + SEARCH, "    uint32_t i = count > 0;\n" + SEARCH),
    ("look-up: the last entry passed over", RUN,
     SEARCH, "    while (i + 1 < count && log[PLAIN_ENTRY_WORDS * i + CELL] != cell) {\n        i++;\n    }\n    return i + 1 < count ? i : count;\n"),
    ("look-up: the last place of a full log passed over", RUN,
     SEARCH, SEARCH.replace("i < count", "i < count && i < PLAIN_MAX_ENTRIES - 1").replace("return i;", "return i < PLAIN_MAX_ENTRIES - 1 ? i : count;")),
    ("look-up: the value found taken for the cell", RUN,
     SEARCH, SEARCH.replace("CELL", "SNAPSHOT_VALUE")),
    ("look-up: the low eight bits of the cells", BUFFERS,
     SEARCH, SEARCH.replace("log[", "(uint8_t)log[").replace("!= cell", "!= (uint8_t)cell")),
    ("cells judged: the first entry's not", BUFFERS,
     JUDGED, JUDGED.replace("i = 0", "i = 1")),
    ("cells judged: the last entry's not", BUFFERS,
     JUDGED, JUDGED.replace("i < record.count", "i + 1 < record.count")),
    ("cells judged: in session 0's log", BUFFERS,
     JUDGED, JUDGED.replace("= log[", "= lent->logs[")),
    ("cells judged: one past the entries too", BUFFERS,
     JUDGED, JUDGED.replace("i < record.count", "i <= record.count && i < PLAIN_MAX_ENTRIES")),
    ("cells judged: all 32 places", BUFFERS,
     JUDGED, JUDGED.replace("i < record.count", "i < PLAIN_MAX_ENTRIES")),
    ("caps: equal neighbours let pass", RUN,
     RISES, RISES.replace("<", "<=")),
    ("caps: a first cap of 0 let pass", RUN,
     PASSES, PASSES.replace("caps[0] > 0", "1")),
    ("caps: a first cap of 1 refused", RUN,
     PASSES, PASSES.replace("caps[0] > 0", "caps[0] > 1")),
    ("caps: the last pair not looked at", RUN,
     PASSES, PASSES.replace("k < PLAIN_CAPS", "k < PLAIN_CAPS - 1")),
    ("caps: the first pair not looked at", RUN,
     PASSES, PASSES.replace("k = 1", "k = 2")),
    ("caps: only the last cap above the first", RUN,
     PASSES, PASSES.replace("caps[k - 1] < caps[k]", "k < PLAIN_CAPS - 1 || caps[0] < caps[k]")),
    ("caps: compared as signed numbers", RUN,
     RISES, RISES.replace("caps[k - 1] < caps[k]", "(int32_t)caps[k - 1] < (int32_t)caps[k]")),
    ("caps: a new cap that leaps refused", RUN,
     PASSES, PASSES.replace("caps[k - 1] < caps[k]", "caps[k - 1] < caps[k] && caps[k] - caps[k - 1] <= 65536")),
    ("caps, set-up: 16 before 7", BUFFERS,
     SET_UP_LENGTHS + SET_UP_UNFIT, "    if (caps_len == PLAIN_CAPS && !passes(caps)) {\n        return answer(16);\n    }\n" + SET_UP_LENGTHS),
    ("caps, set-up: 8 before 16", BUFFERS,
     "    if (!passes(caps)) {\n        return answer(16);\n    }\n    return set_up_by(lent, sessions, caps);\n",
     "    for (size_t i = 0; i < lent->values_len; i++) {\n"
     "        if (lent->classes[i] > PLAIN_MAX_CLASS || lent->values[i] > caps[lent->classes[i]]) {\n            return answer(8);\n        }\n    }\n"
     "    if (!passes(caps)) {\n        return answer(16);\n    }\n    return set_up_by(lent, sessions, caps);\n"),
    ("caps, set-up: an unfit table let pass", BUFFERS,
     SET_UP_UNFIT, ""),
    ("caps, set-up: the table's length not judged", BUFFERS,
     SET_UP_LENGTHS, SET_UP_LENGTHS.replace(" || caps_len != PLAIN_CAPS", "")),
    ("caps, set-up: a longer table let pass", BUFFERS,
     SET_UP_LENGTHS, SET_UP_LENGTHS.replace("caps_len != PLAIN_CAPS", "caps_len < PLAIN_CAPS")),
    ("caps, set-up: judged by ours", RUN,
     "    return set_up_by(lent, sessions, caps);\n", "    return set_up_by(lent, sessions, our_caps);\n"),
    ("caps, set-up: judged by ours too", RUN,
     "    return set_up_by(lent, sessions, caps);\n",
     "    for (size_t i = 0; i < lent->values_len; i++) {\n"
     "        if (lent->classes[i] <= PLAIN_MAX_CLASS && lent->values[i] > our_caps[lent->classes[i]]) {\n            return answer(8);\n        }\n    }\n"
     "    return set_up_by(lent, sessions, caps);\n"),
    ("caps, set-up: a value above its cap 17", BUFFERS,
     "    return set_up_by(lent, sessions, caps);\n",
     "    plain_answer up = set_up_by(lent, sessions, caps);\n    for (size_t i = 0; up.number == 8 && i < lent->values_len; i++) {\n"
     "        if (lent->classes[i] <= PLAIN_MAX_CLASS && lent->values[i] > caps[lent->classes[i]]) {\n            return answer(17);\n        }\n    }\n"
     "    return up;\n"),
    ("caps, set-up: refused while a session is not idle", BUFFERS,
     SET_UP_UNFIT, SET_UP_UNFIT + LOAD_IDLE),
    ("caps, load: 16 before 7", RUN,
     LOAD_LENGTHS, "    if (new_caps_len >= PLAIN_CAPS && !passes(new_caps)) {\n        return answer(16);\n    }\n" + LOAD_LENGTHS),
    ("caps, load: 16 before 2", RUN,
     LOAD_IDLE + LOAD_UNFIT, LOAD_UNFIT + LOAD_IDLE),
    ("caps, load: 2 before 7", RUN,
     LOAD_LENGTHS + LOAD_IDLE, LOAD_IDLE + LOAD_LENGTHS),
    ("caps, load: 2 after 8 and 17", RUN,
     LOAD_IDLE + LOAD_UNFIT + LOAD_CELLS, LOAD_UNFIT + LOAD_CELLS + LOAD_IDLE),
    ("caps, load: 8 and 17 before 16", RUN,
     LOAD_UNFIT + LOAD_CELLS, LOAD_CELLS + LOAD_UNFIT),
    ("caps, load: 17 at once, so that a class after it goes unseen", BUFFERS,
     LOAD_CELLS, LOAD_CELLS.replace("        above |= lent->values[i] > new_caps[class];\n",
                                    "        if (lent->values[i] > new_caps[class]) {\n            return answer(17);\n        }\n")),
    ("caps, load: 8 and 17 swapped", RUN,
     LOAD_CELLS, LOAD_CELLS.replace("answer(8)", "answer(0)").replace("answer(17)", "answer(8)").replace("answer(0)", "answer(17)")),
    ("caps, load: 8 for a value above its new cap", RUN,
     LOAD_CELLS, LOAD_CELLS.replace("answer(17)", "answer(8)")),
    ("caps, load: 4 for a value above its new cap", RUN,
     LOAD_CELLS, LOAD_CELLS.replace("answer(17)", "answer(4)")),
    ("caps, load: an unfit table let pass", RUN,
     LOAD_UNFIT, ""),
    ("caps, load: the length of the new table not judged", RUN,
     LOAD_LENGTHS, LOAD_LENGTHS.replace(" || new_caps_len != PLAIN_CAPS", "")),
    ("caps, load: the length of the table in force not judged", BUFFERS,
     LOAD_LENGTHS, LOAD_LENGTHS.replace(" || caps_len != PLAIN_CAPS", "")),
    ("caps, load: two tables of one other length let pass", BUFFERS,
     LOAD_LENGTHS, LOAD_LENGTHS.replace("caps_len != PLAIN_CAPS || new_caps_len != PLAIN_CAPS", "caps_len != new_caps_len || caps_len > 2 * PLAIN_CAPS")),
    ("caps, load: the lengths of the buffers not judged", BUFFERS,
     LOAD_LENGTHS, LOAD_LENGTHS.replace("!lengths_fit(lent) || ", "")),
    ("caps, load: session 0 alone looked at", BUFFERS,
     PHASES, PHASES.replace("s < PLAIN_SESSIONS", "s < 1")),
    ("caps, load: fifteen sessions looked at", BUFFERS,
     PHASES, PHASES.replace("s < PLAIN_SESSIONS", "s < PLAIN_SESSIONS - 1")),
    ("caps, load: session 0 not looked at", RUN,
     PHASES, PHASES.replace("s = 0", "s = 1")),
    ("caps, load: no session looked at", RUN,
     LOAD_IDLE, ""),
    ("caps, load: a phase above 4 taken for idle", BUFFERS,
     PHASES, PHASES.replace("phases |= sessions[s].phase;", "phases |= sessions[s].phase > RELEASING ? IDLE : sessions[s].phase;")),
    ("caps, load: running sessions alone refused", RUN,
     PHASES, PHASES.replace("phases |= sessions[s].phase;", "phases |= sessions[s].phase == RUNNING;")),
    ("caps, load: sealed sessions alone refused", RUN,
     PHASES, PHASES.replace("phases |= sessions[s].phase;", "phases |= sessions[s].phase >= PROMOTING;")),
    ("caps, load: phases added up in a byte", BUFFERS,
     PHASES, PHASES.replace("phases |= sessions[s].phase;", "phases = (uint8_t)(phases + sessions[s].phase);")),
    ("caps, load: equal phases taken for none", BUFFERS,
     PHASES, PHASES.replace("phases |= sessions[s].phase;", "phases ^= sessions[s].phase;")),
    ("caps, load: seven bits of a phase looked at", BUFFERS,
     PHASES, PHASES.replace("phases |= sessions[s].phase;", "phases |= sessions[s].phase & 127;")),
    ("caps, load: an idle record with a count refused", BUFFERS,
     PHASES, PHASES.replace("phases |= sessions[s].phase;", "phases |= sessions[s].phase | sessions[s].count;")),
    ("caps, load: 9 for a damaged phase", BUFFERS,
     LOAD_IDLE, "    for (int s = 0; s < PLAIN_SESSIONS; s++) {\n        if (sessions[s].phase > RELEASING) {\n            return answer(9);\n        }\n    }\n" + LOAD_IDLE),
    ("caps, load: 17 by the old caps", RUN,
     LOAD_CELLS, LOAD_CELLS.replace("> new_caps[class]", "> caps[class]")),
    ("caps, load: 17 by our caps", RUN,
     LOAD_CELLS, LOAD_CELLS.replace("> new_caps[class]", "> our_caps[class]")),
    ("caps, load: a value at its new cap refused", RUN,
     LOAD_CELLS, LOAD_CELLS.replace("> new_caps[class]", ">= new_caps[class]")),
    ("caps, load: the last cell alone judged for 17", RUN,
     LOAD_CELLS, LOAD_CELLS.replace("above |=", "above =")),
    ("caps, load: the first cell not judged", RUN,
     LOAD_CELLS, LOAD_CELLS.replace("size_t i = 0", "size_t i = 1")),
    ("caps, load: the last cell not judged", RUN,
     LOAD_CELLS, LOAD_CELLS.replace("i < lent->values_len", "i + 1 < lent->values_len")),
    ("caps, load: the first cell's class alone judged", BUFFERS,
     LOAD_CELLS, LOAD_CELLS.replace("class > PLAIN_MAX_CLASS", "i == 0 && class > PLAIN_MAX_CLASS").replace("new_caps[class]", "new_caps[class % PLAIN_CAPS]")),
    ("caps, load: class 16 taken for 0", BUFFERS,
     LOAD_CELLS, LOAD_CELLS.replace("lent->classes[i];", "lent->classes[i] % PLAIN_CAPS;")),
    ("caps, load: cells not judged", RUN,
     LOAD_CELLS, ""),
    ("caps, load: the old table judged for 16 too", BUFFERS,
     LOAD_UNFIT, LOAD_UNFIT + "    if (!passes(caps)) {\n        return answer(16);\n    }\n"),
    ("caps, load: a lower cap refused", RUN,
     LOAD_COPY, "    for (int k = 0; k < PLAIN_CAPS; k++) {\n        if (new_caps[k] < caps[k]) {\n            return answer(17);\n        }\n    }\n" + LOAD_COPY),
    ("caps, load: refused with 17 after the first caps are copied", RUN,
     LOAD_CELLS, "    memcpy(caps, new_caps, 4 * sizeof caps[0]);\n" + LOAD_CELLS),
    ("caps, load: refused with 17 and the new table in force", RUN,
     LOAD_CELLS, LOAD_CELLS.replace("        return answer(17);\n", "    " + LOAD_COPY + "        return answer(17);\n")),
    ("caps, load: refused with 16 and the caps before the fault copied", RUN,
     LOAD_UNFIT, LOAD_UNFIT.replace("        return answer(16);\n",
                                    "        for (int k = 0; k < PLAIN_CAPS && new_caps[k] > (k > 0 ? new_caps[k - 1] : 0); k++) {\n"
                                    "            caps[k] = new_caps[k];\n        }\n        return answer(16);\n")),
    ("caps, load: fifteen caps copied", RUN,
     LOAD_COPY, LOAD_COPY.replace("PLAIN_CAPS", "(PLAIN_CAPS - 1)")),
    ("caps, load: the first cap not copied", RUN,
     LOAD_COPY, "    memcpy(caps + 1, new_caps + 1, (PLAIN_CAPS - 1) * sizeof caps[0]);\n"),
    ("caps, load: nothing copied", RUN,
     LOAD_COPY, "    (void)caps;\n"),
    ("caps, load: the tables exchanged", RUN,
     LOAD_COPY, "    for (int k = 0; k < PLAIN_CAPS; k++) {\n        uint32_t cap = caps[k];\n        caps[k] = new_caps[k];\n        ((uint32_t *)new_caps)[k] = cap;\n    }\n"),
    ("caps, load: values above their new caps cut down to them", RUN,
     LOAD_CELLS, LOAD_CELLS.replace("        above |= lent->values[i] > new_caps[class];\n",
                                    "        if (lent->values[i] > new_caps[class]) {\n            lent->values[i] = new_caps[class];\n        }\n")),
    ("caps, load: the logs cleared", RUN,
     LOAD_COPY, LOAD_COPY + "    memset(lent->logs, 0, sizeof lent->logs[0] * lent->logs_len);\n"),
    ("caps, load: the locks cleared", BUFFERS,
     LOAD_COPY, LOAD_COPY + "    memset(lent->readers, 0, sizeof lent->readers[0] * lent->readers_len);\n    memset(lent->claimants, PLAIN_NOBODY, lent->claimants_len);\n"),
    ("caps, load: the records cleared", BUFFERS,
     LOAD_COPY, LOAD_COPY + "    memset(sessions, 0, PLAIN_SESSIONS * sizeof sessions[0]);\n"),
    ("caps, write: by our caps", RUN,
     WRITE_BY_TABLE, "    return write_by(lent, sessions, our_caps, session, cell, value);\n"),
    ("caps, write: by the lower of the two caps", RUN,
     WRITE_BY_TABLE, "    uint8_t class = cell < lent->classes_len ? lent->classes[cell] : 0;\n"
     "    const uint32_t *lower = class <= PLAIN_MAX_CLASS && our_caps[class] < caps[class] ? our_caps : caps;\n"
     "    return write_by(lent, sessions, lower, session, cell, value);\n"),
    ("caps, write: an unfit table refused", BUFFERS,
     WRITE_LENGTH, WRITE_LENGTH + SET_UP_UNFIT),
    ("caps, write: by our caps where the table does not pass", BUFFERS,
     WRITE_BY_TABLE, "    return write_by(lent, sessions, passes(caps) ? caps : our_caps, session, cell, value);\n"),
    ("caps, write: the table's length not judged", BUFFERS,
     WRITE_LENGTH, "    (void)caps_len;\n"),
    ("caps, write: a longer table let pass", BUFFERS,
     WRITE_LENGTH, WRITE_LENGTH.replace("!=", "<")),
    ("caps, write: the table's length judged after the session", BUFFERS,
     WRITE_LENGTH, "    if (lengths_fit(lent) && session >= PLAIN_SESSIONS) {\n        return answer(1);\n    }\n" + WRITE_LENGTH),
    ("caps, write: at its cap refused", RUN,
     WRITE_BY_TABLE, "    uint8_t class = cell < lent->classes_len ? lent->classes[cell] : 0;\n    uint32_t refused = admit_cell(lent, sessions, session, cell);\n"
     "    if (!refused && class <= PLAIN_MAX_CLASS && value == caps[class]) {\n        return answer(4);\n    }\n" + WRITE_BY_TABLE),
    ("caps, write: our table read one class too high", REPLAY,
     "    if (value > caps[class]) {\n        return answer(4);\n    }\n", "    if (value > (caps == our_caps && class < PLAIN_MAX_CLASS ? caps[class + 1] : caps[class])) {\n        return answer(4);\n    }\n"),
]


def counted(test):
    """An edit after which 104 carries the number of sessions that pass a test, of `other`, `phase` and `entry`, which is NULL where the cell is not in
    the log."""
    loop = ("        uint32_t number = 0;\n"
            "        for (uint8_t other = 0; other < PLAIN_SESSIONS; other++) {\n"
            "            uint8_t phase = sessions[other].phase;\n"
            "            uint32_t count = sessions[other].count < PLAIN_MAX_ENTRIES ? sessions[other].count : PLAIN_MAX_ENTRIES;\n"
            "            uint32_t i = find(entry_at(lent, other, 0), count, cell);\n"
            "            const uint32_t *entry = i < count ? entry_at(lent, other, i) : NULL;\n"
            "            number += " + test + ";\n"
            "            (void)entry, (void)phase;\n"
            "        }\n")
    return OTHERS + WAIT, OTHERS + loop + WAIT.replace(NUMBER, "number")


def numbered(number):
    """An edit after which 104 carries another number."""
    return NUMBER, number


# The wrong stores of waits and of the number that they come with.
EDITS += [
    ("wait: no number", REPLAY, *numbered("0")),
    ("wait: 1 each time", REPLAY, *numbered("1")),
    ("wait: one more than there are", REPLAY, *numbered(NUMBER + " + 1")),
    ("wait: one less than there are", REPLAY, *numbered(NUMBER + " - 1")),
    ("wait: the own bit counted where it is in the set", REPLAY, *numbered("(uint32_t)__builtin_popcount(lent->readers[cell])")),
    ("wait: one less than the set has, though the own bit is missing", BUFFERS, *numbered("(uint32_t)__builtin_popcount(lent->readers[cell]) - 1")),
    ("wait: the own bit counted where it is missing", BUFFERS, *numbered(NUMBER + " + !(lent->readers[cell] >> session & 1)")),
    ("wait: the set in place of its size", REPLAY, *numbered("others")),
    ("wait: the lower eight bits counted", REPLAY, *numbered(NUMBER.replace("others", "others & 255"))),
    ("wait: the upper eight bits counted", REPLAY, *numbered(NUMBER.replace("others", "others >> 8"))),
    ("wait: session 0 not counted", REPLAY, *numbered(NUMBER.replace("others", "others >> 1"))),
    ("wait: session 15 not counted", REPLAY, *numbered(NUMBER.replace("others", "others & 32767"))),
    ("wait: session 15 counted as sixteen", REPLAY, *numbered(NUMBER.replace("others", "(uint32_t)(int16_t)others"))),
    ("wait: higher sessions alone counted", REPLAY, *numbered(NUMBER.replace("others", "others >> session"))),
    ("wait: lower sessions alone counted", REPLAY, *numbered(NUMBER.replace("others", "others & ((1u << session) - 1)"))),
    ("wait: the bit of session modulo 8 left aside", REPLAY, *numbered("(uint32_t)__builtin_popcount(lent->readers[cell] & ~(1u << session % 8))")),
    ("wait: the bit of the claimant before left aside", REPLAY, *numbered("(uint32_t)__builtin_popcount(lent->readers[cell] & ~(1u << claimant))")),
    ("wait: the bit after the own one left aside", REPLAY, *numbered("(uint32_t)__builtin_popcount(lent->readers[cell] & ~(2u << session))")),
    ("wait: the lowest other session", REPLAY, *numbered("(uint32_t)__builtin_ctz(others)")),
    ("wait: the highest other session", REPLAY, *numbered("31 - (uint32_t)__builtin_clz(others)")),
    ("wait: the own session", REPLAY, *numbered("session")),
    ("wait: the claimant before", REPLAY, *numbered("claimant")),
    ("wait: the cell", REPLAY, *numbered("cell")),
    ("wait: the entries of the own log", REPLAY, *numbered("record->count")),
    ("wait: the value of the cell", REPLAY, *numbered("lent->values[cell]")),
    ("wait: the value to publish", REPLAY, *numbered("entry[CURRENT_VALUE]")),
    ("wait: the readers of cell 0", REPLAY, *numbered("(uint32_t)__builtin_popcount(lent->readers[0] & ~(1u << session))")),
    ("wait: the readers of the next cell", REPLAY,
     *numbered("(uint32_t)__builtin_popcount(lent->readers[(cell + 1) % lent->readers_len] & ~(1u << session))")),
    ("wait: the readers of the cell at next", REPLAY,
     *numbered("(uint32_t)__builtin_popcount(lent->readers[record->next] & ~(1u << session))")),
    ("wait: the readers of any cell", REPLAY,
     OTHERS, OTHERS + "        uint32_t any = 0;\n        for (size_t i = 0; i < lent->readers_len; i++) {\n            any |= lent->readers[i];\n        }\n",
     *numbered("(uint32_t)__builtin_popcount(any & ~(1u << session))")),
    ("wait: 15 less the number", REPLAY, *numbered("15 - " + NUMBER)),
    ("wait: three bits of the number", REPLAY, *numbered(NUMBER + " & 7")),
    ("wait: 14 at most", REPLAY, *numbered(NUMBER + " < 14 ? " + NUMBER + " : 14")),
    ("wait: 7 at most", REPLAY, *numbered(NUMBER + " < 7 ? " + NUMBER + " : 7")),
    ("wait: a number with the first answer alone", REPLAY, *numbered("claimant == session ? 0 : " + NUMBER)),
    ("wait: no number with the first answer", REPLAY, *numbered("claimant == session ? " + NUMBER + " : 0")),
    ("wait: past a promoted cell no number", REPLAY, *numbered("record->next ? 0 : " + NUMBER)),
    ("wait: running sessions alone counted", REPLAY, *counted("(others >> other & 1) && phase == RUNNING")),
    ("wait: promoting sessions alone counted", REPLAY, *counted("(others >> other & 1) && phase == PROMOTING")),
    ("wait: all other sessions counted that are not idle", REPLAY, *counted("other != session && phase != IDLE")),
    ("wait: all other sessions counted", REPLAY, *counted("other != session")),
    ("wait: all logs with the cell counted", REPLAY, *counted("other != session && phase != IDLE && entry")),
    ("wait: promoting sessions counted though they have let the cell go", REPLAY,
     *counted("other != session && (phase == RUNNING || phase == PROMOTING) && entry")),
    ("wait: counted by the logs, as a list of calls leaves them", BUFFERS,
     *counted("other != session && entry && (phase == RUNNING || (phase == PROMOTING && publishes(entry)))")),
    ("wait: idle sessions in the set not counted", BUFFERS, *counted("(others >> other & 1) && phase != IDLE")),
    ("wait: publishing and releasing sessions in the set not counted", BUFFERS, *counted("(others >> other & 1) && phase != PUBLISHING && phase != RELEASING")),
    ("wait: sessions in the set without the cell in their log not counted", BUFFERS, *counted("(others >> other & 1) && entry")),
    ("wait: one other taken for none", REPLAY,
     "        if (others) {\n", "        if (others & (others - 1)) {\n"),
    ("wait: none where all others promote", REPLAY,
     "        if (others) {\n",
     "        int runs = 0;\n        for (int s = 0; s < PLAIN_SESSIONS; s++) {\n            runs |= (others >> s & 1) && sessions[s].phase != PROMOTING;\n        }\n"
     "        if (runs) {\n"),
    ("wait: claimed where one other is left", REPLAY,
     CLAIM + OTHERS, OTHERS + "        if (!(others & (others - 1))) {\n            lent->claimants[cell] = session;\n        }\n"),
    ("wait: the set emptied as it is counted", REPLAY,
     WAITS, "            lent->readers[cell] = 0;\n" + WAITS),
    ("wait: the own bit put in the set", BUFFERS,
     WAITS, "            lent->readers[cell] |= (uint16_t)(1u << session);\n" + WAITS),
    ("wait: the own bit taken out of the set", RUN,
     WAITS, "            leave(lent, session, cell);\n" + WAITS),
    ("wait: the mark set", RUN,
     WAITS, "            lent->exclusives[cell] = 1;\n" + WAITS),
    ("wait: the number kept in the mark", RUN,
     WAITS, "            lent->exclusives[cell] = (uint8_t)__builtin_popcount(others);\n" + WAITS),
    ("wait: next put past the cell", REPLAY,
     WAITS, "            record->next = (uint16_t)(cell + 1);\n" + WAITS),
    ("wait: next put on the cell", RUN,
     WAITS, "            record->next = (uint16_t)cell;\n" + WAITS),
    ("wait: a number with 103 too, between two cells", RUN,
     "        record->next = (uint16_t)(cell + 1);\n        return answer(103);\n",
     "        record->next = (uint16_t)(cell + 1);\n        plain_answer moved = {103, (uint32_t)__builtin_popcount(lent->readers[cell])};\n        return moved;\n"),
    ("wait: a number with 103 too, after the last cell", RUN,
     "    record->next = 0;\n    return answer(103);\n",
     "    record->next = 0;\n    plain_answer moved = {103, (uint32_t)__builtin_popcount(lent->readers[cell])};\n    return moved;\n"),
    ("wait: a number with 6 too", RUN,
     CLAIMED, CLAIMED.replace("            return answer(6);\n",
                              "            plain_answer told = {6, (uint32_t)__builtin_popcount(lent->readers[cell])};\n            return told;\n")),
    ("wait: the claimant with 6", RUN,
     CLAIMED, CLAIMED.replace("            return answer(6);\n", "            plain_answer told = {6, claimant};\n            return told;\n")),
    ("wait: a number with 102 too", RUN,
     "    record->next = 0;\n    return answer(102);\n", "    record->next = 0;\n    plain_answer told = {102, record->count};\n    return told;\n"),
    ("wait: a number with 105 too", RUN,
     "        go_idle(record);\n        return answer(105);\n    }\n    record->phase++;\n",
     "        go_idle(record);\n        plain_answer told = {105, (uint32_t)__builtin_popcount(lent->readers[cell] | 1u << session)};\n        return told;\n    }\n"
     "    record->phase++;\n"),
]

# The line of an answer, and the wrong replays: each its name and the edit of the plain C replay. They must show on replays.
LINE = "    if (answer.number == 101 || answer.number == 104) {\n        put_char(' ');\n        put_number(answer.value);\n"
REPLAY_EDITS = [
    ("replay: no number after 104", LINE, LINE.replace(" || answer.number == 104", "")),
    ("replay: no value after 101", LINE, LINE.replace("answer.number == 101 || ", "")),
    ("replay: a number after 103 too", LINE, LINE.replace("|| answer.number == 104", "|| answer.number == 103 || answer.number == 104")),
    ("replay: a number after 105 too", LINE, LINE.replace("|| answer.number == 104", "|| answer.number >= 104")),
    ("replay: a number after 6 too", LINE, LINE.replace("|| answer.number == 104", "|| answer.number == 6 || answer.number == 104")),
    ("replay: no number where it is 1", LINE, LINE.replace("|| answer.number == 104", "|| (answer.number == 104 && answer.value > 1)")),
    ("replay: a number from 2 on as 1", LINE, LINE.replace("(answer.value)", "(answer.number == 104 ? 1 : answer.value)")),
    ("replay: one digit of the number", LINE, LINE.replace("(answer.value)", "(answer.number == 104 ? answer.value % 10 : answer.value)")),
    ("replay: the number in place of the answer", LINE + "    }\n", "    if (answer.number == 101) {\n        put_char(' ');\n        put_number(answer.value);\n    }\n",
     "    put_number(answer.number);\n", "    put_number(answer.number == 104 ? answer.value : answer.number);\n"),
    ("replay: the last value read after 104", LINE,
     "    static uint32_t last;\n    last = answer.number == 101 ? answer.value : last;\n" + LINE.replace("(answer.value)", "(last)")),
    ("replay: two spaces before the number", LINE, LINE.replace("put_char(' ');\n", "put_text(answer.number == 104 ? \"  \" : \" \");\n")),
    ("replay: a space after 104 and no number", LINE, LINE.replace("        put_number(answer.value);\n", "        if (answer.number == 101) {\n            put_number(answer.value);\n        }\n")),
]


def compiled(arguments):
    subprocess.run(["gcc"] + FLAGS + arguments, check=True)


def edited(name, path, pairs, target):
    """A copy of a source file with an edit, each of whose old texts stands there once; and its path."""
    with open(path, encoding="ascii") as file:
        wrong = file.read()
    for old, new in zip(pairs[::2], pairs[1::2]):
        if wrong.count(old) != 1:
            sys.exit(f"the edit '{name}' fits {wrong.count(old)} places, not one")
        wrong = wrong.replace(old, new)
    copy = os.path.join(target, os.path.basename(path))
    with open(copy, "w", encoding="ascii") as file:
        file.write(wrong)
    return copy


def build_fields(target):
    """The plain C fields as an object, for every libplain.so."""
    compiled(["-c", FIELDS, "-o", os.path.join(target, "plain_fields.o")])


def build_store(target, source):
    """A store as libplain.so. Both programs that load it have the C library, and without it the linker takes less time."""
    compiled(["-shared", "-nostdlib", source, os.path.join(target, "plain_fields.o"), "-lgcc", "-o", os.path.join(target, "libplain.so")])


def build_replay(target, source):
    """A replay as a program, over the store in libplain.so at its start."""
    compiled([source, "-L" + target, "-lplain", "-o", os.path.join(target, "replay")])


def tells(command, environment):
    """Whether a comparison ran and found a difference, or the wrong store left its buffers and crashed."""
    result = subprocess.run(command, env=environment, stdout=subprocess.PIPE, stderr=subprocess.STDOUT, text=True)
    return result.returncode in CRASHES or result.returncode == 1 and " differs" in result.stdout


def main():
    compare, target = sys.argv[1], os.path.join(sys.argv[2], "wrong")
    seed = sys.argv[3] if len(sys.argv) > 3 else "1"
    print(f"seed {seed}")
    os.makedirs(target, exist_ok=True)
    environment = dict(os.environ, LD_LIBRARY_PATH=target)
    calls = [compare, "calls", "--seed", seed, "--count", "100000"]
    runs = [compare, "runs", "--seed", seed, "--count", "2000"]
    replays = [compare, "replays", "--mode", "batch", "--seed", seed, "--count", "3000", "--program", os.path.join(target, "replay")]
    passed = failed = 0

    def ask(name, where, told):
        nonlocal passed, failed
        passed, failed = passed + told, failed + (not told)
        if not told:
            print(f"not told {where}: {name}")

    build_fields(target)
    build_store(target, STORE)
    for name, *pairs in REPLAY_EDITS:
        build_replay(target, edited(name, REPLAYER, pairs, target))
        ask(name, REPLAY, tells(replays, environment))
    build_replay(target, REPLAYER)
    for name, shows, *pairs in EDITS:
        build_store(target, edited(name, STORE, pairs, target))
        ask(name, BUFFERS, tells(calls, environment))
        if shows == RUN:
            ask(name, RUN, tells(runs, environment))
        if shows == REPLAY:
            ask(name, REPLAY, tells(replays, environment))
    print(f"{passed} passed, {failed} failed")
    sys.exit(1 if failed else 0)


if __name__ == "__main__":
    main()
