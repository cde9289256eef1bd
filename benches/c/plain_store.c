/* A plain C store with the steps of document 01 and Papers 1 to 6 of document 02. Every call judges its lent buffers and its session's record anew. */
#include "plain_store.h"

#include <string.h>

enum { IDLE, RUNNING, PROMOTING, PUBLISHING, RELEASING };

enum { CELL, SNAPSHOT_VALUE, CURRENT_VALUE, MARKS };

/* The marks of an entry; bits above them stand for nothing, and go where a mark is set. */
enum { DIRTY = 1, HELD = 2 };

/* Document 01's table of caps. */
static const uint32_t our_caps[PLAIN_CAPS] = {1, 6, 8, 10, 12, 15, 18, 21, 24, 27, 30, 36, 42, 48, 60, 4294967295u};

const char *store_name(void)
{
    return "plain C store";
}

static inline plain_answer answer(uint32_t number)
{
    plain_answer a = {number, 0};
    return a;
}

static inline uint32_t *entry_at(const plain_lent *lent, uint8_t session, uint32_t i)
{
    return lent->logs + PLAIN_SESSION_WORDS * session + PLAIN_ENTRY_WORDS * i;
}

/* Whether no entry before `i` is for the same cell: of several entries the first counts. */
static inline int is_first(const uint32_t *log, uint32_t i)
{
    uint32_t cell = log[PLAIN_ENTRY_WORDS * i + CELL];
    for (uint32_t j = 0; j < i; j++) {
        if (log[PLAIN_ENTRY_WORDS * j + CELL] == cell) {
            return 0;
        }
    }
    return 1;
}

/* The entry that counts for a cell; `count` if there is none. */
static inline uint32_t find(const uint32_t *log, uint32_t count, uint32_t cell)
{
    uint32_t i = 0;
    while (i < count && log[PLAIN_ENTRY_WORDS * i + CELL] != cell) {
        i++;
    }
    return i;
}

/* Whether an entry counts as written from the seal on: it is held, or it is dirty and its value is not the one found. Not `&&`: a branch for each
   costs more. */
static inline int publishes(const uint32_t *entry)
{
    uint32_t changed = entry[CURRENT_VALUE] != entry[SNAPSHOT_VALUE];
    return (entry[MARKS] & (HELD | DIRTY * changed)) != 0;
}

/* What an advance handles: the entry of the lowest cell not below next that publishes, and whether a higher one is left. */
typedef struct {
    uint32_t entry;
    int more;
} publishing_step;

/* The step from `from` on; its entry is `count` if there is none. */
static inline publishing_step lowest_publishing(const uint32_t *log, uint32_t count, uint32_t from)
{
    publishing_step step = {count, 0};
    uint32_t lowest = UINT32_MAX;
    for (uint32_t i = 0; i < count; i++) {
        const uint32_t *entry = log + PLAIN_ENTRY_WORDS * i;
        uint32_t cell = entry[CELL];
        if (!publishes(entry) || cell < from || cell == lowest || (cell > lowest && step.more) || !is_first(log, i)) {
            continue;
        }
        step.more = step.entry < count;
        if (cell < lowest) {
            step.entry = i;
            lowest = cell;
        }
    }
    return step;
}

static inline int lengths_fit(const plain_lent *lent)
{
    size_t n = lent->values_len;
    return n >= 1 && n <= PLAIN_MAX_CELLS && lent->classes_len == n && lent->readers_len == n &&
           lent->claimants_len == n && lent->exclusives_len == n && lent->logs_len == PLAIN_LOG_WORDS;
}

/* Refusals 7, 1 and 9, or 0. In phases 2 to 4 `step` becomes what an advance handles. */
static inline uint32_t judge(const plain_lent *lent, const plain_session *sessions, uint8_t session, publishing_step *step)
{
    if (!lengths_fit(lent)) {
        return 7;
    }
    if (session >= PLAIN_SESSIONS) {
        return 1;
    }
    plain_session record = sessions[session];
    if (record.phase > RELEASING) {
        return 9;
    }
    if (record.phase == IDLE) {
        return 0;
    }
    if (record.count > PLAIN_MAX_ENTRIES) {
        return 9;
    }
    const uint32_t *log = entry_at(lent, session, 0);
    uint32_t n = (uint32_t)lent->values_len;
    int stray = 0;
    for (uint32_t i = 0; i < record.count; i++) {
        stray |= log[PLAIN_ENTRY_WORDS * i + CELL] >= n;
    }
    if (stray) {
        return 9;
    }
    if (record.phase >= PROMOTING) {
        *step = lowest_publishing(log, record.count, record.next);
        if (step->entry == record.count) {
            return 9;
        }
    }
    return 0;
}

/* Refusals 7, 1, 9 and 2, or 0, of a call that fits one phase. */
static inline uint32_t admit(const plain_lent *lent, const plain_session *sessions, uint8_t session, uint8_t phase)
{
    publishing_step step;
    uint32_t refused = judge(lent, sessions, session, &step);
    if (refused) {
        return refused;
    }
    return sessions[session].phase != phase ? 2 : 0;
}

/* Refusals 7, 1, 9, 2 and 3, or 0, of a running session's call on a cell. */
static inline uint32_t admit_cell(const plain_lent *lent, const plain_session *sessions, uint8_t session, uint32_t cell)
{
    uint32_t refused = admit(lent, sessions, session, RUNNING);
    if (refused) {
        return refused;
    }
    return cell >= lent->values_len ? 3 : 0;
}

static inline void go_idle(plain_session *record)
{
    record->phase = IDLE;
    record->count = 0;
    record->next = 0;
}

static inline void leave(const plain_lent *lent, uint8_t session, uint32_t cell)
{
    lent->readers[cell] &= (uint16_t)~(1u << session);
}

static void roll_back(const plain_lent *lent, plain_session *record, uint8_t session)
{
    const uint32_t *log = entry_at(lent, session, 0);
    for (uint32_t i = 0; i < record->count; i++) {
        uint32_t cell = log[PLAIN_ENTRY_WORDS * i + CELL];
        leave(lent, session, cell);
        if (lent->claimants[cell] == session) {
            lent->claimants[cell] = PLAIN_NOBODY;
            lent->exclusives[cell] = 0;
        }
    }
    go_idle(record);
}

/* Makes `entry` the cell's entry i, the count where it has none. A new cell is locked and entered, or refused with 5 or 6; 0 if it is entered. */
static inline uint32_t enter_at(const plain_lent *lent, plain_session *record, uint8_t session, uint32_t cell, uint32_t i, uint32_t **entry)
{
    *entry = entry_at(lent, session, i);
    if (i < record->count) {
        return 0;
    }
    if (i == PLAIN_MAX_ENTRIES) {
        return 5;
    }
    if (lent->claimants[cell] != PLAIN_NOBODY) {
        roll_back(lent, record, session);
        return 6;
    }
    lent->readers[cell] |= (uint16_t)(1u << session);
    uint32_t value = lent->values[cell];
    (*entry)[CELL] = cell;
    (*entry)[SNAPSHOT_VALUE] = value;
    (*entry)[CURRENT_VALUE] = value;
    (*entry)[MARKS] = 0;
    record->count++;
    return 0;
}

static inline uint32_t enter(const plain_lent *lent, plain_session *record, uint8_t session, uint32_t cell, uint32_t **entry)
{
    return enter_at(lent, record, session, cell, find(entry_at(lent, session, 0), record->count, cell), entry);
}

/* Whether a table may be put in force: its first cap is not 0, and each other is above the one before it. */
static inline int passes(const uint32_t *caps)
{
    int rises = caps[0] > 0;
    for (int k = 1; k < PLAIN_CAPS; k++) {
        rises &= caps[k - 1] < caps[k];
    }
    return rises;
}

/* Set-up by this table, after the lengths and the table are judged. */
static inline plain_answer set_up_by(const plain_lent *lent, plain_session *sessions, const uint32_t *caps)
{
    size_t n = lent->values_len;
    for (size_t i = 0; i < n; i++) {
        uint8_t class = lent->classes[i];
        if (class > PLAIN_MAX_CLASS || lent->values[i] > caps[class]) {
            return answer(8);
        }
    }
    for (int s = 0; s < PLAIN_SESSIONS; s++) {
        go_idle(&sessions[s]);
    }
    memset(lent->readers, 0, n * sizeof lent->readers[0]);
    memset(lent->claimants, PLAIN_NOBODY, n);
    memset(lent->exclusives, 0, n);
    memset(lent->logs, 0, PLAIN_LOG_WORDS * sizeof lent->logs[0]);
    return answer(100);
}

plain_answer plain_set_up(const plain_lent *lent, plain_session *sessions)
{
    if (!lengths_fit(lent)) {
        return answer(7);
    }
    return set_up_by(lent, sessions, our_caps);
}

plain_answer plain_set_up_with_caps(const plain_lent *lent, plain_session *sessions, const uint32_t *caps, size_t caps_len)
{
    if (!lengths_fit(lent) || caps_len != PLAIN_CAPS) {
        return answer(7);
    }
    if (!passes(caps)) {
        return answer(16);
    }
    return set_up_by(lent, sessions, caps);
}

/* One pass over the cells: a class above 15 is told at once, a value above its new cap at the end. */
plain_answer plain_load_caps(const plain_lent *lent, plain_session *sessions, uint32_t *caps, size_t caps_len, const uint32_t *new_caps,
                             size_t new_caps_len)
{
    if (!lengths_fit(lent) || caps_len != PLAIN_CAPS || new_caps_len != PLAIN_CAPS) {
        return answer(7);
    }
    uint8_t phases = IDLE;
    for (int s = 0; s < PLAIN_SESSIONS; s++) {
        phases |= sessions[s].phase;
    }
    if (phases != IDLE) {
        return answer(2);
    }
    if (!passes(new_caps)) {
        return answer(16);
    }
    int above = 0;
    for (size_t i = 0; i < lent->values_len; i++) {
        uint8_t class = lent->classes[i];
        if (class > PLAIN_MAX_CLASS) {
            return answer(8);
        }
        above |= lent->values[i] > new_caps[class];
    }
    if (above) {
        return answer(17);
    }
    memcpy(caps, new_caps, PLAIN_CAPS * sizeof caps[0]);
    return answer(100);
}

plain_answer plain_begin(const plain_lent *lent, plain_session *sessions, uint8_t session)
{
    uint32_t refused = admit(lent, sessions, session, IDLE);
    if (refused) {
        return answer(refused);
    }
    plain_session *record = &sessions[session];
    record->phase = RUNNING;
    record->count = 0;
    record->next = 0;
    return answer(100);
}

/* A read; with 101 `entry` becomes the cell's entry. */
static inline plain_answer read_entry(const plain_lent *lent, plain_session *sessions, uint8_t session, uint32_t cell, uint32_t **entry)
{
    uint32_t refused = admit_cell(lent, sessions, session, cell);
    if (refused) {
        return answer(refused);
    }
    refused = enter(lent, &sessions[session], session, cell, entry);
    if (refused) {
        return answer(refused);
    }
    plain_answer found = {101, (*entry)[CURRENT_VALUE]};
    return found;
}

plain_answer plain_read(const plain_lent *lent, plain_session *sessions, uint8_t session, uint32_t cell)
{
    uint32_t *entry;
    return read_entry(lent, sessions, session, cell, &entry);
}

plain_answer plain_hold(const plain_lent *lent, plain_session *sessions, uint8_t session, uint32_t cell)
{
    uint32_t *entry = NULL;
    plain_answer found = read_entry(lent, sessions, session, cell, &entry);
    if (found.number == 101) {
        entry[MARKS] = HELD | (entry[MARKS] & DIRTY);
    }
    return found;
}

static inline plain_many_answer many_answer(uint32_t number, uint32_t count)
{
    plain_many_answer a = {number, count};
    return a;
}

/* The session and its log are judged once: an entry that a read appends is of a cell below n, and there is room for it. */
plain_many_answer plain_read_many(const plain_lent *lent, plain_session *sessions, uint8_t session, const uint32_t *cells, size_t cells_len,
                                  uint32_t *target, size_t target_len)
{
    if (cells_len == 0 || cells_len > PLAIN_MAX_LIST) {
        return many_answer(15, 0);
    }
    if (target_len < cells_len) {
        return many_answer(13, 0);
    }
    uint32_t refused = admit(lent, sessions, session, RUNNING);
    if (refused) {
        return many_answer(refused, 0);
    }
    plain_session *record = &sessions[session];
    const uint32_t *log = entry_at(lent, session, 0);
    uint64_t seen[PLAIN_MAX_CELLS / 64] = {0};
    for (uint32_t i = 0; i < record->count; i++) {
        uint32_t cell = log[PLAIN_ENTRY_WORDS * i + CELL];
        seen[cell / 64] |= UINT64_C(1) << (cell % 64);
    }
    for (uint32_t got = 0; got < cells_len; got++) {
        uint32_t cell = cells[got];
        if (cell >= lent->values_len) {
            return many_answer(3, got);
        }
        uint64_t bit = UINT64_C(1) << (cell % 64);
        uint32_t i = seen[cell / 64] & bit ? find(log, record->count, cell) : record->count;
        seen[cell / 64] |= bit;
        uint32_t *entry;
        refused = enter_at(lent, record, session, cell, i, &entry);
        if (refused) {
            return many_answer(refused, got);
        }
        target[got] = entry[CURRENT_VALUE];
    }
    return many_answer(101, (uint32_t)cells_len);
}

/* A write by this table, which is read and not judged. */
static inline plain_answer write_by(const plain_lent *lent, plain_session *sessions, const uint32_t *caps, uint8_t session, uint32_t cell,
                                    uint32_t value)
{
    uint32_t refused = admit_cell(lent, sessions, session, cell);
    if (refused) {
        return answer(refused);
    }
    uint8_t class = lent->classes[cell];
    if (class > PLAIN_MAX_CLASS) {
        return answer(8);
    }
    if (value > caps[class]) {
        return answer(4);
    }
    uint32_t *entry;
    refused = enter(lent, &sessions[session], session, cell, &entry);
    if (refused) {
        return answer(refused);
    }
    entry[CURRENT_VALUE] = value;
    entry[MARKS] = DIRTY | (entry[MARKS] & HELD);
    return answer(100);
}

plain_answer plain_write(const plain_lent *lent, plain_session *sessions, uint8_t session, uint32_t cell, uint32_t value)
{
    return write_by(lent, sessions, our_caps, session, cell, value);
}

plain_answer plain_write_with_caps(const plain_lent *lent, plain_session *sessions, const uint32_t *caps, size_t caps_len, uint8_t session,
                                   uint32_t cell, uint32_t value)
{
    if (caps_len != PLAIN_CAPS) {
        return answer(7);
    }
    return write_by(lent, sessions, caps, session, cell, value);
}

plain_answer plain_seal(const plain_lent *lent, plain_session *sessions, uint8_t session)
{
    uint32_t refused = admit(lent, sessions, session, RUNNING);
    if (refused) {
        return answer(refused);
    }
    plain_session *record = &sessions[session];
    const uint32_t *log = entry_at(lent, session, 0);
    uint64_t seen[PLAIN_MAX_CELLS / 64] = {0};
    int any = 0;
    for (uint32_t i = 0; i < record->count; i++) {
        const uint32_t *entry = log + PLAIN_ENTRY_WORDS * i;
        uint32_t cell = entry[CELL];
        uint64_t bit = UINT64_C(1) << (cell % 64);
        if (seen[cell / 64] & bit) {
            continue;
        }
        seen[cell / 64] |= bit;
        if (publishes(entry)) {
            any = 1;
        } else {
            leave(lent, session, cell);
        }
    }
    if (!any) {
        go_idle(record);
        return answer(105);
    }
    record->phase = PROMOTING;
    record->next = 0;
    return answer(102);
}

plain_answer plain_advance(const plain_lent *lent, plain_session *sessions, uint8_t session)
{
    publishing_step step = {0, 0};
    uint32_t refused = judge(lent, sessions, session, &step);
    if (refused) {
        return answer(refused);
    }
    plain_session *record = &sessions[session];
    if (record->phase < PROMOTING) {
        return answer(2);
    }
    const uint32_t *entry = entry_at(lent, session, step.entry);
    uint32_t cell = entry[CELL];
    if (record->phase == PROMOTING) {
        uint8_t claimant = lent->claimants[cell];
        if (claimant != PLAIN_NOBODY && claimant != session) {
            roll_back(lent, record, session);
            return answer(6);
        }
        lent->claimants[cell] = session;
        uint32_t others = lent->readers[cell] & ~(1u << session);
        if (others) {
            plain_answer waiting = {104, (uint32_t)__builtin_popcount(others)};
            return waiting;
        }
        lent->exclusives[cell] = 1;
    } else if (record->phase == PUBLISHING) {
        lent->values[cell] = entry[CURRENT_VALUE];
    } else {
        leave(lent, session, cell);
        lent->claimants[cell] = PLAIN_NOBODY;
        lent->exclusives[cell] = 0;
    }
    if (step.more) {
        record->next = (uint16_t)(cell + 1);
        return answer(103);
    }
    if (record->phase == RELEASING) {
        go_idle(record);
        return answer(105);
    }
    record->phase++;
    record->next = 0;
    return answer(103);
}

plain_answer plain_abandon(const plain_lent *lent, plain_session *sessions, uint8_t session)
{
    publishing_step step;
    uint32_t refused = judge(lent, sessions, session, &step);
    if (refused) {
        return answer(refused);
    }
    plain_session *record = &sessions[session];
    if (record->phase != RUNNING && record->phase != PROMOTING) {
        return answer(2);
    }
    roll_back(lent, record, session);
    return answer(100);
}

/* Judges a peek: 100 or a refusal. With 100 `entry` is the cell's entry. */
static inline uint32_t judge_peek(const plain_lent *lent, const plain_session *sessions, uint8_t session, uint32_t cell,
                                  const uint32_t **entry)
{
    uint32_t refused = admit_cell(lent, sessions, session, cell);
    if (refused) {
        return refused;
    }
    uint32_t count = sessions[session].count;
    uint32_t i = find(entry_at(lent, session, 0), count, cell);
    *entry = entry_at(lent, session, i);
    return i < count ? 100 : 14;
}

plain_answer plain_peek_number(const plain_lent *lent, const plain_session *sessions, uint8_t session, uint32_t cell)
{
    const uint32_t *entry;
    return answer(judge_peek(lent, sessions, session, cell, &entry));
}

plain_part plain_peek(const plain_lent *lent, const plain_session *sessions, uint8_t session, uint32_t cell)
{
    const uint32_t *entry = NULL;
    plain_part part = {NULL, 0};
    if (judge_peek(lent, sessions, session, cell, &entry) != 100) {
        return part;
    }
    part.words = entry[MARKS] & DIRTY ? &entry[CURRENT_VALUE] : &lent->values[cell];
    part.len = 1;
    return part;
}
