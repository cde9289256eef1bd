/* plain_store.h over the proved calls of include/rukkanei.h, so that whatever runs the plain store can run the proved one. A call is passed its
   session's record alone, and the one handed back is put in its place: the other fifteen are out of its reach. Set-up and load are passed all sixteen.
   Links with the archive for C. */
#include "plain_store.h"
#include "rukkanei.h"

#include <string.h>

#define LENT \
    lent->values, lent->values_len, lent->classes, lent->classes_len, lent->readers, lent->readers_len, lent->claimants, lent->claimants_len, \
        lent->exclusives, lent->exclusives_len, lent->logs, lent->logs_len

const char *store_name(void)
{
    return "proved calls for C";
}

/* The record to pass: the session's own; for a session above 15, which has none, one of the sixteen. */
static rukkanei_session record_of(const plain_session *sessions, uint8_t session)
{
    rukkanei_session record;
    memcpy(&record, &sessions[session % PLAIN_SESSIONS], sizeof record);
    return record;
}

/* The number; or 0, which no call gives, of a record that should have come back as it came and did not. */
static uint32_t unchanged(rukkanei_session passed, rukkanei_session came, uint32_t number)
{
    return memcmp(&passed, &came, sizeof passed) != 0 ? 0 : number;
}

/* Puts the record handed back in its place; that of a session above 15 must be the one passed. */
static uint32_t put_back(plain_session *sessions, uint8_t session, rukkanei_session came, uint32_t number)
{
    if (session >= PLAIN_SESSIONS) {
        return unchanged(record_of(sessions, session), came, number);
    }
    memcpy(&sessions[session], &came, sizeof came);
    return number;
}

static plain_answer answered(plain_session *sessions, uint8_t session, rukkanei_reply reply)
{
    return (plain_answer){put_back(sessions, session, reply.session, reply.number), reply.value};
}

/* All records, as a call that takes the sixteen is passed them. */
static rukkanei_sessions records_of(const plain_session *sessions)
{
    rukkanei_sessions all;
    memcpy(&all, sessions, sizeof all);
    return all;
}

/* Puts the sixteen records handed back in their places. */
static plain_answer answered_for_all(plain_session *sessions, rukkanei_set_up_reply reply)
{
    memcpy(sessions, &reply.sessions, sizeof reply.sessions);
    return (plain_answer){reply.number, reply.value};
}

plain_answer plain_set_up(const plain_lent *lent, plain_session *sessions)
{
    return answered_for_all(sessions, rukkanei_set_up(records_of(sessions), LENT));
}

plain_answer plain_set_up_with_caps(const plain_lent *lent, plain_session *sessions, const uint32_t *caps, size_t caps_len)
{
    return answered_for_all(sessions, rukkanei_set_up_with_caps(records_of(sessions), LENT, caps, caps_len));
}

plain_answer plain_load_caps(const plain_lent *lent, plain_session *sessions, uint32_t *caps, size_t caps_len, const uint32_t *new_caps,
                             size_t new_caps_len)
{
    return answered_for_all(sessions, rukkanei_load_caps(records_of(sessions), LENT, caps, caps_len, new_caps, new_caps_len));
}

plain_answer plain_begin(const plain_lent *lent, plain_session *sessions, uint8_t session)
{
    return answered(sessions, session, rukkanei_begin(record_of(sessions, session), LENT, session));
}

plain_answer plain_read(const plain_lent *lent, plain_session *sessions, uint8_t session, uint32_t cell)
{
    return answered(sessions, session, rukkanei_read(record_of(sessions, session), LENT, session, cell));
}

plain_answer plain_hold(const plain_lent *lent, plain_session *sessions, uint8_t session, uint32_t cell)
{
    return answered(sessions, session, rukkanei_hold(record_of(sessions, session), LENT, session, cell));
}

plain_many_answer plain_read_many(const plain_lent *lent, plain_session *sessions, uint8_t session, const uint32_t *cells, size_t cells_len,
                                  uint32_t *target, size_t target_len)
{
    rukkanei_read_many_reply reply = rukkanei_read_many(record_of(sessions, session), LENT, session, cells, cells_len, target, target_len);
    return (plain_many_answer){put_back(sessions, session, reply.session, reply.number), reply.count};
}

plain_answer plain_write(const plain_lent *lent, plain_session *sessions, uint8_t session, uint32_t cell, uint32_t value)
{
    return answered(sessions, session, rukkanei_write(record_of(sessions, session), LENT, session, cell, value));
}

plain_answer plain_write_with_caps(const plain_lent *lent, plain_session *sessions, const uint32_t *caps, size_t caps_len, uint8_t session,
                                   uint32_t cell, uint32_t value)
{
    return answered(sessions, session, rukkanei_write_with_caps(record_of(sessions, session), LENT, caps, caps_len, session, cell, value));
}

plain_answer plain_seal(const plain_lent *lent, plain_session *sessions, uint8_t session)
{
    return answered(sessions, session, rukkanei_seal(record_of(sessions, session), LENT, session));
}

plain_answer plain_advance(const plain_lent *lent, plain_session *sessions, uint8_t session)
{
    return answered(sessions, session, rukkanei_advance(record_of(sessions, session), LENT, session));
}

plain_answer plain_abandon(const plain_lent *lent, plain_session *sessions, uint8_t session)
{
    return answered(sessions, session, rukkanei_abandon(record_of(sessions, session), LENT, session));
}

plain_answer plain_peek_number(const plain_lent *lent, const plain_session *sessions, uint8_t session, uint32_t cell)
{
    rukkanei_session record = record_of(sessions, session);
    rukkanei_reply reply = rukkanei_peek_number(record, LENT, session, cell);
    return (plain_answer){unchanged(record, reply.session, reply.number), reply.value};
}

plain_part plain_peek(const plain_lent *lent, const plain_session *sessions, uint8_t session, uint32_t cell)
{
    size_t index = 0;
    plain_part none = {lent->values, 0};
    switch (rukkanei_peek_place(record_of(sessions, session), LENT, session, cell, &index)) {
    case RUKKANEI_IN_VALUES:
        return (plain_part){lent->values + index, 1};
    case RUKKANEI_IN_LOGS:
        return (plain_part){lent->logs + index, 1};
    default:
        return none;
    }
}
