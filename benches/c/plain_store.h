/* A plain C store with the steps of document 01 and Papers 1 to 6 of document 02, on lent buffers: the baseline of the proved store's speed. */
#ifndef PLAIN_STORE_H
#define PLAIN_STORE_H

#include <stddef.h>
#include <stdint.h>

enum {
    PLAIN_SESSIONS = 16,
    PLAIN_MAX_CELLS = 1024,
    PLAIN_MAX_ENTRIES = 32,
    PLAIN_ENTRY_WORDS = 4,
    PLAIN_SESSION_WORDS = 128,
    PLAIN_LOG_WORDS = 2048,
    PLAIN_MAX_LIST = 32,
    PLAIN_NOBODY = 16,
    PLAIN_MAX_CLASS = 15,
    PLAIN_CAPS = 16
};

/* A session's record. */
typedef struct {
    uint8_t phase;
    uint8_t count;
    uint16_t next;
} plain_session;

/* Document 01's number, and a value (figure): what was read with 101, the number of other readers with 104, and else 0. */
typedef struct {
    uint32_t number;
    uint32_t value;
} plain_answer;

/* The last answer's number of many reads, and how many values they got. */
typedef struct {
    uint32_t number;
    uint32_t count;
} plain_many_answer;

/* A peek's part: one word of the values or of the logs, or none. */
typedef struct {
    const uint32_t *words;
    size_t len;
} plain_part;

/* What the caller lends, each run with its length. `exclusives` are the writer marks. */
typedef struct {
    uint32_t *values;
    size_t values_len;
    const uint8_t *classes;
    size_t classes_len;
    uint16_t *readers;
    size_t readers_len;
    uint8_t *claimants;
    size_t claimants_len;
    uint8_t *exclusives;
    size_t exclusives_len;
    uint32_t *logs;
    size_t logs_len;
} plain_lent;

/* What stands behind these functions: this plain C store, or the proved one (tests/c/proved_store.c). */
const char *store_name(void);

/* Every call takes the sixteen records behind `sessions`. */
plain_answer plain_set_up(const plain_lent *lent, plain_session *sessions);
/* The same by the caller's own table of caps. */
plain_answer plain_set_up_with_caps(const plain_lent *lent, plain_session *sessions, const uint32_t *caps, size_t caps_len);
/* Puts a new table of caps in force. */
plain_answer plain_load_caps(const plain_lent *lent, plain_session *sessions, uint32_t *caps, size_t caps_len, const uint32_t *new_caps,
                             size_t new_caps_len);
plain_answer plain_begin(const plain_lent *lent, plain_session *sessions, uint8_t session);
plain_answer plain_read(const plain_lent *lent, plain_session *sessions, uint8_t session, uint32_t cell);
plain_answer plain_hold(const plain_lent *lent, plain_session *sessions, uint8_t session, uint32_t cell);
plain_many_answer plain_read_many(const plain_lent *lent, plain_session *sessions, uint8_t session, const uint32_t *cells, size_t cells_len,
                                  uint32_t *target, size_t target_len);
plain_answer plain_write(const plain_lent *lent, plain_session *sessions, uint8_t session, uint32_t cell, uint32_t value);
/* The same by the table of caps in force. */
plain_answer plain_write_with_caps(const plain_lent *lent, plain_session *sessions, const uint32_t *caps, size_t caps_len, uint8_t session,
                                   uint32_t cell, uint32_t value);
plain_answer plain_seal(const plain_lent *lent, plain_session *sessions, uint8_t session);
plain_answer plain_advance(const plain_lent *lent, plain_session *sessions, uint8_t session);
plain_answer plain_abandon(const plain_lent *lent, plain_session *sessions, uint8_t session);
plain_answer plain_peek_number(const plain_lent *lent, const plain_session *sessions, uint8_t session, uint32_t cell);
plain_part plain_peek(const plain_lent *lent, const plain_session *sessions, uint8_t session, uint32_t cell);

#endif
