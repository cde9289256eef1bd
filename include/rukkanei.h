/* Rukkanei for C99 and C++: the call fields and the store of document 01, with Papers 1 to 6 of document 02. One archive has every function of
 * this file: link librukkanei.a, which scripts/install puts beside this header. It needs memcpy and memset of the C library at most.
 *
 * Every function answers for every number and every content of what it is lent. None keeps a pointer, allocates, or calls anything of yours.
 * A function asks this of its caller, and nothing else:
 *
 *   - no pointer is NULL, not even with a length of 0, and each is aligned for its type;
 *   - a buffer has as many elements as the length after it says;
 *   - what a call may write, behind each pointer that is not to const, overlaps nothing else that the call is lent;
 *   - while the call runs, nothing else (a thread, an interrupt handler) writes what is lent, or reads what the call may write: whoever has
 *     several threads puts a lock around the calls. */
#ifndef RUKKANEI_H
#define RUKKANEI_H

#include <stddef.h>
#include <stdint.h>

#ifdef __cplusplus
extern "C" {
#endif

/* ---- Answers ---- */

/* Good answers. */
#define RUKKANEI_DONE 100          /* done: of a field too */
#define RUKKANEI_VALUE 101         /* read or held, and the value is beside it */
#define RUKKANEI_SEALED 102        /* sealed, with cells to publish */
#define RUKKANEI_MOVED 103         /* one cell further, of those to publish */
#define RUKKANEI_WAITING 104       /* others read the cell that is to be promoted: the value is how many */
#define RUKKANEI_COMMITTED 105     /* the transaction is over, and the session idle */
#define RUKKANEI_END_OF_FIELDS 106 /* no bytes are left at the place */

/* Refusals of the calls, in the order in which they are tested; the first two are of many reads alone. */
#define RUKKANEI_WRONG_LIST 15     /* list of cells empty or longer than 32 */
#define RUKKANEI_SHORT_TARGET 13   /* target shorter than the list of cells; of a field: shorter than the field */
#define RUKKANEI_WRONG_LENGTHS 7   /* n outside 1 to 1,024, classes or locks not n long, logs not 2,048 words, a table not of 16 caps */
#define RUKKANEI_NO_SUCH_SESSION 1 /* session above 15 */
#define RUKKANEI_DAMAGED_RECORD 9  /* phase above 4; in phases 1 to 4 a count above 32 or an entered cell not below n;
                                      in phases 2 to 4 no cell to publish at or above next */
#define RUKKANEI_WRONG_PHASE 2     /* the call does not fit the session's phase; at a load: a session is not idle */
#define RUKKANEI_NO_SUCH_CELL 3    /* cell not below n */
#define RUKKANEI_UNFIT_CAPS 16     /* at set-up and at a load: the first cap is 0, or one is not above the one before it */
#define RUKKANEI_NO_SUCH_CLASS 8   /* class above 15; at set-up also a value above its cap */
#define RUKKANEI_ABOVE_NEW_CAP 17  /* at a load: a value above its cap in the new table */
#define RUKKANEI_ABOVE_CAP 4       /* written value above its cap */
#define RUKKANEI_NOT_IN_LOG 14     /* peeked cell not in the log */
#define RUKKANEI_LOG_FULL 5        /* new cell with 32 entries in the log */
#define RUKKANEI_CONFLICT 6        /* lock claimed: the session has been rolled back */

/* Refusals of the field functions, beside RUKKANEI_SHORT_TARGET. */
#define RUKKANEI_CUT_SHORT 10    /* fewer bytes are left than the field has */
#define RUKKANEI_UNKNOWN_TAG 11  /* no field has this tag */
#define RUKKANEI_WRONG_LENGTH 12 /* the field's length is not the tag's own */

/* ---- Call fields: how a call travels ----
 *
 * A field is a tag byte, a two-byte length and a body. Numbers of several bytes are little-endian.
 *
 *   tag   kind            body                                              field's length
 *   01    begin           session (1 byte)                                               4
 *   02    read            session (1), cell (2)                                          6
 *   03    write           session (1), cell (2), value (4)                              10
 *   04    seal            session (1)                                                    4
 *   05    advance         session (1)                                                    4
 *   06    abandon         session (1)                                                    4
 *   08    starting cell   class (1), value (4)                                           8
 *   09    hold            session (1), cell (2)                                          6
 *
 * No session, class, cell or value is judged here: the store does that. */
#define RUKKANEI_TAG_BEGIN 0x01
#define RUKKANEI_TAG_READ 0x02
#define RUKKANEI_TAG_WRITE 0x03
#define RUKKANEI_TAG_SEAL 0x04
#define RUKKANEI_TAG_ADVANCE 0x05
#define RUKKANEI_TAG_ABANDON 0x06
#define RUKKANEI_TAG_STARTING_CELL 0x08
#define RUKKANEI_TAG_HOLD 0x09

/* A target of this many bytes has room for any field. */
#define RUKKANEI_FIELD_MAX 10

/* Reads the field that starts at index `place` of the `bytes_len` bytes at `bytes`.
 *
 * Answers, in the order of the tests:
 *   106  no bytes are left: `place` is `bytes_len` or more
 *    10  fewer than three bytes are left
 *    11  the tag is unknown
 *    12  the length is not the tag's own
 *    10  bytes of the body are missing
 *   100  the field was read
 *
 * With 100, *tag, *session, *cell_class, *cell and *value hold the call's numbers, those that the tag does not carry as 0, and *length holds
 * the field's length: the next field starts at `place + *length`. With any other answer all six are as before. A refused field's place, its
 * first byte, is always the `place` that was passed, so it is not handed back (`refused_where_asked`, crates/field/proofs/Readings.antt). */
uint8_t rukkanei_field_read(const uint8_t *bytes, size_t bytes_len, size_t place, uint8_t *tag, uint8_t *session, uint8_t *cell_class,
                            uint16_t *cell, uint32_t *value, size_t *length);

/* Writes the field of one call at the front of the `target_len` bytes at `target`. Numbers that the tag does not carry are ignored.
 *
 * Answers, in the order of the tests:
 *    11  the tag is unknown
 *    13  the target is shorter than the field
 *   100  the field was written
 *
 * With 100, *length holds the field's length, and that many bytes at the front of the target are the field; the bytes after them are as
 * before. With 11 and 13, *length holds 0 and every byte of the target is as before. */
uint8_t rukkanei_field_write(uint8_t *target, size_t target_len, uint8_t tag, uint8_t session, uint8_t cell_class, uint16_t cell,
                             uint32_t value, size_t *length);

/* ---- The store: one function for each call of document 01, one for many reads, one for hold and three for a table of your own ----
 *
 * The caller lends every buffer and keeps it between calls. With n cells, n from 1 to 1,024:
 *
 *   values      n words, one number to a cell
 *   classes     n bytes, 0 to 15; the cap of a cell's values goes by its class
 *   readers     n 16-bit sets, bit s for session s
 *   claimants   n bytes, a session or 16 for nobody
 *   exclusives  n bytes, the writer marks
 *   logs        2,048 words, 128 to a session
 *   caps        16 words, a table: one cap to a class; lent only to the three calls that name it
 *
 * Whoever lends no table has document 01's: 1, 6, 8, 10, 12, 15, 18, 21, 24, 27, 30, 36, 42, 48, 60 and 4294967295. Whoever goes by a table of his own
 * sets up with it, passes it to every write, and changes it by rukkanei_load_caps alone: then no value in the store and none written is ever above its
 * cap in that table. A write without a table goes by document 01's, whatever is in force. The other calls read no caps.
 *
 * The caller also keeps sixteen records, one to a session. A call takes the record of the session that calls, by value, and hands it back in the
 * reply; the caller puts it in its place, whatever the number. A record belongs to its session's number: what is promised of a list of calls is of
 * a list in which each session is passed the record that set-up or its own last call handed back.
 *
 * From its seal on a session has these cells to publish: those that it held, and those that it changed. It has changed a cell if it wrote it and the
 * value that it wrote last is not the one that it found there when the cell was entered in its log. A cell that it held is published with the value
 * that it wrote last, or, where it wrote none, with the one found. Any other cell in its log counts as read: writing back the value found collides
 * with nobody.
 *
 * In a reply `number` is one of the answers above, and `value` is 0 except with 101 and 104. With 104 it is how many other sessions are in the cell's
 * reader set, 1 to 15; in a list of calls from a set-up, how many others run with the cell in their log, or are in phase 2 with the cell to publish.
 *
 * A refusal other than 6 leaves everything as before and hands the record back as it came; 6 has rolled the session back. Of many reads this holds of
 * the read that was refused: what the reads before it left stays. A session above 15 has no record, so do not look one up: pass any, and it comes back
 * as it came, with 1 (or with what is tested first). */
#define RUKKANEI_SESSIONS 16
#define RUKKANEI_CELLS_MAX 1024
#define RUKKANEI_LOG_WORDS 2048
#define RUKKANEI_READ_MANY_MAX 32
#define RUKKANEI_CAPS 16

/* A session's record: phase (0 idle, 1 running, 2 promoting, 3 publishing, 4 releasing), entry count, next cell. */
typedef struct {
    uint8_t phase;
    uint8_t count;
    uint16_t next;
} rukkanei_session;

/* All records: session s has records[s]. */
typedef struct {
    rukkanei_session records[RUKKANEI_SESSIONS];
} rukkanei_sessions;

typedef struct {
    uint32_t number;
    uint32_t value;
    rukkanei_session session;
} rukkanei_reply;

typedef struct {
    uint32_t number;
    uint32_t value;
    rukkanei_sessions sessions;
} rukkanei_set_up_reply;

/* The last answer of many reads, how many values they got, and the record. */
typedef struct {
    uint32_t number;
    uint32_t count;
    rukkanei_session session;
} rukkanei_read_many_reply;

/* Makes all sessions idle, all locks empty and all log words 0. 100; 7 or 8, and all is as before. */
rukkanei_set_up_reply rukkanei_set_up(rukkanei_sessions sessions, const uint32_t *values, size_t values_len, const uint8_t *classes,
                                      size_t classes_len, uint16_t *readers, size_t readers_len, uint8_t *claimants, size_t claimants_len,
                                      uint8_t *exclusives, size_t exclusives_len, uint32_t *logs, size_t logs_len);

/* Set-up by a table of your own, which is only read: caps from 1 on that rise strictly. What rukkanei_set_up leaves.
 *
 * Answers, in the order of the tests:
 *     7  as of set-up, or the table has not 16 caps
 *    16  the first cap is 0, or one is not above the one before it
 *     8  a class above 15, or a value above its cap in this table
 *   100  set up
 *
 * With 7, 16 and 8 all is as before. There is no call field of this call, of a write by a table or of a load. */
rukkanei_set_up_reply rukkanei_set_up_with_caps(rukkanei_sessions sessions, const uint32_t *values, size_t values_len, const uint8_t *classes,
                                                size_t classes_len, uint16_t *readers, size_t readers_len, uint8_t *claimants,
                                                size_t claimants_len, uint8_t *exclusives, size_t exclusives_len, uint32_t *logs,
                                                size_t logs_len, const uint32_t *caps, size_t caps_len);

/* Puts another table in force while every session is idle: the sixteen words of `new_caps` are copied to `caps`, and nothing else changes. The table in
 * force need not be one that may be loaded: its length alone is tested.
 *
 * Answers, in the order of the tests:
 *     7  as of set-up, or one of the tables has not 16 caps
 *     2  a session is not idle: its phase is not 0, a damaged one too
 *    16  the first new cap is 0, or one is not above the one before it
 *     8  a class above 15
 *    17  a value above its cap in the new table
 *   100  the new table is in force
 *
 * With the refusals all is as before, and the old table stays in force. The records come back as they came, with 100 too. The tables do not overlap:
 * a load of the table in force itself is one of a copy. */
rukkanei_set_up_reply rukkanei_load_caps(rukkanei_sessions sessions, const uint32_t *values, size_t values_len, const uint8_t *classes,
                                         size_t classes_len, const uint16_t *readers, size_t readers_len, const uint8_t *claimants,
                                         size_t claimants_len, const uint8_t *exclusives, size_t exclusives_len, const uint32_t *logs,
                                         size_t logs_len, uint32_t *caps, size_t caps_len, const uint32_t *new_caps, size_t new_caps_len);

/* An idle session runs, with no entry. 100. */
rukkanei_reply rukkanei_begin(rukkanei_session record, const uint32_t *values, size_t values_len, const uint8_t *classes, size_t classes_len,
                              const uint16_t *readers, size_t readers_len, const uint8_t *claimants, size_t claimants_len,
                              const uint8_t *exclusives, size_t exclusives_len, const uint32_t *logs, size_t logs_len, uint8_t session);

/* A running session reads a cell. 101 with the value; the first time the cell is locked for reading and entered in the log. */
rukkanei_reply rukkanei_read(rukkanei_session record, const uint32_t *values, size_t values_len, const uint8_t *classes, size_t classes_len,
                             uint16_t *readers, size_t readers_len, uint8_t *claimants, size_t claimants_len, uint8_t *exclusives,
                             size_t exclusives_len, uint32_t *logs, size_t logs_len, uint8_t session, uint32_t cell);

/* A running session reads a cell and holds it: what rukkanei_read answers and leaves, and with 101 the cell is one to publish, written or not. A hold
 * keeps nobody out: several sessions may hold a cell. The first of them to advance to it claims it and waits, 104, until the others are gone; one of
 * these that advances to it is rolled back, 6.
 *
 * Hold what you read where two sessions must not change cells crosswise, each by what it read of the other's. If each committed transaction that
 * changed or held a cell changed or held every cell that it read before writing it, by many reads too, then all that they read, and the values
 * whenever no session is in phase 3, are as if they had run whole, one after the other: by the answer 103 that promoted the last cell, or by the
 * seal of one that had none to publish. A transaction that reads by holds alone meets this, whatever it writes,
 * and what it read is of that order whatever the others do. */
rukkanei_reply rukkanei_hold(rukkanei_session record, const uint32_t *values, size_t values_len, const uint8_t *classes, size_t classes_len,
                             uint16_t *readers, size_t readers_len, uint8_t *claimants, size_t claimants_len, uint8_t *exclusives,
                             size_t exclusives_len, uint32_t *logs, size_t logs_len, uint8_t session, uint32_t cell);

/* A running session reads the cells of a list, 1 to 32 of them: what rukkanei_read would answer for each in turn, up to the first answer other than
 * 101. A cell that comes again is not entered again: its value is the log's. None becomes held by this, and held cells stay held.
 *
 * Answers, in the order of the tests:
 *    15  the list is empty or longer than 32
 *    13  the target is shorter than the list
 *     7, 1, 9, 2  as of a single read
 *     3, 5, 6     as of a single read, of the first cell that is refused
 *   101  every cell was read
 *
 * `count` is how many values were got: with 101 the list's length, with 3, 5 and 6 the index of the refused cell in the list, else 0. That many words
 * at the front of the target are the values, in the list's order; the words after them are as before. Record and buffers are what the single reads
 * leave: with 3 and 5 the cells before stay locked and entered, with 6 the session has been rolled back and the values stay in the target. With the
 * other refusals everything is as before. There is no call field of this call. */
rukkanei_read_many_reply rukkanei_read_many(rukkanei_session record, const uint32_t *values, size_t values_len, const uint8_t *classes, size_t classes_len,
                                            uint16_t *readers, size_t readers_len, uint8_t *claimants, size_t claimants_len, uint8_t *exclusives,
                                            size_t exclusives_len, uint32_t *logs, size_t logs_len, uint8_t session, const uint32_t *cells,
                                            size_t cells_len, uint32_t *target, size_t target_len);

/* A running session writes a cell, into its log, also where the value is the one found. 100; a new cell is locked and entered as by read, a held one
   stays held. */
rukkanei_reply rukkanei_write(rukkanei_session record, const uint32_t *values, size_t values_len, const uint8_t *classes, size_t classes_len,
                              uint16_t *readers, size_t readers_len, uint8_t *claimants, size_t claimants_len, uint8_t *exclusives,
                              size_t exclusives_len, uint32_t *logs, size_t logs_len, uint8_t session, uint32_t cell, uint32_t written);

/* A write by the table that is lent, one that may not be loaded too: 7 where it has not 16 caps, 8 and 4 by it, and all else as of rukkanei_write. */
rukkanei_reply rukkanei_write_with_caps(rukkanei_session record, const uint32_t *values, size_t values_len, const uint8_t *classes,
                                        size_t classes_len, uint16_t *readers, size_t readers_len, uint8_t *claimants, size_t claimants_len,
                                        uint8_t *exclusives, size_t exclusives_len, uint32_t *logs, size_t logs_len, const uint32_t *caps,
                                        size_t caps_len, uint8_t session, uint32_t cell, uint32_t written);

/* A running session takes its snapshot: it leaves the readers of every cell but those to publish. 105 where there are none, and it is idle; else 102. */
rukkanei_reply rukkanei_seal(rukkanei_session record, const uint32_t *values, size_t values_len, const uint8_t *classes, size_t classes_len,
                             uint16_t *readers, size_t readers_len, const uint8_t *claimants, size_t claimants_len, const uint8_t *exclusives,
                             size_t exclusives_len, const uint32_t *logs, size_t logs_len, uint8_t session);

/* A sealed session goes one cell further, of those to publish: promotes, publishes or releases it. 103; 105 at the end. While others read the cell that
   it is to promote, 104 with their number: it has claimed the cell, so no new ones come, and it asks again. */
rukkanei_reply rukkanei_advance(rukkanei_session record, uint32_t *values, size_t values_len, const uint8_t *classes, size_t classes_len,
                                uint16_t *readers, size_t readers_len, uint8_t *claimants, size_t claimants_len, uint8_t *exclusives,
                                size_t exclusives_len, const uint32_t *logs, size_t logs_len, uint8_t session);

/* A running or promoting session is rolled back. 100. */
rukkanei_reply rukkanei_abandon(rukkanei_session record, const uint32_t *values, size_t values_len, const uint8_t *classes, size_t classes_len,
                                uint16_t *readers, size_t readers_len, uint8_t *claimants, size_t claimants_len, uint8_t *exclusives,
                                size_t exclusives_len, const uint32_t *logs, size_t logs_len, uint8_t session);

/* Whether a running session has a cell in its log: 100, or a refusal. Nothing changes, and the record comes back as it came. */
rukkanei_reply rukkanei_peek_number(rukkanei_session record, const uint32_t *values, size_t values_len, const uint8_t *classes,
                                    size_t classes_len, const uint16_t *readers, size_t readers_len, const uint8_t *claimants,
                                    size_t claimants_len, const uint8_t *exclusives, size_t exclusives_len, const uint32_t *logs,
                                    size_t logs_len, uint8_t session, uint32_t cell);

/* Where a peek's word is. */
#define RUKKANEI_NOWHERE 0
#define RUKKANEI_IN_VALUES 1
#define RUKKANEI_IN_LOGS 2

/* The word that a running session's peek shows, in place of the part that a peek hands back: the store's own, `values[*index]`, of a cell that
   it has not written, held or not, or the log's own, `logs[*index]`, of one that it has, whatever the value. 0, with *index as before, where the
   peek is refused; rukkanei_peek_number tells why. */
uint8_t rukkanei_peek_place(rukkanei_session record, const uint32_t *values, size_t values_len, const uint8_t *classes, size_t classes_len,
                            const uint16_t *readers, size_t readers_len, const uint8_t *claimants, size_t claimants_len,
                            const uint8_t *exclusives, size_t exclusives_len, const uint32_t *logs, size_t logs_len, uint8_t session,
                            uint32_t cell, size_t *index);

#ifdef __cplusplus
}
#endif

#endif
