/* A second reader and writer of fields, made from documents 01 and 02 alone: it shares no number, table or function with the proved code or with
 * include/rukkanei.h. With BROKEN set to 1 .. 7 it has one fault each, so that the comparison can be seen to fail. */
#ifndef EXPECTED_FIELDS_H
#define EXPECTED_FIELDS_H

#include <stddef.h>
#include <stdint.h>
#include <string.h>

#ifndef BROKEN
#define BROKEN 0
#endif

struct numbers {
    uint8_t tag, session, class_byte;
    uint16_t cell;
    uint32_t value;
};

/* What a body holds, a letter for each byte: s session, k class, c cell, v value. NULL: there is no such tag. */
static const char *body_of(unsigned tag) {
    switch (tag) {
    case 1:
    case 4:
    case 5:
    case 6:
        return "s";
    case 2:
        return BROKEN == 1 ? "sccc" : "scc";
    case 9:
        return BROKEN == 7 ? NULL : "scc";
    case 3:
        return "sccvvvv";
    case 8:
        return "kvvvv";
    default:
        return NULL;
    }
}

static unsigned expected_read(const uint8_t *bytes, size_t size, size_t place, struct numbers *out, size_t *length) {
    const char *body;
    size_t left = place < size ? size - place : 0;
    struct numbers n = {0, 0, 0, 0, 0};
    unsigned cells = 0, values = 0;
    if (left == 0)
        return BROKEN == 2 ? 10 : 106;
    if (left < 3)
        return 10;
    bytes += place;
    body = body_of(bytes[0]);
    if (body == NULL)
        return BROKEN == 3 && bytes[1] != 0 ? 12 : 11;
    if ((bytes[2] << 8 | bytes[1]) != (int)strlen(body))
        return 12;
    if (left < 3 + strlen(body))
        return 10;
    n.tag = bytes[0];
    for (size_t i = 0; body[i] != 0; i++) {
        uint8_t b = bytes[3 + i];
        switch (body[i]) {
        case 's':
            n.session = b;
            break;
        case 'k':
            n.class_byte = b;
            break;
        case 'c':
            n.cell = (uint16_t)(n.cell | (unsigned)b << 8 * cells++);
            break;
        default:
            n.value |= (uint32_t)b << 8 * (BROKEN == 4 ? 3 - values : values);
            values++;
            break;
        }
    }
    *out = n;
    *length = 3 + strlen(body);
    return 100;
}

static unsigned expected_write(uint8_t *target, size_t size, struct numbers n, size_t *length) {
    const char *body = body_of(n.tag);
    *length = 0;
    if (BROKEN == 5 && size < 4)
        return 13;
    if (body == NULL)
        return 11;
    if (size < 3 + strlen(body))
        return 13;
    *length = 3 + strlen(body);
    target[0] = n.tag;
    target[1] = (uint8_t)strlen(body);
    target[2] = 0;
    for (size_t i = 0; body[i] != 0; i++) {
        uint8_t b;
        switch (body[i]) {
        case 's':
            b = n.session;
            break;
        case 'k':
            b = n.class_byte;
            break;
        case 'c':
            b = (uint8_t)n.cell;
            n.cell = (uint16_t)(n.cell >> 8);
            break;
        default:
            b = (uint8_t)n.value;
            n.value >>= 8;
            break;
        }
        target[3 + i] = b;
    }
    if (BROKEN == 6 && size > *length)
        target[*length] = 0;
    return 100;
}

#endif
