/* Turns a text form of call lists into call fields, and back; all fields pass through the two functions of field_io.h.
   One line is one field: cell CLASS FIGURE, begin S, read S CELL, hold S CELL, write S CELL FIGURE, seal S, advance S, abandon S. */
#include "field_io.h"

#include <stdio.h>
#include <stdlib.h>
#include <string.h>

/* A run of bytes that grows. */
typedef struct {
    uint8_t *bytes;
    size_t len;
    size_t room;
} buffer;

/* A field's word, its tag, and the largest of each number on its line, in order. */
typedef struct {
    const char *word;
    uint8_t tag;
    int numbers;
    uint32_t largest[3];
    const char *names[3];
} form;

static const form forms[] = {
    {"cell", TAG_CELL, 2, {255, UINT32_MAX}, {"class", "figure"}},
    {"begin", TAG_BEGIN, 1, {255}, {"session"}},
    {"read", TAG_READ, 2, {255, 65535}, {"session", "cell"}},
    {"hold", TAG_HOLD, 2, {255, 65535}, {"session", "cell"}},
    {"write", TAG_WRITE, 3, {255, 65535, UINT32_MAX}, {"session", "cell", "figure"}},
    {"seal", TAG_SEAL, 1, {255}, {"session"}},
    {"advance", TAG_ADVANCE, 1, {255}, {"session"}},
    {"abandon", TAG_ABANDON, 1, {255}, {"session"}},
};

enum { FORMS = sizeof forms / sizeof forms[0], MAX_WORDS = 5, MAX_REASON = 160 };

static void fail(const char *reason)
{
    fprintf(stderr, "calls: %s\n", reason);
    exit(2);
}

/* Makes room for `more` bytes after the present ones. */
static void grow(buffer *b, size_t more)
{
    if (b->room - b->len >= more) {
        return;
    }
    size_t room = b->room ? b->room * 2 : 65536;
    while (room - b->len < more) {
        room *= 2;
    }
    b->bytes = realloc(b->bytes, room);
    if (b->bytes == NULL) {
        fail("out of memory");
    }
    b->room = room;
}

static buffer read_all(FILE *file)
{
    buffer b = {NULL, 0, 0};
    size_t got;
    do {
        grow(&b, 65536);
        got = fread(b.bytes + b.len, 1, b.room - b.len, file);
        b.len += got;
    } while (got > 0);
    if (ferror(file)) {
        fail("standard input cannot be read");
    }
    return b;
}

static void write_all(const buffer *b)
{
    if ((b->len > 0 && fwrite(b->bytes, 1, b->len, stdout) != b->len) || fflush(stdout) != 0) {
        fail("standard output cannot be written");
    }
}

/* Cuts a line into words at blanks, up to a comment; a word too many is counted and not kept. */
static int split(char *line, char **words)
{
    int count = 0;
    line[strcspn(line, "#")] = '\0';
    for (char *word = strtok(line, " \t\r"); word != NULL; word = strtok(NULL, " \t\r")) {
        if (count < MAX_WORDS) {
            words[count] = word;
        }
        count++;
    }
    return count;
}

/* The decimal number of a word, if it is one and at most `largest`. */
static int parse_number(const char *word, uint32_t largest, uint32_t *number)
{
    uint64_t sum = 0;
    for (const char *digit = word; *digit; digit++) {
        if (*digit < '0' || *digit > '9') {
            return 0;
        }
        sum = sum * 10 + (uint64_t)(*digit - '0');
        if (sum > largest) {
            return 0;
        }
    }
    *number = (uint32_t)sum;
    return 1;
}

static const form *find_form(const char *word)
{
    for (int i = 0; i < FORMS; i++) {
        if (strcmp(forms[i].word, word) == 0) {
            return &forms[i];
        }
    }
    return NULL;
}

static call_field make_field(const form *f, const uint32_t *numbers)
{
    call_field field = {f->tag, 0, 0, 0, 0};
    if (f->tag == TAG_CELL) {
        field.class = (uint8_t)numbers[0];
        field.value = numbers[1];
        return field;
    }
    field.session = (uint8_t)numbers[0];
    field.cell = f->numbers > 1 ? (uint16_t)numbers[1] : 0;
    field.value = f->numbers > 2 ? numbers[2] : 0;
    return field;
}

/* Appends the field of a line, or nothing for a blank one; 0 with a reason if the line is bad. */
static int encode_line(char *line, buffer *out, char *reason)
{
    char *words[MAX_WORDS];
    int count = split(line, words);
    if (count == 0) {
        return 1;
    }
    const form *f = find_form(words[0]);
    if (f == NULL) {
        snprintf(reason, MAX_REASON, "unknown word '%.40s'", words[0]);
        return 0;
    }
    if (count != f->numbers + 1) {
        snprintf(reason, MAX_REASON, "%s takes %d number%s, not %d", f->word, f->numbers, f->numbers > 1 ? "s" : "", count - 1);
        return 0;
    }
    uint32_t numbers[3] = {0, 0, 0};
    for (int i = 0; i < f->numbers; i++) {
        if (!parse_number(words[i + 1], f->largest[i], &numbers[i])) {
            snprintf(reason, MAX_REASON, "%s '%.40s' is not a number from 0 to %lu", f->names[i], words[i + 1],
                     (unsigned long)f->largest[i]);
            return 0;
        }
    }
    grow(out, MAX_FIELD);
    field_writing writing = write_field(out->bytes + out->len, out->room - out->len, make_field(f, numbers));
    if (writing.number != 100) {
        snprintf(reason, MAX_REASON, "the field writer answers %lu", (unsigned long)writing.number);
        return 0;
    }
    out->len += writing.length;
    return 1;
}

/* Text to fields. Every bad line is named, and then nothing is written. */
static int encode(void)
{
    buffer text = read_all(stdin);
    buffer out = {NULL, 0, 0};
    unsigned long number = 0;
    int bad = 0;
    size_t at = 0;
    while (at < text.len) {
        number++;
        char *line = (char *)text.bytes + at;
        char *end = memchr(line, '\n', text.len - at);
        size_t len = end ? (size_t)(end - line) : text.len - at;
        char reason[MAX_REASON] = "a zero byte";
        char *copy = malloc(len + 1);
        if (copy == NULL) {
            fail("out of memory");
        }
        memcpy(copy, line, len);
        copy[len] = '\0';
        if (strlen(copy) != len || !encode_line(copy, &out, reason)) {
            fprintf(stderr, "line %lu: %s\n", number, reason);
            bad = 1;
        }
        free(copy);
        at += len + 1;
    }
    if (!bad) {
        write_all(&out);
    }
    free(text.bytes);
    free(out.bytes);
    return bad;
}

/* Prints one field as its line. */
static void print_field(call_field field)
{
    const form *f = forms;
    while (f->tag != field.tag) {
        f++;
    }
    unsigned first = field.tag == TAG_CELL ? field.class : field.session;
    printf("%s %u", f->word, first);
    if (field.tag == TAG_READ || field.tag == TAG_HOLD || field.tag == TAG_WRITE) {
        printf(" %u", (unsigned)field.cell);
    }
    if (field.tag == TAG_WRITE || field.tag == TAG_CELL) {
        printf(" %lu", (unsigned long)field.value);
    }
    putchar('\n');
}

/* Fields to text. The lines before a refused field are written. */
static int decode(void)
{
    buffer in = read_all(stdin);
    size_t place = 0;
    field_reading reading = read_field(in.bytes, in.len, place);
    while (reading.number == 100) {
        print_field(reading.field);
        place += reading.length;
        reading = read_field(in.bytes, in.len, place);
    }
    free(in.bytes);
    if (fflush(stdout) != 0) {
        fail("standard output cannot be written");
    }
    if (reading.number == 106) {
        return 0;
    }
    fprintf(stderr, "byte %lu: refused field, %lu\n", (unsigned long)place, (unsigned long)reading.number);
    return 1;
}

int main(int argc, char **argv)
{
    if (argc == 2 && strcmp(argv[1], "encode") == 0) {
        return encode();
    }
    if (argc == 2 && strcmp(argv[1], "decode") == 0) {
        return decode();
    }
    fprintf(stderr, "usage: calls encode < TEXT > BYTES\n       calls decode < BYTES > TEXT\n");
    return 2;
}
