/*
 * recorder.c: records the calls of a host, as docs/REPLAY.md says ('How to record'), without a change to the host. The linker puts
 * it between the two, with -Wl,--wrap=vtoc_initialise and so on for each call and preview. A recording is of one volume, here that
 * of the first call: calls on another table are made and not recorded. A conversion of a date has no table: once there is one, it
 * is recorded as lending it.
 *   RECORD       the file to which a record is appended before each call
 *   COPY         the file to which a copy of the table is written, once
 *   COPY_AFTER   after so many records
 * tests/operators uses it to try docs/OPERATORS.md.
 */
#include <stdio.h>
#include <stdlib.h>
#include <string.h>

#include "vtoc.h"

enum { RECORD_LENGTH = 136, NUMBERS_AT = 8, NAME_AT = 28, SECOND_AT = 74, DATE_LENGTH_AT = 128, DATE_AT = 129 };
enum { PREVIEW = 128 }; /* added to the operation of the call */

static const char *setting(const char *name)
{
    const char *value = getenv(name);
    if (value == NULL) {
        fprintf(stderr, "recorder: %s is not set\n", name);
        exit(2);
    }
    return value;
}

static void write_file(const char *path, const char *how, const uint8_t *bytes, size_t length)
{
    FILE *file = fopen(path, how);
    if (file == NULL || fwrite(bytes, 1, length, file) != length || fclose(file) != 0) {
        perror(path);
        exit(2);
    }
}

static void put(uint8_t *at, uint32_t number, int bytes)
{
    for (int i = bytes; i > 0; i--, number >>= 8)
        at[i - 1] = (uint8_t)(number & 0xFF);
}

struct buffer {
    const uint8_t *bytes;
    size_t length;
};

static const struct buffer none = {NULL, 0};
static struct buffer recorded = {NULL, 0}; /* the table of the first call, with the length that was last lent */

static void note(uint8_t operation, struct buffer table, size_t answer, size_t labels, struct buffer name, struct buffer second,
                 struct buffer date, const uint32_t numbers[5])
{
    static long records = 0;
    uint8_t record[RECORD_LENGTH] = {0};
    if (recorded.bytes == NULL)
        recorded = table;
    if (table.bytes == NULL || table.bytes != recorded.bytes)
        return;
    recorded = table;
    if (name.length > 46 || second.length > 54 || date.length > 7 || answer > 32 || labels > 288 || table.length > 65535) {
        fprintf(stderr, "recorder: no record can lend so much\n");
        exit(2);
    }
    if (records == atol(setting("COPY_AFTER")))
        write_file(setting("COPY"), "wb", table.bytes, table.length);
    record[0] = operation;
    put(record + 1, (uint32_t)name.length, 1);
    put(record + 2, (uint32_t)second.length, 1);
    put(record + 3, (uint32_t)answer, 1);
    put(record + 4, (uint32_t)labels, 2);
    put(record + 6, (uint32_t)table.length, 2);
    for (int i = 0; numbers != NULL && i < 5; i++)
        put(record + NUMBERS_AT + 4 * i, numbers[i], 4);
    if (name.length > 0)
        memcpy(record + NAME_AT, name.bytes, name.length);
    if (second.length > 0)
        memcpy(record + SECOND_AT, second.bytes, second.length);
    put(record + DATE_LENGTH_AT, (uint32_t)date.length, 1);
    if (date.length > 0)
        memcpy(record + DATE_AT, date.bytes, date.length);
    write_file(setting("RECORD"), "ab", record, sizeof record);
    records++;
}

static struct buffer lent(const uint8_t *bytes, size_t length)
{
    struct buffer b;
    b.bytes = bytes;
    b.length = length;
    return b;
}

uint32_t __real_vtoc_initialise(uint8_t *, size_t, uint32_t, uint32_t, uint32_t, uint32_t, uint32_t, uint8_t *, size_t);
uint32_t __wrap_vtoc_initialise(uint8_t *t, size_t tn, uint32_t c, uint32_t h, uint32_t d, uint32_t s, uint32_t v, uint8_t *a,
                                size_t an)
{
    const uint32_t numbers[5] = {c, h, d, s, v};
    note(1, lent(t, tn), an, 0, none, none, none, numbers);
    return __real_vtoc_initialise(t, tn, c, h, d, s, v, a, an);
}

uint32_t __real_vtoc_allocate(uint8_t *, size_t, const uint8_t *, size_t, const uint8_t *, size_t, uint32_t, uint32_t, uint32_t,
                              uint32_t, uint32_t, const uint8_t *, size_t, uint8_t *, size_t);
uint32_t __wrap_vtoc_allocate(uint8_t *t, size_t tn, const uint8_t *n, size_t nn, const uint8_t *x, size_t xn, uint32_t kind,
                              uint32_t start, uint32_t amount, uint32_t secondary, uint32_t option, const uint8_t *e, size_t en,
                              uint8_t *a, size_t an)
{
    const uint32_t numbers[5] = {kind, start, amount, secondary, option};
    note(2, lent(t, tn), an, 0, lent(n, nn), lent(x, xn), lent(e, en), numbers);
    return __real_vtoc_allocate(t, tn, n, nn, x, xn, kind, start, amount, secondary, option, e, en, a, an);
}

uint32_t __real_vtoc_extend(uint8_t *, size_t, const uint8_t *, size_t, uint8_t *, size_t);
uint32_t __wrap_vtoc_extend(uint8_t *t, size_t tn, const uint8_t *n, size_t nn, uint8_t *a, size_t an)
{
    note(3, lent(t, tn), an, 0, lent(n, nn), none, none, NULL);
    return __real_vtoc_extend(t, tn, n, nn, a, an);
}

uint32_t __real_vtoc_release(uint8_t *, size_t, const uint8_t *, size_t, uint32_t, uint8_t *, size_t);
uint32_t __wrap_vtoc_release(uint8_t *t, size_t tn, const uint8_t *n, size_t nn, uint32_t ttr, uint8_t *a, size_t an)
{
    const uint32_t numbers[5] = {ttr, 0, 0, 0, 0};
    note(4, lent(t, tn), an, 0, lent(n, nn), none, none, numbers);
    return __real_vtoc_release(t, tn, n, nn, ttr, a, an);
}

uint32_t __real_vtoc_scratch(uint8_t *, size_t, const uint8_t *, size_t, const uint8_t *, size_t, uint32_t, uint8_t *, size_t);
uint32_t __wrap_vtoc_scratch(uint8_t *t, size_t tn, const uint8_t *n, size_t nn, const uint8_t *d, size_t dn, uint32_t override,
                             uint8_t *a, size_t an)
{
    const uint32_t numbers[5] = {override, 0, 0, 0, 0};
    note(5, lent(t, tn), an, 0, lent(n, nn), none, lent(d, dn), numbers);
    return __real_vtoc_scratch(t, tn, n, nn, d, dn, override, a, an);
}

uint32_t __real_vtoc_rename(uint8_t *, size_t, const uint8_t *, size_t, const uint8_t *, size_t, uint8_t *, size_t);
uint32_t __wrap_vtoc_rename(uint8_t *t, size_t tn, const uint8_t *o, size_t on, const uint8_t *n, size_t nn, uint8_t *a, size_t an)
{
    note(6, lent(t, tn), an, 0, lent(o, on), lent(n, nn), none, NULL);
    return __real_vtoc_rename(t, tn, o, on, n, nn, a, an);
}

uint32_t __real_vtoc_obtain(const uint8_t *, size_t, const uint8_t *, size_t, uint8_t *, size_t, uint8_t *, size_t);
uint32_t __wrap_vtoc_obtain(const uint8_t *t, size_t tn, const uint8_t *n, size_t nn, uint8_t *l, size_t ln, uint8_t *a, size_t an)
{
    note(7, lent(t, tn), an, ln, lent(n, nn), none, none, NULL);
    return __real_vtoc_obtain(t, tn, n, nn, l, ln, a, an);
}

uint32_t __real_vtoc_lspace(const uint8_t *, size_t, uint8_t *, size_t);
uint32_t __wrap_vtoc_lspace(const uint8_t *t, size_t tn, uint8_t *a, size_t an)
{
    note(8, lent(t, tn), an, 0, none, none, none, NULL);
    return __real_vtoc_lspace(t, tn, a, an);
}

uint32_t __real_vtoc_preview_allocate(const uint8_t *, size_t, const uint8_t *, size_t, const uint8_t *, size_t, uint32_t, uint32_t,
                                      uint32_t, uint32_t, uint32_t, const uint8_t *, size_t, uint8_t *, size_t);
uint32_t __wrap_vtoc_preview_allocate(const uint8_t *t, size_t tn, const uint8_t *n, size_t nn, const uint8_t *x, size_t xn,
                                      uint32_t kind, uint32_t start, uint32_t amount, uint32_t secondary, uint32_t option,
                                      const uint8_t *e, size_t en, uint8_t *a, size_t an)
{
    const uint32_t numbers[5] = {kind, start, amount, secondary, option};
    note(PREVIEW + 2, lent(t, tn), an, 0, lent(n, nn), lent(x, xn), lent(e, en), numbers);
    return __real_vtoc_preview_allocate(t, tn, n, nn, x, xn, kind, start, amount, secondary, option, e, en, a, an);
}

uint32_t __real_vtoc_preview_extend(const uint8_t *, size_t, const uint8_t *, size_t, uint8_t *, size_t);
uint32_t __wrap_vtoc_preview_extend(const uint8_t *t, size_t tn, const uint8_t *n, size_t nn, uint8_t *a, size_t an)
{
    note(PREVIEW + 3, lent(t, tn), an, 0, lent(n, nn), none, none, NULL);
    return __real_vtoc_preview_extend(t, tn, n, nn, a, an);
}

uint32_t __real_vtoc_preview_release(const uint8_t *, size_t, const uint8_t *, size_t, uint32_t, uint8_t *, size_t);
uint32_t __wrap_vtoc_preview_release(const uint8_t *t, size_t tn, const uint8_t *n, size_t nn, uint32_t ttr, uint8_t *a, size_t an)
{
    const uint32_t numbers[5] = {ttr, 0, 0, 0, 0};
    note(PREVIEW + 4, lent(t, tn), an, 0, lent(n, nn), none, none, numbers);
    return __real_vtoc_preview_release(t, tn, n, nn, ttr, a, an);
}

uint32_t __real_vtoc_preview_scratch(const uint8_t *, size_t, const uint8_t *, size_t, const uint8_t *, size_t, uint32_t, uint8_t *,
                                     size_t);
uint32_t __wrap_vtoc_preview_scratch(const uint8_t *t, size_t tn, const uint8_t *n, size_t nn, const uint8_t *d, size_t dn,
                                     uint32_t override, uint8_t *a, size_t an)
{
    const uint32_t numbers[5] = {override, 0, 0, 0, 0};
    note(PREVIEW + 5, lent(t, tn), an, 0, lent(n, nn), none, lent(d, dn), numbers);
    return __real_vtoc_preview_scratch(t, tn, n, nn, d, dn, override, a, an);
}

uint32_t __real_vtoc_date_to_stored(const uint8_t *, size_t, uint8_t *, size_t);
uint32_t __wrap_vtoc_date_to_stored(const uint8_t *d, size_t dn, uint8_t *a, size_t an)
{
    note(10, recorded, an, 0, none, none, lent(d, dn), NULL);
    return __real_vtoc_date_to_stored(d, dn, a, an);
}

uint32_t __real_vtoc_date_to_packed(const uint8_t *, size_t, uint8_t *, size_t);
uint32_t __wrap_vtoc_date_to_packed(const uint8_t *d, size_t dn, uint8_t *a, size_t an)
{
    note(11, recorded, an, 0, none, none, lent(d, dn), NULL);
    return __real_vtoc_date_to_packed(d, dn, a, an);
}
