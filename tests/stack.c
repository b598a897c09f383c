/*
 * stack.c: how much stack the calls need. Each call runs in a thread of its own whose stack was filled with a pattern; what is
 * no longer pattern afterwards was used. Fails where a call needs more than include/vtoc.h says.
 *
 *   cc -std=c99 -D_GNU_SOURCE -Iinclude tests/stack.c target/staticlib/libvtoc.a -pthread -o target/stack && target/stack
 */
#include <pthread.h>
#include <stdio.h>
#include <stdlib.h>
#include <string.h>

#include "vtoc.h"

enum { STACK = 1 << 20, PATTERN = 0xA5, CYLINDERS = 4369, HEADS = 15, RECORDS = 52, START = 1, LENGTH = 9 };

static uint8_t table[LENGTH * RECORDS * VTOC_RECORD_LENGTH];
static uint8_t answer[VTOC_ANSWER_LENGTH], labels[VTOC_LABELS_LENGTH];
static const uint8_t attributes[VTOC_ATTRIBUTES_LENGTH];
static uint8_t today[VTOC_PACKED_LENGTH], stored[VTOC_STORED_LENGTH];
static uint32_t result;

/* Names A.A000 to A.A999 in EBCDIC. */
static void make_name(uint8_t *name, unsigned number)
{
    static const uint8_t first[3] = {0xC1, 0x4B, 0xC1};
    memset(name, 0x40, VTOC_NAME_LENGTH);
    memcpy(name, first, sizeof first);
    name[3] = (uint8_t)(0xF0 + number / 100 % 10);
    name[4] = (uint8_t)(0xF0 + number / 10 % 10);
    name[5] = (uint8_t)(0xF0 + number % 10);
}

static uint32_t allocate(unsigned number, uint32_t kind, uint32_t start, uint32_t amount, uint32_t secondary)
{
    uint8_t name[VTOC_NAME_LENGTH];
    make_name(name, number);
    return vtoc_allocate(table, sizeof table, name, sizeof name, attributes, sizeof attributes, kind, start, amount, secondary,
                         VTOC_NO_OPTION, vtoc_no_expiry(), VTOC_PACKED_LENGTH, answer, sizeof answer);
}

static uint8_t one[VTOC_NAME_LENGTH], other[VTOC_NAME_LENGTH], plot[VTOC_NAME_LENGTH];

static void *nothing(void *unused)
{
    return unused;
}

static void *do_initialise(void *unused)
{
    result = vtoc_initialise(table, sizeof table, CYLINDERS, HEADS, RECORDS, START, LENGTH, answer, sizeof answer);
    return unused;
}

static void grant(uint32_t amount, uint32_t option)
{
    result = vtoc_allocate(table, sizeof table, other, sizeof other, attributes, sizeof attributes, VTOC_TRACKS, 0, amount, 1,
                           option, today, sizeof today, answer, sizeof answer);
}

static void *do_allocate(void *unused)
{
    grant(60000, VTOC_NO_OPTION);
    return unused;
}

static void *do_contig(void *unused)
{
    grant(5000, VTOC_CONTIG);
    return unused;
}

static void *do_mxig(void *unused)
{
    grant(1, VTOC_MXIG);
    return unused;
}

/* Of some 400 candidates the five longest. */
static void *do_alx(void *unused)
{
    grant(1, VTOC_ALX);
    if (result == VTOC_OK && vtoc_answer_pieces(answer) != 5)
        result = 99;
    return unused;
}

static void extend(const uint8_t *name)
{
    result = vtoc_extend(table, sizeof table, name, VTOC_NAME_LENGTH, answer, sizeof answer);
}

static unsigned extents_of(const uint8_t *name)
{
    return table[vtoc_find_slot(table, sizeof table, name) * VTOC_RECORD_LENGTH + VTOC_LABEL_EXTENTS];
}

static void *do_extend(void *unused)
{
    extend(one);
    return unused;
}

/* The cylinder file of 15 extents goes on from its last track. */
static void *do_extend_joined(void *unused)
{
    extend(plot);
    if (result == VTOC_OK && extents_of(plot) != 15)
        result = 99;
    return unused;
}

static void *do_release(void *unused)
{
    result = vtoc_release(table, sizeof table, one, sizeof one, 0x0101, answer, sizeof answer);
    return unused;
}

/* A cylinder file of 15 extents, a cylinder each, of which the first is kept. */
static void *do_release_plot(void *unused)
{
    result = vtoc_release(table, sizeof table, plot, sizeof plot, 0x0101, answer, sizeof answer);
    if (result == VTOC_OK && vtoc_answer_tracks(answer) != 14 * HEADS)
        result = 99;
    return unused;
}

static void *do_scratch(void *unused)
{
    result = vtoc_scratch(table, sizeof table, one, sizeof one, today, sizeof today, VTOC_NO_OVERRIDE, answer, sizeof answer);
    return unused;
}

static void *do_rename(void *unused)
{
    result = vtoc_rename(table, sizeof table, one, sizeof one, other, sizeof other, answer, sizeof answer);
    return unused;
}

static void *do_obtain(void *unused)
{
    result = vtoc_obtain(table, sizeof table, one, sizeof one, labels, sizeof labels, answer, sizeof answer);
    return unused;
}

static void *do_lspace(void *unused)
{
    result = vtoc_lspace(table, sizeof table, answer, sizeof answer);
    return unused;
}

static void *do_preview_allocate(void *unused)
{
    result = vtoc_preview_allocate(table, sizeof table, other, sizeof other, attributes, sizeof attributes, VTOC_TRACKS, 0, 1, 1,
                                   VTOC_ALX, today, sizeof today, answer, sizeof answer);
    return unused;
}

static void *do_preview_extend(void *unused)
{
    result = vtoc_preview_extend(table, sizeof table, one, sizeof one, answer, sizeof answer);
    return unused;
}

static void *do_preview_release(void *unused)
{
    result = vtoc_preview_release(table, sizeof table, plot, sizeof plot, 0x0101, answer, sizeof answer);
    return unused;
}

static void *do_preview_scratch(void *unused)
{
    result = vtoc_preview_scratch(table, sizeof table, one, sizeof one, today, sizeof today, VTOC_NO_OVERRIDE, answer,
                                  sizeof answer);
    return unused;
}

static void *do_date_to_stored(void *unused)
{
    result = vtoc_date_to_stored(today, sizeof today, answer, sizeof answer);
    return unused;
}

static void *do_date_to_packed(void *unused)
{
    result = vtoc_date_to_packed(stored, sizeof stored, answer, sizeof answer);
    return unused;
}

/* Bytes of stack that a thread with this work uses. */
static size_t used(void *(*work)(void *))
{
    static uint8_t *stack;
    pthread_attr_t attributes_of_thread;
    pthread_t thread;
    size_t untouched = 0;
    if (stack == NULL && posix_memalign((void **)&stack, 4096, STACK) != 0)
        exit(2);
    memset(stack, PATTERN, STACK);
    if (pthread_attr_init(&attributes_of_thread) != 0 || pthread_attr_setstack(&attributes_of_thread, stack, STACK) != 0
        || pthread_create(&thread, &attributes_of_thread, work, NULL) != 0 || pthread_join(thread, NULL) != 0)
        exit(2);
    pthread_attr_destroy(&attributes_of_thread);
    while (untouched < STACK && stack[untouched] == PATTERN)
        untouched++;
    return STACK - untouched;
}

int main(void)
{
    static const struct {
        const char *name;
        void *(*work)(void *);
    } calls[] = {{"lspace", do_lspace},   {"obtain", do_obtain},   {"rename", do_rename},     {"extend", do_extend},
                 {"release", do_release}, {"scratch", do_scratch}, {"allocate", do_allocate}, {"CONTIG", do_contig},
                 {"MXIG", do_mxig},       {"ALX", do_alx},         {"cylinders", do_release_plot},
                 {"joined", do_extend_joined},                     {"initialise", do_initialise},
                 {"preview allocate", do_preview_allocate},        {"preview extend", do_preview_extend},
                 {"preview release", do_preview_release},          {"preview scratch", do_preview_scratch},
                 {"date to stored", do_date_to_stored},            {"date to packed", do_date_to_packed}};
    static uint8_t before[sizeof table];
    size_t base = used(nothing), most = 0;

    if (vtoc_packed_date(today, 2000, 366) != VTOC_OK)
        return 2;
    do_date_to_stored(NULL);
    memcpy(stored, answer, sizeof stored);

    /* The largest table: 400 data sets with a free track after each, the first of 15 extents; and a cylinder file of 15. These two
       grow in turns, so that no piece is joined. */
    do_initialise(NULL);
    if (result != VTOC_OK || allocate(0, VTOC_TRACKS, 0, 300, 300) != VTOC_OK || allocate(998, VTOC_CYLINDERS, 0, 1, 1) != VTOC_OK)
        return 2;
    for (unsigned number = 1; number < 400; number++)
        if (allocate(number, VTOC_ABSOLUTE, 10000 + 2 * number, 1, 0) != VTOC_OK)
            return 2;
    make_name(one, 0);
    make_name(plot, 998);
    make_name(other, 999);
    for (unsigned extents = 1; extents < 15; extents++) {
        extend(one);
        if (result == VTOC_OK)
            extend(plot);
        if (result != VTOC_OK)
            return 2;
    }
    if (extents_of(one) != 15 || extents_of(plot) != 15)
        return 2;
    memcpy(before, table, sizeof table);
    for (size_t i = 0; i < sizeof calls / sizeof calls[0]; i++) {
        size_t need;
        memcpy(table, before, sizeof table);
        need = used(calls[i].work) - base;
        printf("%-16s result %lu, stack %lu bytes\n", calls[i].name, (unsigned long)result, (unsigned long)need);
        if (result != VTOC_OK && calls[i].work != do_allocate)
            return 2;
        most = need > most ? need : most;
    }
    printf("most %lu bytes, of %lu allowed\n", (unsigned long)most, (unsigned long)VTOC_STACK_NEED);
    return most <= VTOC_STACK_NEED ? 0 : 1;
}
