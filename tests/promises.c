/*
 * promises.c: what include/vtoc.h tells hosts they may do, done with the library. One buffer for two that are only read; a file
 * closed in the table; the space options; what a release keeps; previews beside their calls, on a table that cannot be written;
 * what an extend joins; expiry dates; the header's limits, its readers and other inline functions on tables and labels that the
 * library writes.
 *
 *   cc -std=c99 -Iinclude tests/promises.c target/staticlib/libvtoc.a -o target/promises && target/promises
 */
#define _DEFAULT_SOURCE /* for mmap */
#include <stdio.h>
#include <stdlib.h>
#include <string.h>
#include <sys/mman.h>

#include "vtoc.h"

enum { C = 40, H = 5, D = 10, S = 7, V = 2, LENGTH = V * D * VTOC_RECORD_LENGTH };

static uint8_t table[LENGTH], copy[LENGTH];
static uint8_t answer[VTOC_ANSWER_LENGTH], other_answer[VTOC_ANSWER_LENGTH];
static uint8_t labels[VTOC_LABELS_LENGTH];
static uint8_t attributes[VTOC_ATTRIBUTES_LENGTH];
/* The dates and the override of allocates and scratches: none, 2026 day 321, and none, where no test sets them. */
static uint8_t expiry[VTOC_PACKED_LENGTH], today[VTOC_PACKED_LENGTH] = {0x01, 0x26, 0x32, 0x1F};
static uint32_t override = VTOC_NO_OVERRIDE;

static void check_at(int holds, int line, const char *what)
{
    if (!holds) {
        printf("promises.c:%d: not so: %s\n", line, what);
        exit(EXIT_FAILURE);
    }
}
#define CHECK(holds) check_at((holds) ? 1 : 0, __LINE__, #holds)

/* The name of a text, in one of two buffers that stay. */
static const uint8_t *name_of(const char *text)
{
    static uint8_t names[2][VTOC_NAME_LENGTH];
    static int turn;
    turn = 1 - turn;
    vtoc_name_from_text(names[turn], text);
    return names[turn];
}

static uint32_t initialise(void)
{
    return vtoc_initialise(table, LENGTH, C, H, D, S, V, answer, sizeof answer);
}

static uint32_t allocate_by(uint32_t option, const char *text, uint32_t kind, uint32_t start, uint32_t amount, uint32_t secondary)
{
    return vtoc_allocate(table, LENGTH, name_of(text), 44, attributes, 52, kind, start, amount, secondary, option, expiry,
                         sizeof expiry, answer, sizeof answer);
}

static uint32_t allocate(const char *text, uint32_t kind, uint32_t start, uint32_t amount, uint32_t secondary)
{
    return allocate_by(VTOC_NO_OPTION, text, kind, start, amount, secondary);
}

static uint32_t extend(const char *text)
{
    return vtoc_extend(table, LENGTH, name_of(text), 44, answer, sizeof answer);
}

static uint32_t scratch(const char *text)
{
    return vtoc_scratch(table, LENGTH, name_of(text), 44, today, sizeof today, override, answer, sizeof answer);
}

static uint32_t obtain(const char *text)
{
    return vtoc_obtain(table, LENGTH, name_of(text), 44, labels, sizeof labels, answer, sizeof answer);
}

/* A volume with three data sets. */
static void volume(void)
{
    memcpy(expiry, vtoc_no_expiry(), sizeof expiry);
    CHECK(vtoc_packed_date(today, 2026, 321) == VTOC_OK);
    override = VTOC_NO_OVERRIDE;
    for (unsigned i = 0; i < sizeof attributes; i++)
        attributes[i] = (uint8_t)(3 * i + 1);
    CHECK(initialise() == VTOC_OK);
    CHECK(allocate("FLT.A", VTOC_TRACKS, 0, 4, 2) == VTOC_OK);
    CHECK(allocate("FLT.B", VTOC_CYLINDERS, 0, 2, 1) == VTOC_OK);
    CHECK(allocate("FLT.C", VTOC_ABSOLUTE, 100, 9, 0) == VTOC_OK);
}

/* ---- One buffer for two that are only read ------------------------------------------------------------------------------- */

/* Renames in the table with the two names where they are, and in a copy with copies of them: same result and bytes. */
static uint32_t rename_alike(const uint8_t *old_name, size_t old_length, const uint8_t *new_name, size_t new_length)
{
    uint8_t old_copy[VTOC_NAME_LENGTH + 1], new_copy[VTOC_NAME_LENGTH + 1];
    uint32_t result, other;
    memcpy(old_copy, old_name, old_length);
    memcpy(new_copy, new_name, new_length);
    memcpy(copy, table, LENGTH);
    memset(answer, 0xA5, sizeof answer);
    memset(other_answer, 0xA5, sizeof other_answer);
    result = vtoc_rename(table, LENGTH, old_name, old_length, new_name, new_length, answer, sizeof answer);
    other = vtoc_rename(copy, LENGTH, old_copy, old_length, new_copy, new_length, other_answer, sizeof other_answer);
    CHECK(result == other);
    CHECK(memcmp(table, copy, LENGTH) == 0 && memcmp(answer, other_answer, sizeof answer) == 0);
    CHECK(memcmp(old_name, old_copy, old_length) == 0 && memcmp(new_name, new_copy, new_length) == 0);
    return result;
}

static void renames(void)
{
    uint8_t name[VTOC_NAME_LENGTH + 1];
    memset(name, 0x40, sizeof name);
    volume();
    /* One buffer is a name renamed to itself. Document 01's order: 2, 3, 4 (either name), 5, 6. */
    memcpy(name, name_of("FLT.A"), 44);
    CHECK(rename_alike(name, 44, name, 43) == VTOC_E_LENGTH);
    CHECK(rename_alike(name, 45, name, 44) == VTOC_E_LENGTH);
    CHECK(rename_alike(name, 44, name, 44) == VTOC_E_DUPLICATE);
    memcpy(name, name_of("FLT.X"), 44);
    CHECK(rename_alike(name, 44, name, 44) == VTOC_E_NOT_FOUND);
    memcpy(name, name_of("FLT..A"), 44);
    CHECK(rename_alike(name, 44, name, 44) == VTOC_E_NAME);
    table[LENGTH - 1] ^= 1;
    CHECK(rename_alike(name, 44, name, 44) == VTOC_E_UNSOUND);
    table[LENGTH - 1] ^= 1;
    /* Two names that overlap: the second begins with the second character of the first. */
    memcpy(name, name_of("FLT.A"), 44);
    CHECK(rename_alike(name, 44, name + 1, 44) == VTOC_OK);
    CHECK(obtain("FLT.A") == VTOC_E_NOT_FOUND && obtain("LT.A") == VTOC_OK);
    CHECK(rename_alike(name + 1, 44, name, 44) == VTOC_OK);
    CHECK(obtain("FLT.A") == VTOC_OK && obtain("LT.A") == VTOC_E_NOT_FOUND);
}

static void other_pairs(void)
{
    uint8_t both[VTOC_ATTRIBUTES_LENGTH], apart[VTOC_NAME_LENGTH], other_labels[VTOC_LABELS_LENGTH];
    uint32_t slot;
    /* The name is the first 44 attribute bytes, the expiry date the next four. */
    volume();
    memcpy(copy, table, LENGTH);
    memset(both, 0x77, sizeof both);
    memcpy(both, name_of("FLT.D"), 44);
    memcpy(both + 44, today, 4);
    memcpy(apart, both, 44);
    CHECK(vtoc_allocate(table, LENGTH, both, 44, both, 52, VTOC_TRACKS, 0, 3, 1, VTOC_NO_OPTION, both + 44, 4, answer, 24)
          == VTOC_OK);
    CHECK(vtoc_allocate(copy, LENGTH, apart, 44, both, 52, VTOC_TRACKS, 0, 3, 1, VTOC_NO_OPTION, today, 4, other_answer, 24)
          == VTOC_OK);
    CHECK(memcmp(table, copy, LENGTH) == 0 && memcmp(answer, other_answer, sizeof answer) == 0);
    CHECK(memcmp(both, apart, 44) == 0 && memcmp(both + 44, today, 4) == 0 && both[48] == 0x77 && both[51] == 0x77);
    /* The name is the one in the format 1 that it is looked up in. */
    slot = vtoc_find_slot(table, LENGTH, both);
    CHECK(slot != 0);
    CHECK(vtoc_obtain(table, LENGTH, table + slot * 140, 44, labels, 280, answer, 24) == VTOC_OK);
    CHECK(vtoc_obtain(copy, LENGTH, apart, 44, other_labels, 280, other_answer, 24) == VTOC_OK);
    CHECK(memcmp(labels, other_labels, sizeof labels) == 0 && memcmp(answer, other_answer, sizeof answer) == 0);
    CHECK(memcmp(table, copy, LENGTH) == 0);
    /* Its stored date, converted where it lies. */
    CHECK(vtoc_date_to_packed(table + slot * 140 + VTOC_LABEL_EXPIRY, 3, answer, 24) == VTOC_OK && memcmp(answer, today, 4) == 0);
    /* A name is no date: one buffer for both is refused as two are. */
    CHECK(vtoc_scratch(table, LENGTH, both, 44, both, 4, VTOC_OVERRIDE, answer, 24) == VTOC_E_DATE);
    CHECK(vtoc_scratch(table, LENGTH, both, 44, both + 44, 4, VTOC_NO_OVERRIDE, answer, 24) == VTOC_OK);
}

/* ---- A file closed in the table ------------------------------------------------------------------------------------------ */

static void closings(void)
{
    uint8_t changed[VTOC_ATTRIBUTES_LENGTH], seen[VTOC_ATTRIBUTES_LENGTH];
    uint32_t slot;
    uint8_t *label;
    volume();
    slot = vtoc_find_slot(table, LENGTH, name_of("FLT.B"));
    CHECK(slot != 0 && vtoc_find_slot(table, LENGTH, name_of("FLT.X")) == 0);
    label = table + slot * VTOC_RECORD_LENGTH;
    CHECK(obtain("FLT.B") == VTOC_OK && memcmp(labels, label, 140) == 0);
    CHECK(vtoc_label_last_block(label) == 0);
    vtoc_label_attributes(label, seen);
    CHECK(seen[11] == 0 && seen[12] == 0 && seen[13] == 0); /* no expiry date */
    memcpy(seen + 11, attributes + 11, 3);
    CHECK(memcmp(seen, attributes, sizeof seen) == 0);

    CHECK(vtoc_lspace(table, LENGTH, other_answer, sizeof other_answer) == VTOC_OK);
    for (unsigned i = 0; i < sizeof changed; i++)
        changed[i] = (uint8_t)(0xFF - i);
    vtoc_label_set_attributes(label, changed);
    CHECK(vtoc_label_set_last_block(label, vtoc_ttr(7, 12)) == VTOC_OK);
    CHECK(obtain("FLT.B") == VTOC_OK && memcmp(labels, label, 140) == 0 && vtoc_label_last_block(labels) == 0x70C);
    vtoc_label_attributes(labels, seen);
    CHECK(seen[11] == 0 && seen[12] == 0 && seen[13] == 0);
    memcpy(seen + 11, changed + 11, 3);
    CHECK(memcmp(seen, changed, sizeof seen) == 0);

    /* Each of these bytes may be any: the table stays taken, and the space is what it was. */
    for (unsigned place = 45; place < 105; place++)
        if (place != 59 && !(place >= 94 && place <= 97))
            for (unsigned byte = 0; byte < 256; byte++) {
                label[place] = (uint8_t)byte;
                CHECK(vtoc_lspace(table, LENGTH, answer, sizeof answer) == VTOC_OK);
                CHECK(memcmp(answer, other_answer, sizeof answer) == 0);
            }
    /* X'FFFFFF' is an expiry date by now, later than any day. */
    CHECK(scratch("FLT.B") == VTOC_E_UNEXPIRED);
    memset(label + VTOC_LABEL_EXPIRY, 0, VTOC_STORED_LENGTH);
    CHECK(scratch("FLT.B") == VTOC_OK && vtoc_answer_tracks(answer) == 2 * H);
}

/* ---- Space options ------------------------------------------------------------------------------------------------------- */

/* Whether a request on the volume of three data sets is granted these pieces, in this order: start, count, start and so on. The
   tracks of the answer are their sum, and the labels have the same pieces. */
static int granted(uint32_t option, uint32_t kind, uint32_t amount, uint32_t pieces, const uint32_t *wanted)
{
    uint32_t tracks = 0;
    volume();
    if (allocate_by(option, "FLT.D", kind, 0, amount, 2) != VTOC_OK || vtoc_answer_pieces(answer) != pieces)
        return 0;
    memcpy(other_answer, answer, sizeof answer);
    if (obtain("FLT.D") != VTOC_OK || labels[VTOC_LABEL_EXTENTS] != pieces)
        return 0;
    for (uint32_t i = 0; i < pieces; i++) {
        const uint8_t *extent = vtoc_label_extent(labels, i);
        uint32_t start = wanted[2 * i], count = wanted[2 * i + 1];
        if (vtoc_answer_start(other_answer, i) != start || vtoc_answer_count(other_answer, i) != count
            || vtoc_track(extent + VTOC_EXTENT_FIRST, H) != start
            || vtoc_track(extent + VTOC_EXTENT_LAST, H) != start + count - 1)
            return 0;
        tracks += count;
    }
    return vtoc_answer_tracks(other_answer) == tracks;
}

/* The result of a request on that volume. */
static uint32_t asked(uint32_t option, uint32_t kind, uint32_t start, uint32_t amount)
{
    volume();
    return allocate_by(option, "FLT.D", kind, start, amount, 0);
}

/* The volume has four free extents: 2 tracks from 5, 1 from 9, 80 from 20, 91 from 109 (18 whole cylinders from 110). */
static void options(void)
{
    static const uint32_t all[] = {109, 91, 20, 80, 5, 2, 9, 1}, cylinders[] = {110, 90, 20, 80};
    static const uint32_t both[] = {109, 91, 20, 10}, both_cylinders[] = {110, 90, 20, 10};
    static const uint32_t part[] = {109, 81}, short_one[] = {20, 80}, cylinder_part[] = {110, 85};

    CHECK(granted(VTOC_NO_OPTION, VTOC_TRACKS, 101, 2, both));
    CHECK(granted(VTOC_NO_OPTION, VTOC_CYLINDERS, 20, 2, both_cylinders));
    CHECK(asked(VTOC_CONTIG, VTOC_TRACKS, 0, 101) == VTOC_E_NO_SPACE);
    CHECK(asked(VTOC_CONTIG, VTOC_TRACKS, 0, 92) == VTOC_E_NO_SPACE);
    CHECK(granted(VTOC_CONTIG, VTOC_TRACKS, 81, 1, part));
    CHECK(granted(VTOC_CONTIG, VTOC_TRACKS, 80, 1, short_one));
    CHECK(asked(VTOC_CONTIG, VTOC_CYLINDERS, 0, 19) == VTOC_E_NO_SPACE);
    CHECK(granted(VTOC_CONTIG, VTOC_CYLINDERS, 17, 1, cylinder_part));

    CHECK(granted(VTOC_MXIG, VTOC_TRACKS, 1, 1, all) && granted(VTOC_MXIG, VTOC_TRACKS, 91, 1, all));
    CHECK(asked(VTOC_MXIG, VTOC_TRACKS, 0, 92) == VTOC_E_NO_SPACE);
    CHECK(granted(VTOC_MXIG, VTOC_CYLINDERS, 18, 1, cylinders));
    CHECK(asked(VTOC_MXIG, VTOC_CYLINDERS, 0, 19) == VTOC_E_NO_SPACE);

    CHECK(granted(VTOC_ALX, VTOC_TRACKS, 1, 4, all) && granted(VTOC_ALX, VTOC_TRACKS, 2, 3, all));
    CHECK(granted(VTOC_ALX, VTOC_TRACKS, 80, 2, all) && granted(VTOC_ALX, VTOC_TRACKS, 81, 1, all));
    CHECK(asked(VTOC_ALX, VTOC_TRACKS, 0, 92) == VTOC_E_NO_SPACE);
    CHECK(granted(VTOC_ALX, VTOC_CYLINDERS, 16, 2, cylinders) && granted(VTOC_ALX, VTOC_CYLINDERS, 17, 1, cylinders));
    CHECK(asked(VTOC_ALX, VTOC_CYLINDERS, 0, 19) == VTOC_E_NO_SPACE);

    for (uint32_t option = VTOC_CONTIG; option <= VTOC_ALX; option++)
        CHECK(asked(option, VTOC_ABSOLUTE, 30, 4) == VTOC_E_AMOUNT);
    CHECK(asked(VTOC_NO_OPTION, VTOC_ABSOLUTE, 30, 4) == VTOC_OK);
    for (uint32_t kind = VTOC_TRACKS; kind <= VTOC_ABSOLUTE; kind++) {
        CHECK(asked(VTOC_ALX + 1, kind, 30, 4) == VTOC_E_AMOUNT);
        CHECK(asked(UINT32_MAX, kind, 30, 4) == VTOC_E_AMOUNT);
        CHECK(asked(256 + VTOC_CONTIG, kind, 30, 4) == VTOC_E_AMOUNT);
    }
}

/* ALX where six candidates serve: the five longest, of equals the lowest. No label has the option: what extend grants is in two
   pieces, and the table is that of the same request without an option where both grant the same. */
static void options_apart(void)
{
    static const uint32_t starts[5] = {160, 20, 40, 60, 80}, counts[5] = {40, 19, 19, 19, 19};
    CHECK(initialise() == VTOC_OK && allocate("EDGE", VTOC_ABSOLUTE, 1, 6, 0) == VTOC_OK);
    CHECK(allocate("LOW", VTOC_ABSOLUTE, 9, 11, 0) == VTOC_OK && allocate("N1", VTOC_ABSOLUTE, 39, 1, 0) == VTOC_OK);
    CHECK(allocate("N2", VTOC_ABSOLUTE, 59, 1, 0) == VTOC_OK && allocate("N3", VTOC_ABSOLUTE, 79, 1, 0) == VTOC_OK);
    CHECK(allocate("N4", VTOC_ABSOLUTE, 99, 1, 0) == VTOC_OK && allocate("N5", VTOC_ABSOLUTE, 119, 41, 0) == VTOC_OK);
    memcpy(copy, table, LENGTH);
    CHECK(allocate_by(VTOC_ALX, "POOL", VTOC_TRACKS, 0, 19, 0) == VTOC_OK);
    CHECK(vtoc_answer_pieces(answer) == VTOC_MOST_PIECES && vtoc_answer_tracks(answer) == 116);
    for (uint32_t i = 0; i < 5; i++)
        CHECK(vtoc_answer_start(answer, i) == starts[i] && vtoc_answer_count(answer, i) == counts[i]);

    memcpy(table, copy, LENGTH);
    CHECK(allocate_by(VTOC_CONTIG, "WORK", VTOC_TRACKS, 0, 30, 20) == VTOC_OK);
    memcpy(other_answer, answer, sizeof answer);
    CHECK(vtoc_allocate(copy, LENGTH, name_of("WORK"), 44, attributes, 52, VTOC_TRACKS, 0, 30, 20, VTOC_NO_OPTION,
                        vtoc_no_expiry(), VTOC_PACKED_LENGTH, answer, 24)
          == VTOC_OK);
    CHECK(memcmp(table, copy, LENGTH) == 0 && memcmp(answer, other_answer, sizeof answer) == 0);
    CHECK(extend("WORK") == VTOC_OK && vtoc_answer_pieces(answer) == 2);
}

/* ---- What a release keeps ------------------------------------------------------------------------------------------------ */

/* The label of a data set, in the table. */
static uint8_t *label_of(const char *text)
{
    uint32_t slot = vtoc_find_slot(table, LENGTH, name_of(text));
    CHECK(slot != 0);
    return table + slot * VTOC_RECORD_LENGTH;
}

/* As a table from elsewhere may have it: a data set with another unit than it was allocated by. */
static void set_unit(const char *text, uint8_t unit)
{
    label_of(text)[VTOC_LABEL_UNIT] = unit;
    CHECK(vtoc_lspace(table, LENGTH, answer, sizeof answer) == VTOC_OK);
}

static uint32_t release(const char *text, uint32_t tt, uint32_t r)
{
    return vtoc_release(table, LENGTH, name_of(text), 44, vtoc_ttr(tt, r), answer, sizeof answer);
}

/* Whether a data set has a last extent of this number, type, first and last track. Its labels are obtained. */
static int ends_with(const char *text, uint32_t e, uint8_t type, uint32_t first, uint32_t last)
{
    const uint8_t *extent = vtoc_label_extent(labels, e);
    CHECK(obtain(text) == VTOC_OK);
    return labels[VTOC_LABEL_EXTENTS] == e + 1 && extent[VTOC_EXTENT_TYPE] == type && extent[VTOC_EXTENT_NUMBER] == e
           && vtoc_track(extent + VTOC_EXTENT_FIRST, H) == first && vtoc_track(extent + VTOC_EXTENT_LAST, H) == last;
}

/* Whether a release at TT, R gives back so many tracks, stores the TTR as it is, and leaves this last extent. */
static int gives_back(const char *text, uint32_t tt, uint32_t r, uint32_t tracks, uint32_t e, uint8_t type, uint32_t first,
                      uint32_t last)
{
    if (release(text, tt, r) != VTOC_OK || vtoc_answer_tracks(answer) != tracks || vtoc_answer_pieces(answer) != 0)
        return 0;
    return ends_with(text, e, type, first, last) && vtoc_label_last_block(labels) == tt * 256 + r;
}

/* As versions before 500 left it: the last extent of a data set, its first or second, in two that touch. The latter begins at this
   track. */
static void split_last(const char *text, uint32_t track)
{
    uint8_t *label = label_of(text), *extent = label + 105 + 10 * (label[VTOC_LABEL_EXTENTS] - 1);
    memcpy(extent + 10, extent, 10);
    vtoc_cchh(extent + VTOC_EXTENT_LAST, track - 1, H);
    extent[10 + VTOC_EXTENT_NUMBER]++;
    vtoc_cchh(extent + 10 + VTOC_EXTENT_FIRST, track, H);
    label[VTOC_LABEL_EXTENTS]++;
    CHECK(vtoc_lspace(table, LENGTH, answer, sizeof answer) == VTOC_OK);
}

/* The volume of three data sets: FLT.A has tracks 1 to 4, FLT.B cylinders 2 and 3 (10 to 19), FLT.C absolute 100 to 108. */
static void releases(void)
{
    /* The cylinder of the last block is kept to its end, and X'81' with it. */
    volume();
    CHECK(gives_back("FLT.B", 0, 0, 5, 0, 0x81, 10, 14));
    for (uint32_t tt = 0; tt < 10; tt++) {
        volume();
        CHECK(gives_back("FLT.B", tt, 1, tt < 5 ? 5 : 0, 0, 0x81, 10, tt < 5 ? 14 : 19));
    }
    volume();
    CHECK(release("FLT.B", 10, 1) == VTOC_E_TTR && release("FLT.B", 1, 0) == VTOC_E_TTR);

    /* Where 0 tracks are given back, the TTR is all that changes. */
    memcpy(copy, table, LENGTH);
    CHECK(release("FLT.B", 5, 1) == VTOC_OK && vtoc_answer_tracks(answer) == 0);
    CHECK(memcmp(table, copy, LENGTH) != 0);
    CHECK(vtoc_label_set_last_block(label_of("FLT.B"), 0) == VTOC_OK && memcmp(table, copy, LENGTH) == 0);

    /* A last block may lie on each track that was kept, and on none that was given back. */
    CHECK(gives_back("FLT.B", 1, 3, 5, 0, 0x81, 10, 14) && gives_back("FLT.B", 4, 255, 0, 0, 0x81, 10, 14));
    CHECK(release("FLT.B", 5, 1) == VTOC_E_TTR);

    /* Tracks and absolute: the first TT + 1 alone. */
    volume();
    CHECK(gives_back("FLT.A", 1, 1, 2, 0, 0x01, 1, 2));
    CHECK(gives_back("FLT.C", 0, 1, 8, 0, 0x01, 100, 100));

    /* An extent of type X'81' in such a data set gets X'01', also where the cut ends a cylinder. */
    volume();
    set_unit("FLT.B", 0x80);
    CHECK(gives_back("FLT.B", 9, 1, 0, 0, 0x81, 10, 19) && gives_back("FLT.B", 4, 1, 5, 0, 0x01, 10, 14));
    CHECK(gives_back("FLT.B", 1, 1, 3, 0, 0x01, 10, 11));
}

/* A volume where PLOT has extents 11-12, 13 and 10, in one cylinder. */
static void in_one_cylinder(uint8_t unit)
{
    CHECK(initialise() == VTOC_OK && allocate("LOW", VTOC_ABSOLUTE, 1, 6, 0) == VTOC_OK);
    CHECK(allocate("NINE", VTOC_ABSOLUTE, 9, 1, 0) == VTOC_OK && allocate("TEN", VTOC_ABSOLUTE, 10, 1, 0) == VTOC_OK);
    CHECK(allocate("HIGH", VTOC_ABSOLUTE, 14, 186, 0) == VTOC_OK && allocate("PLOT", VTOC_TRACKS, 0, 2, 1) == VTOC_OK);
    CHECK(extend("PLOT") == VTOC_OK && vtoc_answer_start(answer, 0) == 13);
    split_last("PLOT", 13);
    CHECK(scratch("TEN") == VTOC_OK);
    CHECK(extend("PLOT") == VTOC_OK && vtoc_answer_start(answer, 0) == 10);
    set_unit("PLOT", unit);
}

/* By the list of the data set, from extent to extent. */
static void releases_by_list(void)
{
    /* FLT.B grows by 20 to 24: another cylinder, which is not kept with the one before, be it in one extent with it or not. */
    volume();
    CHECK(extend("FLT.B") == VTOC_OK && vtoc_answer_start(answer, 0) == 20);
    CHECK(gives_back("FLT.B", 11, 1, 0, 0, 0x81, 10, 24) && gives_back("FLT.B", 7, 1, 5, 0, 0x81, 10, 19));
    CHECK(extend("FLT.B") == VTOC_OK && vtoc_answer_start(answer, 0) == 20);
    split_last("FLT.B", 20);
    CHECK(gives_back("FLT.B", 11, 1, 0, 1, 0x81, 20, 24) && gives_back("FLT.B", 7, 1, 5, 0, 0x81, 10, 19));

    /* 13 follows 12, and 10 does not follow 13. */
    in_one_cylinder(0xC0);
    CHECK(gives_back("PLOT", 0, 1, 1, 1, 0x01, 13, 13));
    in_one_cylinder(0xC0);
    CHECK(gives_back("PLOT", 3, 1, 0, 2, 0x01, 10, 10));
    in_one_cylinder(0x80);
    CHECK(gives_back("PLOT", 0, 1, 3, 0, 0x01, 11, 11));

    /* Extents 11 and 12-17: the cylinder ends with track 14, in the second. */
    CHECK(initialise() == VTOC_OK && allocate("LOW", VTOC_ABSOLUTE, 1, 6, 0) == VTOC_OK);
    CHECK(allocate("NINE", VTOC_ABSOLUTE, 9, 2, 0) == VTOC_OK && allocate("HIGH", VTOC_ABSOLUTE, 18, 182, 0) == VTOC_OK);
    CHECK(allocate("PLOT", VTOC_TRACKS, 0, 1, 6) == VTOC_OK && vtoc_answer_start(answer, 0) == 11);
    CHECK(extend("PLOT") == VTOC_OK && vtoc_answer_start(answer, 0) == 12);
    split_last("PLOT", 12);
    set_unit("PLOT", 0xC0);
    CHECK(gives_back("PLOT", 0, 1, 3, 1, 0x01, 12, 14));

    /* 30 to 37, part of a cylinder at the end, as a release before version 300 left it: 38 and 39 are not taken. */
    volume();
    CHECK(allocate("OLD", VTOC_ABSOLUTE, 30, 8, 0) == VTOC_OK);
    set_unit("OLD", 0xC0);
    CHECK(gives_back("OLD", 5, 1, 0, 0, 0x01, 30, 37) && allocate("NEXT", VTOC_ABSOLUTE, 38, 2, 0) == VTOC_OK);
    CHECK(gives_back("OLD", 1, 1, 3, 0, 0x01, 30, 34));
}

/* ---- Previews ------------------------------------------------------------------------------------------------------------ */

/* The lengths that a preview and its call are lent. */
static size_t table_lent = LENGTH, name_lent = 44, attributes_lent = 52, date_lent = 4, answer_lent = 24;

/* The table as it is, in memory that can be read alone: a byte written there ends the program. Both answers are filled. */
static const uint8_t *read_only(void)
{
    static uint8_t *pages = NULL;
    if (pages == NULL)
        pages = (uint8_t *)mmap(NULL, LENGTH, PROT_NONE, MAP_PRIVATE | MAP_ANONYMOUS, -1, 0);
    CHECK(pages != MAP_FAILED && mprotect(pages, LENGTH, PROT_READ | PROT_WRITE) == 0);
    memcpy(pages, table, LENGTH);
    CHECK(mprotect(pages, LENGTH, PROT_READ) == 0);
    memset(answer, 0xA5, sizeof answer);
    memset(other_answer, 0xA5, sizeof other_answer);
    return pages;
}

/* The result of a call, where its preview had the same one and the same 24 bytes; refused, both have left theirs as they were. */
static uint32_t foreseen(uint32_t preview, uint32_t result)
{
    CHECK(preview == result && memcmp(other_answer, answer, sizeof answer) == 0);
    for (unsigned i = 0; i < sizeof answer && result != VTOC_OK; i++)
        CHECK(answer[i] == 0xA5);
    return result;
}

/* Each of the four: a preview on the table that cannot be written, with the other answer, then the call on the table. */
static uint32_t both_allocate(uint32_t option, const char *text, uint32_t kind, uint32_t start, uint32_t amount, uint32_t secondary)
{
    const uint8_t *name = name_of(text), *lent = read_only();
    uint32_t preview = vtoc_preview_allocate(lent, table_lent, name, name_lent, attributes, attributes_lent, kind, start, amount,
                                             secondary, option, expiry, date_lent, other_answer, answer_lent);
    return foreseen(preview, vtoc_allocate(table, table_lent, name, name_lent, attributes, attributes_lent, kind, start, amount,
                                           secondary, option, expiry, date_lent, answer, answer_lent));
}

static uint32_t both_extend(const char *text)
{
    const uint8_t *name = name_of(text), *lent = read_only();
    uint32_t preview = vtoc_preview_extend(lent, table_lent, name, name_lent, other_answer, answer_lent);
    return foreseen(preview, vtoc_extend(table, table_lent, name, name_lent, answer, answer_lent));
}

static uint32_t both_release(const char *text, uint32_t ttr)
{
    const uint8_t *name = name_of(text), *lent = read_only();
    uint32_t preview = vtoc_preview_release(lent, table_lent, name, name_lent, ttr, other_answer, answer_lent);
    return foreseen(preview, vtoc_release(table, table_lent, name, name_lent, ttr, answer, answer_lent));
}

static uint32_t both_scratch(const char *text)
{
    const uint8_t *name = name_of(text), *lent = read_only();
    uint32_t preview
        = vtoc_preview_scratch(lent, table_lent, name, name_lent, today, date_lent, override, other_answer, answer_lent);
    return foreseen(preview, vtoc_scratch(table, table_lent, name, name_lent, today, date_lent, override, answer, answer_lent));
}

/* The life of a volume, each step foreseen. */
static void previews(void)
{
    volume();
    CHECK(both_allocate(VTOC_NO_OPTION, "FLT.D", VTOC_TRACKS, 0, 101, 30) == VTOC_OK);
    CHECK(vtoc_answer_tracks(other_answer) == 101 && vtoc_answer_pieces(other_answer) == 2);
    CHECK(vtoc_answer_start(other_answer, 0) == 109 && vtoc_answer_count(other_answer, 0) == 91);
    CHECK(vtoc_answer_start(other_answer, 1) == 20 && vtoc_answer_count(other_answer, 1) == 10);
    CHECK(both_extend("FLT.D") == VTOC_OK && vtoc_answer_start(other_answer, 0) == 30);
    CHECK(both_extend("FLT.B") == VTOC_OK && vtoc_answer_start(other_answer, 0) == 60);
    CHECK(both_release("FLT.D", vtoc_ttr(90, 1)) == VTOC_OK && vtoc_answer_tracks(other_answer) == 40);
    CHECK(both_release("FLT.B", vtoc_ttr(1, 1)) == VTOC_OK && vtoc_answer_tracks(other_answer) == 10);
    CHECK(both_scratch("FLT.B") == VTOC_OK && vtoc_answer_tracks(other_answer) == 5);
    CHECK(both_scratch("FLT.B") == VTOC_E_NOT_FOUND);
    CHECK(both_allocate(VTOC_CONTIG, "FLT.E", VTOC_CYLINDERS, 0, 2, 0) == VTOC_OK);
    CHECK(both_allocate(VTOC_NO_OPTION, "FLT.F", VTOC_ABSOLUTE, 5, 2, 0) == VTOC_OK);
    CHECK(both_allocate(VTOC_MXIG, "FLT.G", VTOC_TRACKS, 0, 1, 0) == VTOC_OK && vtoc_answer_tracks(other_answer) == 80);
    CHECK(both_allocate(VTOC_ALX, "FLT.H", VTOC_TRACKS, 0, 1, 0) == VTOC_OK && vtoc_answer_pieces(other_answer) == 1);
}

/* A preview reads the table too: a name, attributes and a date may lie in it. */
static void previews_of_parts(void)
{
    const uint8_t *lent, *label, *date;
    volume();
    memcpy(label_of("FLT.B") + 45, today, 4);
    lent = read_only();
    label = lent + vtoc_find_slot(lent, LENGTH, name_of("FLT.B")) * VTOC_RECORD_LENGTH;
    CHECK(label != lent);
    CHECK(vtoc_preview_extend(lent, LENGTH, label, 44, answer, 24) == VTOC_OK && vtoc_answer_tracks(answer) == H);
    CHECK(vtoc_preview_release(lent, LENGTH, label, 44, 0, answer, 24) == VTOC_OK && vtoc_answer_tracks(answer) == H);
    date = label + 45;
    CHECK(vtoc_preview_scratch(lent, LENGTH, label, 44, date, 4, VTOC_NO_OVERRIDE, answer, 24) == VTOC_OK);
    CHECK(vtoc_answer_tracks(answer) == 2 * H);
    CHECK(vtoc_preview_allocate(lent, LENGTH, label, 44, label, 52, VTOC_TRACKS, 0, 1, 0, VTOC_NO_OPTION, date, 4, answer, 24)
          == VTOC_E_DUPLICATE);
    CHECK(vtoc_preview_allocate(lent, LENGTH, name_of("FLT.D"), 44, label, 52, VTOC_TRACKS, 0, 1, 0, VTOC_NO_OPTION, date, 4,
                                answer, 24)
              == VTOC_OK
          && vtoc_answer_tracks(answer) == 1);
}

/* Whether all four refuse with this number; the name is that of a data set for all but allocate. */
static int all_refuse(uint32_t result, const char *text)
{
    return both_allocate(VTOC_NO_OPTION, text, VTOC_TRACKS, 0, 1, 0) == result && both_extend(text) == result
           && both_release(text, 1) == result && both_scratch(text) == result;
}

/* One byte less of a buffer that each of them is lent. */
static int all_refuse_less_of(size_t *lent)
{
    int so;
    --*lent;
    so = all_refuse(VTOC_E_LENGTH, "FLT.B");
    ++*lent;
    return so;
}

/* Each refusal of each of the four, but for 11. */
static void previews_refused(void)
{
    volume();
    CHECK(all_refuse_less_of(&table_lent) && all_refuse_less_of(&name_lent) && all_refuse_less_of(&answer_lent));
    attributes_lent = 51;
    CHECK(both_allocate(VTOC_NO_OPTION, "FLT.D", VTOC_TRACKS, 0, 1, 0) == VTOC_E_LENGTH);
    attributes_lent = 52;
    date_lent = 3;
    CHECK(both_allocate(VTOC_NO_OPTION, "FLT.D", VTOC_TRACKS, 0, 1, 0) == VTOC_E_LENGTH && both_scratch("FLT.B") == VTOC_E_LENGTH);
    date_lent = 4;
    table[LENGTH - 1] ^= 1;
    CHECK(all_refuse(VTOC_E_UNSOUND, "FLT.B"));
    table[LENGTH - 1] ^= 1;
    CHECK(all_refuse(VTOC_E_NAME, "FLT..B"));
    CHECK(both_extend("FLT.X") == VTOC_E_NOT_FOUND && both_release("FLT.X", 1) == VTOC_E_NOT_FOUND);
    CHECK(both_scratch("FLT.X") == VTOC_E_NOT_FOUND);
    CHECK(both_allocate(VTOC_NO_OPTION, "FLT.B", VTOC_TRACKS, 0, 1, 0) == VTOC_E_DUPLICATE);
    CHECK(both_allocate(VTOC_NO_OPTION, "FLT.B", VTOC_TRACKS, 0, 0, 0) == VTOC_E_AMOUNT);
    CHECK(both_allocate(VTOC_CONTIG, "FLT.D", VTOC_ABSOLUTE, 30, 4, 0) == VTOC_E_AMOUNT);
    CHECK(both_allocate(VTOC_NO_OPTION, "FLT.D", VTOC_ABSOLUTE, 30, 4, 1) == VTOC_E_AMOUNT);
    CHECK(both_allocate(VTOC_NO_OPTION, "FLT.D", VTOC_TRACKS, 0, 1, VTOC_MOST_SECONDARY + 1) == VTOC_E_AMOUNT);
    CHECK(both_allocate(VTOC_NO_OPTION, "FLT.D", VTOC_ABSOLUTE + 1, 0, 1, 0) == VTOC_E_AMOUNT);
    CHECK(both_extend("FLT.C") == VTOC_E_NO_SECONDARY);
    CHECK(both_allocate(VTOC_NO_OPTION, "FLT.D", VTOC_TRACKS, 0, 175, 0) == VTOC_E_NO_SPACE);
    CHECK(both_allocate(VTOC_NO_OPTION, "FLT.D", VTOC_ABSOLUTE, 7, 1, 0) == VTOC_E_NO_SPACE);
    CHECK(both_release("FLT.A", vtoc_ttr(4, 1)) == VTOC_E_TTR && both_release("FLT.A", vtoc_ttr(1, 0)) == VTOC_E_TTR);
    CHECK(both_release("FLT.A", vtoc_ttr(0, 256)) == VTOC_E_TTR);

    /* Two that grow in turns, so that none joins. */
    CHECK(both_allocate(VTOC_NO_OPTION, "FLT.D", VTOC_CYLINDERS, 0, 1, 1) == VTOC_OK);
    for (unsigned extents = 1; extents < 16; extents++)
        CHECK(both_extend("FLT.B") == VTOC_OK && both_extend("FLT.D") == VTOC_OK);
    CHECK(both_extend("FLT.B") == VTOC_E_EXTENTS);
    CHECK(both_allocate(VTOC_ALX, "FLT.E", VTOC_TRACKS, 0, 1, 0) == VTOC_OK && both_extend("FLT.A") == VTOC_E_NO_SPACE);
}

/* A volume without a free record, and with 26 free extents, as many as a format 5 holds. EDGE has tracks 1 to 6, GROW three
   extents, which do not touch. */
static void full_vtoc(void)
{
    static const char *const stay[2] = {"STAY1", "STAY2"}, *const go[2] = {"GO1", "GO2"};
    char filler[] = "FILL.A";
    CHECK(initialise() == VTOC_OK && allocate("EDGE", VTOC_ABSOLUTE, 1, 6, 0) == VTOC_OK);
    CHECK(allocate("GROW", VTOC_TRACKS, 0, 1, 1) == VTOC_OK);
    /* Two by two they have every other track, 13 each; what goes leaves 13 gaps. */
    for (unsigned i = 0; i < 2; i++) {
        CHECK(allocate(stay[i], VTOC_TRACKS, 0, 1, 1) == VTOC_OK && allocate(go[i], VTOC_TRACKS, 0, 1, 1) == VTOC_OK);
        CHECK(extend("GROW") == VTOC_OK);
        for (unsigned extents = 1; extents < 13; extents++)
            CHECK(extend(stay[i]) == VTOC_OK && extend(go[i]) == VTOC_OK);
    }
    CHECK(both_scratch("GO1") == VTOC_OK && both_scratch("GO2") == VTOC_OK);
    for (uint32_t track = 199; track > 187; track--, filler[5]++)
        CHECK(allocate(filler, VTOC_ABSOLUTE, track, 1, 0) == VTOC_OK);
    CHECK(vtoc_lspace(table, LENGTH, answer, sizeof answer) == VTOC_OK);
    CHECK(vtoc_answer_space(answer, VTOC_SPACE_EXTENTS) == 26 && vtoc_answer_space(answer, VTOC_SPACE_RECORDS) == 0);
}

/* 11: the records decide, though there are tracks. Scratch is never refused for them. */
static void previews_of_a_full_vtoc(void)
{
    full_vtoc();
    CHECK(both_allocate(VTOC_NO_OPTION, "NEW", VTOC_TRACKS, 0, 1, 0) == VTOC_E_VTOC_FULL);
    CHECK(both_extend("GROW") == VTOC_E_VTOC_FULL);                  /* a fourth extent needs a format 3 */
    CHECK(both_release("EDGE", vtoc_ttr(2, 1)) == VTOC_E_VTOC_FULL); /* a free extent more needs a format 5 */
    CHECK(both_release("STAY1", vtoc_ttr(11, 1)) == VTOC_OK);        /* one less needs none */
    CHECK(both_scratch("FILL.A") == VTOC_OK);
    CHECK(both_extend("GROW") == VTOC_OK && both_release("EDGE", vtoc_ttr(2, 1)) == VTOC_OK);
}

/* ---- What an extend joins ------------------------------------------------------------------------------------------------ */

/* Whether an extend, which its preview foretells, grants a first piece of this start and count, and leaves this last extent. */
static int grows(const char *text, uint32_t start, uint32_t count, uint32_t e, uint8_t type, uint32_t first, uint32_t last)
{
    if (both_extend(text) != VTOC_OK || vtoc_answer_start(answer, 0) != start || vtoc_answer_count(answer, 0) != count)
        return 0;
    return ends_with(text, e, type, first, last);
}

/* The volume of three data sets, where FLT.A has tracks 1 to 4, FLT.B 10 to 19. */
static void extends(void)
{
    /* To the end of the gap, then into another one, and on there. The answer has the piece all the same. */
    volume();
    CHECK(grows("FLT.A", 5, 2, 0, 0x01, 1, 6) && vtoc_answer_tracks(other_answer) == 2 && vtoc_answer_pieces(other_answer) == 1);
    CHECK(grows("FLT.A", 20, 2, 1, 0x01, 20, 21) && grows("FLT.A", 22, 2, 1, 0x01, 20, 23));
    CHECK(gives_back("FLT.A", 6, 1, 3, 1, 0x01, 20, 20) && grows("FLT.A", 21, 2, 1, 0x01, 20, 22));

    /* Extents that touch, from an earlier version, stay two. */
    volume();
    split_last("FLT.A", 3);
    CHECK(grows("FLT.A", 5, 2, 1, 0x01, 3, 6) && vtoc_track(vtoc_label_extent(labels, 0) + VTOC_EXTENT_LAST, H) == 2);

    /* X'81' only where both are: of a cylinder file; not where the extent is X'01', nor where the piece is. */
    volume();
    CHECK(grows("FLT.B", 20, 5, 0, 0x81, 10, 24));
    volume();
    CHECK(allocate("FLT.D", VTOC_TRACKS, 0, 15, 1) == VTOC_OK);
    set_unit("FLT.D", 0xC0);
    CHECK(grows("FLT.D", 35, 5, 0, 0x01, 20, 39));
    volume();
    CHECK(allocate("FLT.D", VTOC_ABSOLUTE, 5, 2, 0) == VTOC_OK && allocate("FLT.E", VTOC_ABSOLUTE, 9, 1, 0) == VTOC_OK);
    set_unit("FLT.B", 0x80);
    CHECK(grows("FLT.B", 20, 1, 0, 0x01, 10, 20));
}

/* By the end of the last extent, which is not the highest track, and by the first piece alone. */
static void extends_by_list(void)
{
    /* FLT.D has 109 to 199, then 20 to 29, and goes on from 29. */
    volume();
    CHECK(allocate("FLT.D", VTOC_TRACKS, 0, 101, 30) == VTOC_OK && ends_with("FLT.D", 1, 0x01, 20, 29));
    CHECK(grows("FLT.D", 30, 30, 1, 0x01, 20, 59));

    /* 190 follows its highest track, not its last one. 30, which does, is in a longer gap and not preferred. */
    volume();
    CHECK(allocate("FLT.D", VTOC_TRACKS, 0, 81, 10) == VTOC_OK && allocate("FLT.E", VTOC_ABSOLUTE, 190, 10, 0) == VTOC_OK);
    CHECK(grows("FLT.D", 20, 10, 1, 0x01, 20, 29) && scratch("FLT.E") == VTOC_OK);
    CHECK(grows("FLT.D", 190, 10, 2, 0x01, 190, 199));

    /* Two pieces, of which the first is joined; and two of which the second begins after the last extent, and is not. */
    volume();
    CHECK(allocate("FLT.E", VTOC_ABSOLUTE, 129, 71, 0) == VTOC_OK && allocate("FLT.D", VTOC_TRACKS, 0, 21, 70) == VTOC_OK);
    CHECK(grows("FLT.D", 41, 59, 1, 0x01, 109, 119) && vtoc_answer_pieces(other_answer) == 2);
    CHECK(vtoc_track(vtoc_label_extent(labels, 0) + VTOC_EXTENT_LAST, H) == 99);
    volume();
    CHECK(allocate("FLT.D", VTOC_TRACKS, 0, 81, 90) == VTOC_OK);
    CHECK(grows("FLT.D", 20, 80, 2, 0x01, 190, 199) && vtoc_answer_start(other_answer, 1) == 190);
}

/* 11: where a piece joins, a data set of three extents needs no format 3, and grows though no record is free. */
static void extends_in_a_full_vtoc(void)
{
    char filler[] = "FILL.A";
    CHECK(initialise() == VTOC_OK && allocate("EDGE", VTOC_ABSOLUTE, 1, 6, 0) == VTOC_OK);
    CHECK(allocate("GROW", VTOC_TRACKS, 0, 1, 1) == VTOC_OK && allocate("TEN", VTOC_ABSOLUTE, 10, 1, 0) == VTOC_OK);
    CHECK(grows("GROW", 11, 1, 1, 0x01, 11, 11) && allocate("TWELVE", VTOC_ABSOLUTE, 12, 1, 0) == VTOC_OK);
    CHECK(grows("GROW", 13, 1, 2, 0x01, 13, 13));
    for (uint32_t track = 199; track > 185; track--, filler[5]++)
        CHECK(allocate(filler, VTOC_ABSOLUTE, track, 1, 0) == VTOC_OK);
    CHECK(both_allocate(VTOC_NO_OPTION, "NEW", VTOC_TRACKS, 0, 1, 0) == VTOC_E_VTOC_FULL);
    CHECK(grows("GROW", 14, 1, 2, 0x01, 13, 14) && grows("GROW", 15, 1, 2, 0x01, 13, 15));
    CHECK(scratch("FILL.A") == VTOC_OK && allocate("SIXTEEN", VTOC_ABSOLUTE, 16, 1, 0) == VTOC_OK);
    CHECK(both_extend("GROW") == VTOC_E_VTOC_FULL); /* from 17 on: a fourth extent */
}

/* A host with extents of its own: it appends the pieces of each answer, and joins as the header says. */
static void extends_of_a_host(void)
{
    uint32_t firsts[VTOC_MOST_EXTENTS + VTOC_MOST_PIECES], lasts[VTOC_MOST_EXTENTS + VTOC_MOST_PIECES], count = 1, joined = 0;
    volume();
    CHECK(allocate("LONG", VTOC_TRACKS, 0, 5, 7) == VTOC_OK);
    firsts[0] = vtoc_answer_start(answer, 0);
    lasts[0] = firsts[0] + vtoc_answer_count(answer, 0) - 1;
    for (uint32_t turn = 0; both_extend("LONG") == VTOC_OK; turn++) {
        for (uint32_t i = 0; i < vtoc_answer_pieces(answer); i++) {
            uint32_t start = vtoc_answer_start(answer, i);
            if (i == 0 && start == lasts[count - 1] + 1)
                joined++;
            else
                firsts[count++] = start;
            lasts[count - 1] = start + vtoc_answer_count(answer, i) - 1;
        }
        CHECK(ends_with("LONG", count - 1, 0x01, firsts[count - 1], lasts[count - 1]));
        for (uint32_t e = 0; e < count; e++) {
            const uint8_t *extent = vtoc_label_extent(labels, e);
            CHECK(vtoc_track(extent + VTOC_EXTENT_FIRST, H) == firsts[e]);
            CHECK(vtoc_track(extent + VTOC_EXTENT_LAST, H) == lasts[e]);
        }
        if (turn % 3 == 2 && turn < 15) /* another comes between */
            CHECK(extend("FLT.B") == VTOC_OK);
    }
    CHECK(count == 14 && joined == 11);
}

/* ---- Expiry dates -------------------------------------------------------------------------------------------------------- */

static uint32_t both_keep(const char *text)
{
    return both_allocate(VTOC_NO_OPTION, text, VTOC_TRACKS, 0, 1, 1);
}

/* Whether a data set has this expiry date, as year and day, and beside it the attributes that were handed over. */
static int is_kept_until(const char *text, uint32_t year, uint32_t day)
{
    uint8_t seen[VTOC_ATTRIBUTES_LENGTH];
    CHECK(obtain(text) == VTOC_OK);
    vtoc_label_attributes(labels, seen);
    return vtoc_stored_year(labels + VTOC_LABEL_EXPIRY) == year && vtoc_stored_day(labels + VTOC_LABEL_EXPIRY) == day
           && memcmp(seen, attributes, 11) == 0 && memcmp(seen + 14, attributes + 14, 38) == 0;
}

/* Whatever attribute bytes 11-13 are, the table is the same. The calls that follow keep the date. */
static void dates_stored(void)
{
    static const uint8_t fillers[] = {0x00, 0x01, 0x63, 0xFF};
    for (size_t i = 0; i < sizeof fillers; i++) {
        volume();
        memset(attributes + 11, fillers[i], 3);
        CHECK(vtoc_packed_date(expiry, 2000, 366) == VTOC_OK && both_keep("FLT.D") == VTOC_OK);
        CHECK(is_kept_until("FLT.D", 2000, 366));
        memcpy(expiry, vtoc_no_expiry(), 4);
        CHECK(both_keep("FLT.E") == VTOC_OK && is_kept_until("FLT.E", 1900, 0));
        if (i > 0)
            CHECK(memcmp(table, copy, LENGTH) == 0);
        memcpy(copy, table, LENGTH);
    }
    CHECK(extend("FLT.D") == VTOC_OK && is_kept_until("FLT.D", 2000, 366));
    CHECK(release("FLT.D", 0, 1) == VTOC_OK && is_kept_until("FLT.D", 2000, 366));
    CHECK(rename_alike(name_of("FLT.D"), 44, name_of("FLT.F"), 44) == VTOC_OK && is_kept_until("FLT.F", 2000, 366));
}

/* Scratches a data set, on a copy of the table, with each of these overrides: all are accepted. */
static void with_overrides(const char *text)
{
    static const uint32_t overrides[] = {VTOC_OVERRIDE, 2, 256, 0x80000000, UINT32_MAX};
    static uint8_t before[LENGTH];
    memcpy(before, table, LENGTH);
    for (size_t i = 0; i < sizeof overrides / sizeof overrides[0]; i++) {
        override = overrides[i];
        CHECK(both_scratch(text) == VTOC_OK && obtain(text) == VTOC_E_NOT_FOUND);
        memcpy(table, before, LENGTH);
    }
    override = VTOC_NO_OVERRIDE;
}

/* Refused before the date, accepted on it and after it, and with an override on any day. */
static void dates_of_scratches(void)
{
    static const struct {
        uint32_t year, day, today_year, today_day, result;
    } some[] = {{1999, 365, 1999, 364, 13}, {1999, 365, 1999, 365, 0}, {1999, 365, 2000, 1, 0},   {2000, 1, 1999, 365, 13},
                {2000, 366, 2000, 365, 13}, {2000, 366, 2001, 1, 0},   {2001, 1, 2000, 366, 13},  {2000, 256, 2000, 255, 13},
                {2000, 255, 2000, 256, 0},  {2000, 256, 2000, 256, 0}, {1900, 2, 1900, 1, 13},    {1900, 1, 1900, 1, 0},
                {2099, 365, 1900, 1, 13},   {1900, 365, 2099, 1, 0},   {2099, 365, 2099, 364, 13}, {2099, 365, 2099, 365, 0}};
    for (size_t i = 0; i < sizeof some / sizeof some[0]; i++) {
        volume();
        CHECK(vtoc_packed_date(expiry, some[i].year, some[i].day) == VTOC_OK && both_keep("FLT.D") == VTOC_OK);
        CHECK(vtoc_packed_date(today, some[i].today_year, some[i].today_day) == VTOC_OK);
        with_overrides("FLT.D");
        CHECK(both_scratch("FLT.D") == some[i].result);
    }
    /* None, on the first day that there is. */
    memset(expiry, 0, 4);
    CHECK(vtoc_packed_date(today, 1900, 1) == VTOC_OK && both_keep("FLT.E") == VTOC_OK && both_scratch("FLT.E") == VTOC_OK);
}

/* Bytes 56-58 of an earlier volume, compared as they stand with 2026 day 321 and with the last day that there is. */
static void dates_of_earlier_volumes(void)
{
    static const struct {
        uint8_t stored[3];
        uint32_t result, at_last;
    } some[] = {{{0x00, 0x00, 0x00}, 0, 0},   {{0x00, 0xFF, 0xFF}, 0, 0},   {{0x7D, 0xFF, 0xFF}, 0, 0},
                {{0x7E, 0x00, 0x00}, 0, 0},   {{0x7E, 0x01, 0x41}, 0, 0},   {{0x7E, 0x01, 0x42}, 13, 0},
                {{0x7E, 0x02, 0x00}, 13, 0},  {{0x7F, 0x00, 0x00}, 13, 0},  {{0xC7, 0x01, 0x6D}, 13, 0},
                {{0xC7, 0x01, 0x6E}, 13, 13}, {{0xC8, 0x00, 0x00}, 13, 13}, {{0xFF, 0xFF, 0xFF}, 13, 13}};
    for (size_t i = 0; i < sizeof some / sizeof some[0]; i++) {
        volume();
        memcpy(label_of("FLT.B") + VTOC_LABEL_EXPIRY, some[i].stored, 3);
        with_overrides("FLT.B");
        memcpy(copy, table, LENGTH);
        CHECK(both_scratch("FLT.B") == some[i].result);
        memcpy(table, copy, LENGTH);
        CHECK(vtoc_packed_date(today, 2099, 365) == VTOC_OK && both_scratch("FLT.B") == some[i].at_last);
    }
}

/* What is no date in the packed form, by each half byte; the last one is what vtoc_packed_date makes of no date. */
static const uint8_t not_dates[][VTOC_PACKED_LENGTH] = {
    {0x10, 0x00, 0x00, 0x1F}, {0xF0, 0x00, 0x00, 0x1F}, {0x02, 0x00, 0x00, 0x1F}, {0x0F, 0x00, 0x00, 0x1F},
    {0x00, 0xA0, 0x00, 0x1F}, {0x00, 0x0A, 0x00, 0x1F}, {0x00, 0x00, 0xA0, 0x1F}, {0x00, 0x00, 0x0A, 0x1F},
    {0x00, 0x00, 0x00, 0xAF}, {0x00, 0x00, 0x00, 0x10}, {0x00, 0x00, 0x00, 0x1A}, {0x00, 0x00, 0x00, 0x1C},
    {0x00, 0x00, 0x00, 0x1E}, {0x00, 0x00, 0x00, 0x0F}, {0x00, 0x00, 0x36, 0x6F}, {0x00, 0x99, 0x36, 0x6F},
    {0x01, 0x00, 0x36, 0x7F}, {0x01, 0x26, 0x99, 0x9F}, {0xFF, 0xFF, 0xFF, 0xFF}};

/* Document 02's order: allocate 2, 3, 4, 14, 7, 6, 9, 11; scratch 2, 3, 4, 14, 5, 13. */
static void dates_refused(void)
{
    volume();
    CHECK(vtoc_packed_date(expiry, 2026, 322) == VTOC_OK && both_keep("FLT.D") == VTOC_OK);
    for (size_t i = 0; i < sizeof not_dates / sizeof not_dates[0]; i++) {
        memcpy(expiry, not_dates[i], 4);
        memcpy(today, not_dates[i], 4);
        memset(answer, 0xA5, sizeof answer);
        CHECK(vtoc_date_to_stored(not_dates[i], 4, answer, 24) == VTOC_E_DATE && answer[0] == 0xA5 && answer[23] == 0xA5);
        CHECK(both_keep("FLT.E") == VTOC_E_DATE && both_keep("FLT.B") == VTOC_E_DATE && both_keep("FLT..E") == VTOC_E_NAME);
        CHECK(both_allocate(VTOC_NO_OPTION, "FLT.E", VTOC_TRACKS, 0, 0, 0) == VTOC_E_DATE);
        CHECK(both_scratch("FLT.B") == VTOC_E_DATE && both_scratch("FLT.D") == VTOC_E_DATE);
        CHECK(both_scratch("FLT.X") == VTOC_E_DATE && both_scratch("FLT..B") == VTOC_E_NAME);
        override = VTOC_OVERRIDE;
        CHECK(both_scratch("FLT.B") == VTOC_E_DATE && both_scratch("FLT.X") == VTOC_E_DATE);
        override = VTOC_NO_OVERRIDE;
    }
    /* Zeros are none for allocate, and no date for the others. */
    memset(expiry, 0, 4);
    memset(today, 0, 4);
    CHECK(both_keep("FLT.E") == VTOC_OK && both_scratch("FLT.E") == VTOC_E_DATE);
    CHECK(vtoc_date_to_stored(expiry, 4, answer, 24) == VTOC_E_DATE && vtoc_date_to_packed(expiry, 3, answer, 24) == VTOC_E_DATE);
    /* Lengths come before the table, the table before the date. */
    memset(expiry, 0xFF, 4);
    table[LENGTH - 1] ^= 1;
    CHECK(both_keep("FLT.F") == VTOC_E_UNSOUND && both_scratch("FLT.B") == VTOC_E_UNSOUND);
    for (date_lent = 0; date_lent < 4; date_lent++)
        CHECK(both_keep("FLT.F") == VTOC_E_LENGTH && both_scratch("FLT.B") == VTOC_E_LENGTH);
    table[LENGTH - 1] ^= 1;
    CHECK(vtoc_packed_date(today, 2026, 321) == VTOC_OK);
    CHECK(both_scratch("FLT.X") == VTOC_E_NOT_FOUND && both_scratch("FLT.D") == VTOC_E_UNEXPIRED);
}

/* Whether an answer has these first bytes, and then zeros. */
static int answers(const uint8_t *bytes, size_t length)
{
    for (size_t i = length; i < sizeof answer; i++)
        if (answer[i] != 0)
            return 0;
    return memcmp(answer, bytes, length) == 0;
}

/* Every date there and back, and no other. Read as the header reads them. */
static void dates_converted(void)
{
    uint8_t packed[VTOC_PACKED_LENGTH], stored[VTOC_STORED_LENGTH];
    uint32_t dates = 0;
    for (uint32_t year = 1900; year < 2156; year++)
        for (uint32_t day = 0; day < 400; day++) {
            uint32_t result = vtoc_packed_date(packed, year, day);
            stored[0] = (uint8_t)(year - 1900);
            stored[1] = (uint8_t)(day >> 8);
            stored[2] = (uint8_t)(day & 0xFF);
            memset(answer, 0xA5, sizeof answer);
            CHECK(vtoc_date_to_packed(stored, 3, answer, 24) == result);
            if (result == VTOC_OK) {
                CHECK(answers(packed, 4) && vtoc_packed_year(answer) == year && vtoc_packed_day(answer) == day);
                memset(answer, 0xA5, sizeof answer);
                CHECK(vtoc_date_to_stored(packed, 4, answer, 24) == VTOC_OK && answers(stored, 3));
                CHECK(vtoc_stored_year(answer) == year && vtoc_stored_day(answer) == day);
                dates++;
            }
        }
    CHECK(dates == 73049); /* 200 years, 49 of them leap years */
    CHECK(vtoc_packed_date(packed, 2000, 366) == VTOC_OK);
    for (size_t length = 0; length < 4; length++)
        CHECK(vtoc_date_to_stored(packed, length, answer, 24) == VTOC_E_LENGTH);
    for (size_t length = 0; length < 3; length++)
        CHECK(vtoc_date_to_packed(stored, length, answer, 24) == VTOC_E_LENGTH);
    CHECK(vtoc_date_to_packed(packed, 4, answer, 24) == VTOC_E_LENGTH && vtoc_date_to_packed(NULL, 0, answer, 24) == VTOC_E_LENGTH);
    CHECK(vtoc_date_to_stored(packed, 4, answer, 23) == VTOC_E_LENGTH);
    CHECK(vtoc_date_to_packed(stored, 3, answer, 23) == VTOC_E_LENGTH);
}

/* The host moves a date in the label, as the header says. */
static void dates_moved(void)
{
    uint8_t packed[VTOC_PACKED_LENGTH];
    volume();
    CHECK(both_scratch("FLT.A") == VTOC_OK);
    CHECK(vtoc_packed_date(packed, 2026, 322) == VTOC_OK && vtoc_date_to_stored(packed, 4, answer, 24) == VTOC_OK);
    memcpy(label_of("FLT.B") + VTOC_LABEL_EXPIRY, answer, VTOC_STORED_LENGTH);
    CHECK(is_kept_until("FLT.B", 2026, 322) && both_scratch("FLT.B") == VTOC_E_UNEXPIRED);
    CHECK(vtoc_date_to_stored(today, 4, answer, 24) == VTOC_OK);
    memcpy(label_of("FLT.B") + VTOC_LABEL_EXPIRY, answer, VTOC_STORED_LENGTH);
    CHECK(both_scratch("FLT.B") == VTOC_OK);
}

/* ---- Labels of sixteen extents, geometries, limits ----------------------------------------------------------------------- */

/* LONG and NEXT grow in turns, so that none joins. */
static void sixteen_extents(void)
{
    uint32_t starts[16], counts[16];
    volume();
    for (uint32_t e = 0; e < 16; e++) {
        uint32_t result = e == 0 ? allocate("LONG", VTOC_TRACKS, 0, 5, 3) : extend("LONG");
        CHECK(result == VTOC_OK && vtoc_answer_pieces(answer) == 1 && vtoc_answer_tracks(answer) == (e == 0 ? 5 : 3));
        starts[e] = vtoc_answer_start(answer, 0);
        counts[e] = vtoc_answer_count(answer, 0);
        CHECK((e == 0 ? allocate("NEXT", VTOC_TRACKS, 0, 3, 3) : extend("NEXT")) == VTOC_OK);
    }
    CHECK(both_extend("LONG") == VTOC_E_EXTENTS);
    CHECK(obtain("LONG") == VTOC_OK && labels[VTOC_LABEL_EXTENTS] == 16);
    CHECK(labels[VTOC_LABEL_ID] == 0xF1 && labels[VTOC_LABEL_UNIT] == 0x80 && labels[VTOC_LABEL_SECONDARY + 2] == 3);
    for (uint32_t e = 0; e < 16; e++) {
        const uint8_t *extent = vtoc_label_extent(labels, e);
        CHECK(extent[VTOC_EXTENT_TYPE] == 0x01 && extent[VTOC_EXTENT_NUMBER] == e);
        CHECK(vtoc_track(extent + VTOC_EXTENT_FIRST, H) == starts[e]);
        CHECK(vtoc_track(extent + VTOC_EXTENT_LAST, H) == starts[e] + counts[e] - 1);
    }
    /* NEXT has 16 too, and what is granted begins behind its last: it still grows. LONG does not. */
    CHECK(ends_with("NEXT", 15, 0x01, 124, 126));
    CHECK(grows("NEXT", 127, 3, 15, 0x01, 124, 129) && grows("NEXT", 130, 3, 15, 0x01, 124, 132));
    CHECK(both_extend("LONG") == VTOC_E_EXTENTS);

    CHECK(obtain("FLT.B") == VTOC_OK && vtoc_label_extent(labels, 0)[VTOC_EXTENT_TYPE] == 0x81);
    CHECK(labels[VTOC_LABEL_UNIT] == 0xC0);
    CHECK(obtain("FLT.C") == VTOC_OK && labels[VTOC_LABEL_UNIT] == 0x00);
}

static void geometries(void)
{
    static const struct vtoc_geometry some[] = {{4, 5, 4, 1, 2},           {404, 19, 39, 1, 2},     {65535, 1, 3, 65534, 1},
                                                {257, 255, 255, 65534, 1}, {257, 255, 1, 254, 468}, {1, 4, 1, 1, 3}};
    static uint8_t one[VTOC_MOST_TABLE_LENGTH], again[VTOC_MOST_TABLE_LENGTH];
    for (size_t i = 0; i < sizeof some / sizeof some[0]; i++) {
        size_t length = (size_t)some[i].v * some[i].d * VTOC_RECORD_LENGTH;
        struct vtoc_geometry g;
        CHECK(vtoc_initialise(one, length, some[i].c, some[i].h, some[i].d, some[i].s, some[i].v, answer, 24) == VTOC_OK);
        g = vtoc_table_geometry(one, length);
        CHECK(g.c == some[i].c && g.h == some[i].h && g.d == some[i].d && g.s == some[i].s && g.v == some[i].v);
        CHECK(vtoc_initialise(again, length, g.c, g.h, g.d, g.s, g.v, answer, 24) == VTOC_OK);
        CHECK(memcmp(one, again, length) == 0);
    }
}

static void limits(void)
{
    static uint8_t large[VTOC_MOST_TABLE_LENGTH + VTOC_RECORD_LENGTH];
    uint8_t zeros[VTOC_NAME_LENGTH];
    /* H, D and the number of records: the header's limits, and one past each. */
    CHECK(vtoc_initialise(large, 468 * 140, 2, VTOC_MOST_HEADS, 1, 1, VTOC_MOST_RECORDS, answer, 24) == VTOC_OK);
    CHECK(vtoc_initialise(large, 468 * 140, 2, VTOC_MOST_HEADS + 1, 1, 1, VTOC_MOST_RECORDS, answer, 24) == VTOC_E_GEOMETRY);
    CHECK(vtoc_initialise(large, 469 * 140, 2, VTOC_MOST_HEADS, 1, 1, VTOC_MOST_RECORDS + 1, answer, 24) == VTOC_E_GEOMETRY);
    CHECK(vtoc_initialise(large, 3 * 140, 1, 5, VTOC_LEAST_RECORDS, 1, 1, answer, 24) == VTOC_OK);
    CHECK(vtoc_initialise(large, 2 * 140, 1, 5, VTOC_LEAST_RECORDS - 1, 1, 1, answer, 24) == VTOC_E_GEOMETRY);
    CHECK(vtoc_initialise(large, 3 * 140, VTOC_MOST_TRACKS, 1, 3, 1, 1, answer, 24) == VTOC_OK);
    CHECK(vtoc_initialise(large, 3 * 140, VTOC_MOST_TRACKS + 1, 1, 3, 1, 1, answer, 24) == VTOC_E_GEOMETRY);

    volume();
    CHECK(allocate("FLT.D", VTOC_TRACKS, 0, VTOC_MOST_TRACKS, 0) == VTOC_E_NO_SPACE);
    CHECK(allocate("FLT.D", VTOC_TRACKS, 0, VTOC_MOST_TRACKS + 1, 0) == VTOC_E_AMOUNT);
    CHECK(allocate("FLT.D", VTOC_TRACKS, 0, 1, VTOC_MOST_SECONDARY + 1) == VTOC_E_AMOUNT);
    CHECK(allocate("FLT.D", VTOC_TRACKS, 0, 1, VTOC_MOST_SECONDARY) == VTOC_OK);
    CHECK(allocate("FLT.E", VTOC_ABSOLUTE + 1, 0, 1, 0) == VTOC_E_AMOUNT);
    CHECK(allocate("FLT.E", VTOC_ABSOLUTE, VTOC_NO_TRACK, 1, 0) == VTOC_E_AMOUNT);
    CHECK(vtoc_release(table, LENGTH, name_of("FLT.A"), 44, vtoc_ttr(0, 256), answer, 24) == VTOC_E_TTR);
    CHECK(vtoc_release(table, LENGTH, name_of("FLT.A"), 44, vtoc_ttr(65536, 1), answer, 24) == VTOC_E_TTR);

    /* A text without an EBCDIC name makes zeros, and each call refuses them. */
    CHECK(vtoc_name_from_text(zeros, "FLT A") == VTOC_E_NAME);
    CHECK(allocate("FLT A", VTOC_TRACKS, 0, 1, 0) == VTOC_E_NAME && obtain("FLT A") == VTOC_E_NAME);
    CHECK(vtoc_extend(table, LENGTH, zeros, 44, answer, 24) == VTOC_E_NAME);
    CHECK(vtoc_release(table, LENGTH, zeros, 44, 0, answer, 24) == VTOC_E_NAME);
    CHECK(vtoc_scratch(table, LENGTH, zeros, 44, today, 4, VTOC_NO_OVERRIDE, answer, 24) == VTOC_E_NAME);
    CHECK(vtoc_rename(table, LENGTH, zeros, 44, name_of("FLT.E"), 44, answer, 24) == VTOC_E_NAME);
    CHECK(vtoc_rename(table, LENGTH, name_of("FLT.A"), 44, zeros, 44, answer, 24) == VTOC_E_NAME);
    /* Characters that a name may have, against the rule of parts: a name for the header, none for the calls. */
    CHECK(vtoc_name_from_text(zeros, "9FLT") == VTOC_OK && allocate("9FLT", VTOC_TRACKS, 0, 1, 0) == VTOC_E_NAME);
}

int main(void)
{
    renames();
    other_pairs();
    closings();
    options();
    options_apart();
    releases();
    releases_by_list();
    previews();
    previews_of_parts();
    previews_refused();
    previews_of_a_full_vtoc();
    extends();
    extends_by_list();
    extends_in_a_full_vtoc();
    extends_of_a_host();
    dates_stored();
    dates_of_scratches();
    dates_of_earlier_volumes();
    dates_refused();
    dates_converted();
    dates_moved();
    sixteen_extents();
    geometries();
    limits();
    return 0;
}
