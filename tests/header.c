/*
 * header.c: include/vtoc.h without the library, in C99 and in C++. Every constant has the number of document 01 or 02, every call
 * the types that the library is called with, and every inline function is tried at its limits, beside bytes that it must not
 * touch. The numbers are written out here and none is taken from the header, so that neither can change alone; tests/header_faults
 * tries. tests/header compiles and runs this file.
 */
#define _DEFAULT_SOURCE /* for mmap */
#include <stdio.h>
#include <stdlib.h>
#include <string.h>
#include <sys/mman.h>

#include "vtoc.h"

/* ---- Constants: a wrong one does not compile ----------------------------------------------------------------------------- */

#define IS(constant, number) typedef char constant##_is_not_##number[(constant) == (number) ? 1 : -1]

IS(VTOC_VERSION, 500);
IS(VTOC_REQUESTS, 6);
IS(VTOC_RECORD_LENGTH, 140);
IS(VTOC_LEAST_RECORDS, 3);
IS(VTOC_MOST_RECORDS, 468);
IS(VTOC_MOST_TABLE_LENGTH, 65520);
IS(VTOC_NAME_LENGTH, 44);
IS(VTOC_TEXT_LENGTH, 45);
IS(VTOC_ATTRIBUTES_LENGTH, 52);
IS(VTOC_PACKED_LENGTH, 4);
IS(VTOC_STORED_LENGTH, 3);
IS(VTOC_ANSWER_LENGTH, 24);
IS(VTOC_LABELS_LENGTH, 280);
IS(VTOC_MOST_PIECES, 5);
IS(VTOC_MOST_EXTENTS, 16);
IS(VTOC_MOST_TRACKS, 65535);
IS(VTOC_MOST_HEADS, 255);
IS(VTOC_MOST_SECONDARY, 16777215);
IS(VTOC_STACK_NEED, 16384);
IS(VTOC_NO_TRACK, 4294967295);

IS(VTOC_TRACKS, 0);
IS(VTOC_CYLINDERS, 1);
IS(VTOC_ABSOLUTE, 2);
IS(VTOC_NO_OPTION, 0);
IS(VTOC_CONTIG, 1);
IS(VTOC_MXIG, 2);
IS(VTOC_ALX, 3);
IS(VTOC_NO_OVERRIDE, 0);
IS(VTOC_OVERRIDE, 1);

IS(VTOC_OK, 0);
IS(VTOC_E_GEOMETRY, 1);
IS(VTOC_E_LENGTH, 2);
IS(VTOC_E_UNSOUND, 3);
IS(VTOC_E_NAME, 4);
IS(VTOC_E_NOT_FOUND, 5);
IS(VTOC_E_DUPLICATE, 6);
IS(VTOC_E_AMOUNT, 7);
IS(VTOC_E_NO_SECONDARY, 8);
IS(VTOC_E_NO_SPACE, 9);
IS(VTOC_E_EXTENTS, 10);
IS(VTOC_E_VTOC_FULL, 11);
IS(VTOC_E_TTR, 12);
IS(VTOC_E_UNEXPIRED, 13);
IS(VTOC_E_DATE, 14);

IS(VTOC_SPACE_CYLINDERS, 0);
IS(VTOC_SPACE_ODD_TRACKS, 1);
IS(VTOC_SPACE_EXTENTS, 2);
IS(VTOC_SPACE_LONGEST_CYLINDERS, 3);
IS(VTOC_SPACE_LONGEST_ODD, 4);
IS(VTOC_SPACE_RECORDS, 5);

IS(VTOC_LABEL_ID, 44);
IS(VTOC_LABEL_EXPIRY, 56);
IS(VTOC_LABEL_EXTENTS, 59);
IS(VTOC_LABEL_UNIT, 94);
IS(VTOC_LABEL_SECONDARY, 95);
IS(VTOC_LABEL_LAST_BLOCK, 98);
IS(VTOC_EXTENT_TYPE, 0);
IS(VTOC_EXTENT_NUMBER, 1);
IS(VTOC_EXTENT_FIRST, 2);
IS(VTOC_EXTENT_LAST, 6);

/* ---- The calls: another type does not compile ---------------------------------------------------------------------------- */

#ifdef __cplusplus
extern "C" {
#endif
uint32_t vtoc_initialise(uint8_t *, size_t, uint32_t, uint32_t, uint32_t, uint32_t, uint32_t, uint8_t *, size_t);
uint32_t vtoc_allocate(uint8_t *, size_t, const uint8_t *, size_t, const uint8_t *, size_t, uint32_t, uint32_t, uint32_t,
                       uint32_t, uint32_t, const uint8_t *, size_t, uint8_t *, size_t);
uint32_t vtoc_extend(uint8_t *, size_t, const uint8_t *, size_t, uint8_t *, size_t);
uint32_t vtoc_release(uint8_t *, size_t, const uint8_t *, size_t, uint32_t, uint8_t *, size_t);
uint32_t vtoc_scratch(uint8_t *, size_t, const uint8_t *, size_t, const uint8_t *, size_t, uint32_t, uint8_t *, size_t);
uint32_t vtoc_rename(uint8_t *, size_t, const uint8_t *, size_t, const uint8_t *, size_t, uint8_t *, size_t);
uint32_t vtoc_obtain(const uint8_t *, size_t, const uint8_t *, size_t, uint8_t *, size_t, uint8_t *, size_t);
uint32_t vtoc_lspace(const uint8_t *, size_t, uint8_t *, size_t);
uint32_t vtoc_preview_allocate(const uint8_t *, size_t, const uint8_t *, size_t, const uint8_t *, size_t, uint32_t, uint32_t,
                               uint32_t, uint32_t, uint32_t, const uint8_t *, size_t, uint8_t *, size_t);
uint32_t vtoc_preview_extend(const uint8_t *, size_t, const uint8_t *, size_t, uint8_t *, size_t);
uint32_t vtoc_preview_release(const uint8_t *, size_t, const uint8_t *, size_t, uint32_t, uint8_t *, size_t);
uint32_t vtoc_preview_scratch(const uint8_t *, size_t, const uint8_t *, size_t, const uint8_t *, size_t, uint32_t, uint8_t *,
                              size_t);
uint32_t vtoc_date_to_stored(const uint8_t *, size_t, uint8_t *, size_t);
uint32_t vtoc_date_to_packed(const uint8_t *, size_t, uint8_t *, size_t);
#ifdef __cplusplus
}
#endif

/* ---- Inline functions ---------------------------------------------------------------------------------------------------- */

static int failures = 0;

static void check_at(int holds, int line, const char *what)
{
    if (!holds) {
        printf("header.c:%d: not so: %s\n", line, what);
        failures++;
    }
}
#define CHECK(holds) check_at((holds) ? 1 : 0, __LINE__, #holds)

static const uint32_t MOST = 0xFFFFFFFF;

/* A copy of up to 4,096 bytes that ends where nothing can be read or written: what goes past it ends the program. */
static void *edge(const void *bytes, size_t length)
{
    char *pages = (char *)mmap(NULL, 8192, PROT_READ | PROT_WRITE, MAP_PRIVATE | MAP_ANONYMOUS, -1, 0);
    if (pages == (char *)MAP_FAILED || mprotect(pages + 4096, 4096, PROT_NONE) != 0)
        exit(2);
    return memcpy(pages + 4096 - length, bytes, length);
}

/* Whether all bytes from first up to last are the filler. */
static int untouched(const uint8_t *bytes, size_t first, size_t last, uint8_t filler)
{
    for (size_t i = first; i < last; i++)
        if (bytes[i] != filler)
            return 0;
    return 1;
}

static void answers(void)
{
    static const uint32_t starts[5] = {0x8485, 0x8889, 0x8C8D, 0x9091, 0x9495};
    static const uint32_t counts[5] = {0x8687, 0x8A8B, 0x8E8F, 0x9293, 0x9697};
    static const uint32_t space[6] = {0x8182, 0x8384, 0x8586, 0x8788, 0x898A, 0x8B8C};
    static const uint32_t beyond[3] = {0x40000000, 0x80000000, 0xFFFFFFFF}; /* the first two times 4 or 2 are 0 again */
    uint8_t bytes[24];
    const uint8_t *answer;
    for (uint32_t i = 0; i < sizeof bytes; i++) /* 81, 82 .. 98 */
        bytes[i] = (uint8_t)(0x81 + i);
    answer = (const uint8_t *)edge(bytes, sizeof bytes);
    CHECK(vtoc_two(answer) == 0x8182);
    CHECK(vtoc_answer_tracks(answer) == 0x8182);
    CHECK(vtoc_answer_pieces(answer) == 0x83);
    for (uint32_t i = 0; i < 5; i++) {
        CHECK(vtoc_answer_start(answer, i) == starts[i]);
        CHECK(vtoc_answer_count(answer, i) == counts[i]);
    }
    for (uint32_t i = 0; i < 6; i++)
        CHECK(vtoc_answer_space(answer, i) == space[i]);
    CHECK(vtoc_answer_start(answer, 5) == 0 && vtoc_answer_start(answer, 6) == 0);
    CHECK(vtoc_answer_count(answer, 5) == 0 && vtoc_answer_count(answer, 6) == 0);
    CHECK(vtoc_answer_space(answer, 6) == 0 && vtoc_answer_space(answer, 7) == 0);
    for (uint32_t i = 0; i < 3; i++) {
        CHECK(vtoc_answer_start(answer, beyond[i]) == 0);
        CHECK(vtoc_answer_count(answer, beyond[i]) == 0);
        CHECK(vtoc_answer_space(answer, beyond[i]) == 0);
    }
}

static void words(void)
{
    CHECK(strcmp(vtoc_refusal_word(0), "accepted") == 0);
    CHECK(strcmp(vtoc_refusal_word(1), "geometry") == 0);
    CHECK(strcmp(vtoc_refusal_word(2), "length") == 0);
    CHECK(strcmp(vtoc_refusal_word(3), "VTOC unsound") == 0);
    CHECK(strcmp(vtoc_refusal_word(4), "name") == 0);
    CHECK(strcmp(vtoc_refusal_word(5), "not found") == 0);
    CHECK(strcmp(vtoc_refusal_word(6), "duplicate") == 0);
    CHECK(strcmp(vtoc_refusal_word(7), "amount") == 0);
    CHECK(strcmp(vtoc_refusal_word(8), "no secondary") == 0);
    CHECK(strcmp(vtoc_refusal_word(9), "no space") == 0);
    CHECK(strcmp(vtoc_refusal_word(10), "extents") == 0);
    CHECK(strcmp(vtoc_refusal_word(11), "VTOC full") == 0);
    CHECK(strcmp(vtoc_refusal_word(12), "TTR") == 0);
    CHECK(strcmp(vtoc_refusal_word(13), "unexpired") == 0);
    CHECK(strcmp(vtoc_refusal_word(14), "date") == 0);
    CHECK(strcmp(vtoc_refusal_word(15), "unknown") == 0);
    CHECK(strcmp(vtoc_refusal_word(16), "unknown") == 0);
    CHECK(strcmp(vtoc_refusal_word(MOST), "unknown") == 0);
}

static void extents(void)
{
    static const int places[16] = {105, 115, 125, 144, 154, 164, 174, 185, 195, 205, 215, 225, 235, 245, 255, 265};
    uint8_t labels[280] = {0};
    for (uint32_t e = 0; e < 16; e++)
        CHECK(vtoc_label_extent(labels, e) == labels + places[e]);
    CHECK(vtoc_label_extent(labels, 16) == NULL);
    CHECK(vtoc_label_extent(labels, 17) == NULL);
    CHECK(vtoc_label_extent(labels, 255) == NULL);
    CHECK(vtoc_label_extent(labels, MOST) == NULL);
}

static void last_blocks(void)
{
    static const uint8_t zeros[140] = {0};
    uint8_t *label = (uint8_t *)edge(zeros, sizeof zeros);
    CHECK(vtoc_ttr(0, 0) == 0);
    CHECK(vtoc_ttr(0x1234, 0x56) == 0x123456);
    CHECK(vtoc_ttr(65535, 255) == 0xFFFFFF);
    CHECK(vtoc_ttr(65536, 0) == MOST && vtoc_ttr(0, 256) == MOST && vtoc_ttr(65536, 256) == MOST);
    CHECK(vtoc_ttr(0x1000000, 1) == MOST && vtoc_ttr(MOST, MOST) == MOST);

    memset(label, 0xA5, 140);
    CHECK(vtoc_label_set_last_block(label, 0x123456) == 0);
    CHECK(label[98] == 0x12 && label[99] == 0x34 && label[100] == 0x56);
    CHECK(untouched(label, 0, 98, 0xA5) && untouched(label, 101, 140, 0xA5));
    CHECK(vtoc_label_last_block(label) == 0x123456);
    CHECK(vtoc_label_set_last_block(label, 0x1000000) == 12);
    CHECK(vtoc_label_set_last_block(label, vtoc_ttr(0, 256)) == 12);
    CHECK(vtoc_label_last_block(label) == 0x123456);
    CHECK(vtoc_label_set_last_block(label, 0xFFFEFD) == 0);
    CHECK(label[98] == 0xFF && label[99] == 0xFE && label[100] == 0xFD && vtoc_label_last_block(label) == 0xFFFEFD);
    CHECK(vtoc_label_set_last_block(label, 0xFFFFFF) == 0 && vtoc_label_last_block(label) == 0xFFFFFF);
}

static void attribute_bytes(void)
{
    static const uint32_t places[52] = {45, 46, 47, 48, 49, 50, 51, 52, 53, 54, 55, 56, 57, 58, 60,  61,  62,  63,
                                        64, 65, 66, 67, 68, 69, 70, 71, 72, 73, 74, 75, 76, 77, 78,  79,  80,  81,
                                        82, 83, 84, 85, 86, 87, 88, 89, 90, 91, 92, 93, 101, 102, 103, 104};
    uint8_t label[140], attributes[54];
    const uint8_t *lent;
    for (uint32_t i = 0; i < 52; i++)
        CHECK(vtoc_attribute_place(i) == places[i]);
    CHECK(vtoc_attribute_place(52) == 0 && vtoc_attribute_place(53) == 0 && vtoc_attribute_place(MOST) == 0);

    for (uint32_t i = 0; i < 140; i++)
        label[i] = (uint8_t)i;
    memset(attributes, 0xA5, sizeof attributes);
    lent = (const uint8_t *)edge(label, sizeof label);
    vtoc_label_attributes(lent, attributes + 1);
    for (uint32_t i = 0; i < 52; i++)
        CHECK(attributes[i + 1] == places[i]);
    CHECK(attributes[0] == 0xA5 && attributes[53] == 0xA5);

    memset(label, 0xA5, sizeof label);
    for (uint32_t i = 0; i < 52; i++)
        attributes[i] = (uint8_t)(i + 1);
    lent = (const uint8_t *)edge(attributes, 52);
    vtoc_label_set_attributes(label, lent);
    for (uint32_t i = 0; i < 52; i++)
        CHECK(label[places[i]] == (i >= 11 && i <= 13 ? 0xA5 : i + 1));
    CHECK(untouched(label, 0, 45, 0xA5) && untouched(label, 56, 60, 0xA5) && untouched(label, 94, 101, 0xA5)
          && untouched(label, 105, 140, 0xA5));
}

/* Whether a year and a day give this result and these four bytes, big-endian, and nothing beside them. */
static int packs(uint32_t year, uint32_t day, uint32_t result, uint32_t wanted)
{
    uint8_t bytes[6];
    memset(bytes, 0x5A, sizeof bytes);
    return vtoc_packed_date(bytes + 1, year, day) == result && bytes[0] == 0x5A && bytes[5] == 0x5A
           && ((uint32_t)bytes[1] << 24 | (uint32_t)bytes[2] << 16 | (uint32_t)bytes[3] << 8 | bytes[4]) == wanted;
}

/* Document 02's packed form: the decimal digits of CYYDDD, a half byte each, and sign F. */
static uint32_t half_bytes(uint32_t year, uint32_t day)
{
    uint32_t packed = 0xF;
    for (uint32_t shift = 4, left = (year - 1900) * 1000 + day; left > 0; shift += 4, left /= 10)
        packed |= left % 10 << shift;
    return packed;
}

static void packed_dates(void)
{
    uint32_t wrong = 0;
    CHECK(packs(1900, 1, 0, 0x0000001F) && packs(1999, 365, 0, 0x0099365F) && packs(2000, 1, 0, 0x0100001F));
    CHECK(packs(2000, 366, 0, 0x0100366F) && packs(2026, 321, 0, 0x0126321F) && packs(2099, 365, 0, 0x0199365F));
    CHECK(packs(1900, 366, 14, MOST) && packs(1904, 366, 0, 0x0004366F) && packs(2096, 366, 0, 0x0196366F));
    for (uint32_t year = 1900; year < 2100; year++) {
        uint32_t days = 365;
        for (uint32_t leap = 1904; leap < 2100; leap += 4)
            days += leap == year;
        for (uint32_t day = 0; day < 1024; day++)
            if (day == 0 || day > days)
                wrong += !packs(year, day, 14, MOST);
            else
                wrong += !packs(year, day, 0, half_bytes(year, day));
    }
    CHECK(wrong == 0);
    CHECK(packs(1899, 1, 14, MOST) && packs(2100, 1, 14, MOST) && packs(0, 0, 14, MOST) && packs(100, 1, 14, MOST));
    CHECK(packs(1896, 366, 14, MOST) && packs(2104, 366, 14, MOST) && packs(MOST, 1, 14, MOST) && packs(2000, MOST, 14, MOST));
    CHECK(packs((uint32_t)-1 + 1900, 1, 14, MOST) && packs((uint32_t)99 + 1900, (uint32_t)-1 + 1, 14, MOST)); /* of a struct tm */
    CHECK(packs(2000, 257, 0, 0x0100257F) && packs(2000, 65537, 14, MOST) && packs(67436, 1, 14, MOST));
}

static void date_readers(void)
{
    static const uint8_t zeros[4] = {0, 0, 0, 0}, last[4] = {0x01, 0x98, 0x36, 0x5F}, other[4] = {0x00, 0x07, 0x24, 0x9F};
    static const uint8_t stored[3] = {0xC6, 0x01, 0x6D}, late[3] = {0xFF, 0xFF, 0xFE}, low[3] = {0x07, 0x00, 0xF9};
    uint8_t packed[4];
    const uint8_t *at;
    uint32_t wrong = 0;
    CHECK(memcmp(vtoc_no_expiry(), zeros, 4) == 0 && vtoc_no_expiry() == vtoc_no_expiry());
    for (uint32_t byte = 0; byte < 256; byte++)
        wrong += vtoc_digits((uint8_t)byte) != byte / 16 * 10 + byte % 16;
    CHECK(wrong == 0);
    at = (const uint8_t *)edge(last, 4);
    CHECK(vtoc_packed_year(at) == 2098 && vtoc_packed_day(at) == 365);
    CHECK(vtoc_packed_year(other) == 1907 && vtoc_packed_day(other) == 249);
    for (uint32_t year = 1900; year < 2100; year++)
        for (uint32_t day = 1; day < 366; day++)
            wrong += vtoc_packed_date(packed, year, day) != 0 || vtoc_packed_year(packed) != year || vtoc_packed_day(packed) != day;
    CHECK(wrong == 0);
    memset(packed, 0xFF, sizeof packed); /* any bytes give numbers */
    CHECK(vtoc_packed_year(packed) == 1900 + 165 * 101 && vtoc_packed_day(packed) == 1665);
    at = (const uint8_t *)edge(stored, 3);
    CHECK(vtoc_stored_year(at) == 2098 && vtoc_stored_day(at) == 365);
    CHECK(vtoc_stored_year(late) == 2155 && vtoc_stored_day(late) == 65534);
    CHECK(vtoc_stored_year(low) == 1907 && vtoc_stored_day(low) == 249);
    CHECK(vtoc_stored_year(zeros) == 1900 && vtoc_stored_day(zeros) == 0);
}

static uint32_t track_of(unsigned cc, unsigned hh, uint32_t h)
{
    uint8_t cchh[4];
    cchh[0] = (uint8_t)(cc >> 8);
    cchh[1] = (uint8_t)(cc & 0xFF);
    cchh[2] = (uint8_t)(hh >> 8);
    cchh[3] = (uint8_t)(hh & 0xFF);
    return vtoc_track(cchh, h);
}

/* Whether vtoc_cchh writes these two numbers and nothing beside them. */
static int writes(uint32_t track, uint32_t h, unsigned cc, unsigned hh)
{
    uint8_t bytes[6] = {0x5A, 0x5A, 0x5A, 0x5A, 0x5A, 0x5A};
    vtoc_cchh(bytes + 1, track, h);
    return bytes[0] == 0x5A && bytes[1] == cc >> 8 && bytes[2] == (cc & 0xFF) && bytes[3] == hh >> 8 && bytes[4] == (hh & 0xFF)
           && bytes[5] == 0x5A;
}

static void tracks(void)
{
    static const uint32_t heads[6] = {1, 2, 5, 19, 254, 255};
    for (uint32_t i = 0; i < 6; i++) {
        unsigned cc = 0, hh = 0, wrong = 0; /* counted up as the volume has them */
        for (uint32_t track = 0; track < 65535; track++) {
            if (track_of(cc, hh, heads[i]) != track || !writes(track, heads[i], cc, hh))
                wrong++;
            hh++;
            if (hh == heads[i]) {
                hh = 0;
                cc++;
            }
        }
        CHECK(wrong == 0);
        CHECK(track_of(cc, hh, heads[i]) == MOST); /* 65,535 */
        CHECK(writes(65535, heads[i], 0xFFFF, 0xFFFF) && writes(MOST, heads[i], 0xFFFF, 0xFFFF));
        CHECK(track_of(0xFFFF, 0xFFFF, heads[i]) == MOST);
        CHECK(track_of(0, heads[i], heads[i]) == MOST && track_of(1, heads[i] + 1, heads[i]) == MOST);
        CHECK(track_of(0, 0x100, heads[i]) == MOST);
    }
    CHECK(track_of(1, 1, 5) == 6); /* Volume A: FLT.A ends on track 6, 0001 0001 */
    CHECK(track_of(0, 0, 0) == MOST && track_of(1, 0, 0) == MOST && track_of(0, 0, 256) == MOST && track_of(0, 0, MOST) == MOST);
    CHECK(writes(0, 0, 0xFFFF, 0xFFFF) && writes(7, 256, 0xFFFF, 0xFFFF) && writes(7, MOST, 0xFFFF, 0xFFFF));
}

static void geometries(void)
{
    static const uint8_t vtoc[10] = {0x01, 0x00, 0x00, 0x02, 0x00, 0x12, 0x00, 0x04, 0x00, 0x01}; /* tracks 56 to 77 by 19 */
    uint8_t table[140];
    struct vtoc_geometry g;
    memset(table, 0xA5, sizeof table);
    table[62] = 0x01; /* 404 cylinders of 19 tracks, 39 records on a track */
    table[63] = 0x94;
    table[64] = 0x00;
    table[65] = 0x13;
    table[74] = 0x27;
    memcpy(table + 105, vtoc, sizeof vtoc);
    g = vtoc_table_geometry((const uint8_t *)edge(table, sizeof table), 140);
    CHECK(g.c == 404 && g.h == 19 && g.d == 39 && g.s == 56 && g.v == 22);
    g = vtoc_table_geometry(table, 10920);
    CHECK(g.c == 404 && g.h == 19 && g.d == 39 && g.s == 56 && g.v == 22);
    g = vtoc_table_geometry(table, 139);
    CHECK(g.c == 0 && g.h == 0 && g.d == 0 && g.s == 0 && g.v == 0);
    g = vtoc_table_geometry(NULL, 0);
    CHECK(g.c == 0 && g.h == 0 && g.d == 0 && g.s == 0 && g.v == 0);
    table[64] = 0x02;
    g = vtoc_table_geometry(table, 140);
    CHECK(g.h == 0x0213);
}

static void slots(void)
{
    static uint8_t table[470 * 140];
    static const unsigned some[4] = {2, 3, 466, 467}, none[4] = {0, 1, 468, 469};
    uint8_t name[45];
    for (unsigned i = 0; i < 44; i++)
        name[i] = (uint8_t)(0xC1 + i);
    name[44] = 0xF1; /* no byte of the name, though a format 1 goes on so */
    CHECK(vtoc_find_slot(NULL, 0, name) == 0);
    CHECK(vtoc_find_slot(table, sizeof table, name) == 0);
    for (unsigned i = 0; i < 4; i++) {
        uint8_t *record = table + some[i] * 140;
        memcpy(record, name, 44);
        CHECK(vtoc_find_slot(table, sizeof table, name) == 0); /* no format 1 */
        record[44] = 0xF1;
        CHECK(vtoc_find_slot(table, sizeof table, name) == some[i]);
        CHECK(vtoc_find_slot(table, (some[i] + 1) * 140, name) == some[i]);
        CHECK(vtoc_find_slot(table, (some[i] + 1) * 140 - 1, name) == 0); /* the record is cut */
        record[43] ^= 1;
        CHECK(vtoc_find_slot(table, sizeof table, name) == 0);
        record[43] ^= 1;
        record[0] ^= 1;
        CHECK(vtoc_find_slot(table, sizeof table, name) == 0);
        memset(record, 0, 140);
    }
    for (unsigned i = 0; i < 4; i++) { /* no data set has its format 1 there */
        uint8_t *record = table + none[i] * 140;
        memcpy(record, name, 44);
        record[44] = 0xF1;
        CHECK(vtoc_find_slot(table, sizeof table, name) == 0);
    }
}

/* Document 01's name characters: letters C1-C9, D1-D9, E2-E9; national 5B, 7B, 7C; digits F0-F9; hyphen 60; period 4B. */
static const char characters[] = "ABCDEFGHIJKLMNOPQRSTUVWXYZ$#@0123456789-.";
static const uint8_t codes[41] = {0xC1, 0xC2, 0xC3, 0xC4, 0xC5, 0xC6, 0xC7, 0xC8, 0xC9, 0xD1, 0xD2, 0xD3, 0xD4, 0xD5,
                                  0xD6, 0xD7, 0xD8, 0xD9, 0xE2, 0xE3, 0xE4, 0xE5, 0xE6, 0xE7, 0xE8, 0xE9, 0x5B, 0x7B,
                                  0x7C, 0xF0, 0xF1, 0xF2, 0xF3, 0xF4, 0xF5, 0xF6, 0xF7, 0xF8, 0xF9, 0x60, 0x4B};

static void name_characters(void)
{
    CHECK(sizeof characters == 42);
    for (int c = -128; c < 256; c++) {
        const char *found = c == 0 ? NULL : strchr(characters, (char)c);
        CHECK(vtoc_ebcdic((char)c) == (found == NULL ? 0 : codes[found - characters]));
    }
    for (unsigned byte = 0; byte < 256; byte++) {
        const uint8_t *found = (const uint8_t *)memchr(codes, (int)byte, sizeof codes);
        CHECK(vtoc_character((uint8_t)byte) == (found == NULL ? '?' : characters[found - codes]));
    }
}

/* Whether a text gives this result, and then the EBCDIC of its first characters and blanks, or zeros; and nothing beside them. */
static int named(const char *text, uint32_t result, size_t length)
{
    uint8_t bytes[46];
    memset(bytes, 0xA5, sizeof bytes);
    if (vtoc_name_from_text(bytes + 1, (const char *)edge(text, strlen(text) + 1)) != result || bytes[0] != 0xA5
        || bytes[45] != 0xA5)
        return 0;
    if (result != 0)
        return untouched(bytes, 1, 45, 0x00);
    for (size_t i = 0; i < length; i++)
        if (bytes[i + 1] != codes[strchr(characters, text[i]) - characters])
            return 0;
    return untouched(bytes, length + 1, 45, 0x40);
}

/* Whether the first bytes, filled up with blanks, give this text and nothing beside it. */
static int told(const uint8_t *bytes, size_t length, const char *text)
{
    uint8_t name[44];
    char room[47];
    memset(name, 0x40, sizeof name);
    memcpy(name, bytes, length);
    memset(room, '~', sizeof room);
    if (vtoc_text_from_name(room + 1, (const uint8_t *)edge(name, sizeof name)) != room + 1 || strcmp(room + 1, text) != 0
        || room[0] != '~')
        return 0;
    for (size_t i = strlen(text) + 2; i < sizeof room; i++)
        if (room[i] != '~')
            return 0;
    return 1;
}

static void names(void)
{
    static const char longest[] = "A2345678.B2345678.C2345678.D2345678.E2345678";
    static const uint8_t flt_a[5] = {0xC6, 0xD3, 0xE3, 0x4B, 0xC1}; /* document 01's FLT.A */
    static const uint8_t gap[5] = {0xC1, 0x40, 0x00, 0xFF, 0xC2};
    uint8_t name[44];
    CHECK(named("FLT.A", 0, 5));
    CHECK(named("A", 0, 1));
    CHECK(named(longest, 0, 44) && strlen(longest) == 44);
    CHECK(named(characters, 0, 41)); /* against the rule of parts: the calls refuse it */
    CHECK(named("", 4, 0) && named(" FLT.A", 4, 0));
    CHECK(named("A2345678.B2345678.C2345678.D2345678.E23456789", 4, 0));
    CHECK(named("A2345678.B2345678.C2345678.D2345678.E2345678 ", 4, 0));
    CHECK(named("flt.a", 4, 0) && named("FLT A", 4, 0) && named("FLT.A ", 4, 0) && named("FLT.A?", 4, 0));
    CHECK(vtoc_name_from_text(name, "FLT.A") == 0 && memcmp(name, flt_a, 5) == 0);

    CHECK(told(flt_a, 5, "FLT.A"));
    CHECK(told(flt_a, 0, ""));
    CHECK(told(gap, 5, "A???B"));
    CHECK(told(gap, 2, "A"));
    CHECK(told(codes, 41, characters));
    CHECK(vtoc_name_from_text(name, longest) == 0 && told(name, 44, longest));
    CHECK(vtoc_name_from_text(name, "") == 4 && told(name, 44, "????????????????????????????????????????????"));
}

int main(void)
{
    answers();
    words();
    extents();
    last_blocks();
    attribute_bytes();
    packed_dates();
    date_readers();
    tracks();
    geometries();
    slots();
    name_characters();
    names();
    return failures == 0 ? 0 : 1;
}
