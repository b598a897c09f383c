/*
 * floor.c: the check of a table in plain C, as fast as we could make it. No part of the library: the benchmark shows its time
 * beside each call's, so that the unrelated implementation is not the only measure, and the program `floor` compares its answers
 * with the unrelated ones. SSE2, which every x86-64 has; layouts and rules are those of document 01.
 */
#include <emmintrin.h>
#include <stdbool.h>
#include <stddef.h>
#include <stdint.h>
#include <string.h>

uint32_t floor_check(const uint8_t *table, size_t length);

enum { TAKEN = 0, LENGTH = 2, UNSOUND = 3 };
enum { RECORD = 140, LEAST_RECORDS = 3, MOST_RECORDS = 468, MOST_TRACKS = 65535 };
enum { FORMAT = 44, EXTENT_COUNT = 59, UNIT = 94, EXTENTS = 105, LINK = 135 }; /* where fields of a record lie */
enum { FORMAT_0 = 0x00, FORMAT_1 = 0xF1, FORMAT_3 = 0xF3, FORMAT_4 = 0xF4, FORMAT_5 = 0xF5 };
enum { ENTRIES_BEFORE = 8, ENTRIES_AFTER = 18 };  /* of a format 5, before and after byte 44 */
enum { FAULT = -1 };                              /* in place of a slot or a count */
enum { CELLS = 1024, FEW_CELLS = 128, FEW_RECORDS = 64 }; /* of the hash: at least twice as many as names */
enum { MAP_WORDS = MOST_TRACKS / 64 + 1, SLOT_WORDS = MOST_RECORDS / 64 + 1 };

struct geometry {
    uint32_t cylinders, heads, per_track, vtoc_start, vtoc_tracks, tracks, slots;
};

struct check {
    const uint8_t *table;
    struct geometry volume;
    uint32_t claimed;            /* tracks that lie somewhere */
    uint32_t free_end;           /* the track after the last free extent */
    uint32_t format_0s, format_3s, named_format_3s, highest_format_1;
    uint32_t cell_mask;
    uint64_t chain[SLOT_WORDS];  /* slots in the chain */
    uint64_t named[SLOT_WORDS];  /* slots of format 3s that a format 1 names */
    uint16_t cells[CELLS];       /* slots of format 1s by the hash of the name, 0 for none */
    uint64_t map[MAP_WORDS];     /* a bit for each track that lies somewhere */
};

/* ---- Loads: one instruction each, in the machine's order where bytes are only compared ------------------------------------ */

static inline uint64_t eight(const uint8_t *at)
{
    uint64_t word;
    memcpy(&word, at, sizeof word);
    return word;
}

static inline uint32_t four(const uint8_t *at)
{
    uint32_t word;
    memcpy(&word, at, sizeof word);
    return word;
}

static inline __m128i sixteen(const uint8_t *at)
{
    return _mm_loadu_si128((const __m128i *)at);
}

static inline uint32_t number(const uint8_t *at)
{
    uint16_t word;
    memcpy(&word, at, sizeof word);
    return __builtin_bswap16(word);
}

static inline __m128i each(int byte)
{
    return _mm_set1_epi8((char)byte);
}

static inline bool all_zero(__m128i bytes)
{
    return _mm_movemask_epi8(_mm_cmpeq_epi8(bytes, _mm_setzero_si128())) == 0xFFFF;
}

/* Without an exit inside, since unused bytes are nearly always zero. */
static inline bool zero_between(const uint8_t *at, const uint8_t *end)
{
    uint64_t seen = 0;
    for (; at + 8 <= end; at += 8)
        seen |= eight(at);
    for (; at < end; at++)
        seen |= *at;
    return seen == 0;
}

static inline bool is_format_0(const uint8_t *record)
{
    __m128i seen = sixteen(record + RECORD - 16);
    for (int at = 0; at < RECORD - 16; at += 16)
        seen = _mm_or_si128(seen, sixteen(record + at));
    return all_zero(seen);
}

static inline bool link_is_zero(const uint8_t *record)
{
    return (four(record + LINK) | record[LINK + 4]) == 0;
}

/* Adds a slot; false where it was in. */
static inline bool add_slot(uint64_t *slots, uint32_t slot)
{
    uint64_t bit = (uint64_t)1 << slot % 64, word = slots[slot / 64];
    slots[slot / 64] = word | bit;
    return (word & bit) == 0;
}

static inline bool has_slot(const uint64_t *slots, uint32_t slot)
{
    return slots[slot / 64] >> slot % 64 & 1;
}

/* ---- Names: each character says what may follow it, so that 16 pairs are judged at once ----------------------------------- */

enum { STARTS_PART = 1, FOLLOWS_CHARACTER = 4, FOLLOWS_BLANK = 8 };

/* What each of 16 characters may be. */
static inline __m128i offers(__m128i c)
{
    /* C1 to C9, D1 to D9, E2 to E9 and F0 to F9: a low digit below ten, and X'10' makes no difference but for E0 and E1. */
    __m128i folded = _mm_and_si128(c, each(0xEF));
    __m128i high = _mm_cmpeq_epi8(_mm_max_epu8(folded, each(0xC1)), folded);
    __m128i decimal = _mm_cmpgt_epi8(each(10), _mm_and_si128(c, each(15)));
    __m128i gap = _mm_cmpeq_epi8(_mm_or_si128(c, each(0x01)), each(0xE1));
    __m128i letter_or_digit = _mm_andnot_si128(gap, _mm_and_si128(high, decimal));
    __m128i from_f0 = _mm_cmpeq_epi8(_mm_max_epu8(c, each(0xF0)), c);
    __m128i national =
        _mm_or_si128(_mm_cmpeq_epi8(_mm_or_si128(c, each(0x20)), each(0x7B)), _mm_cmpeq_epi8(c, each(0x7C)));
    __m128i hyphen_or_period = _mm_or_si128(_mm_cmpeq_epi8(c, each(0x60)), _mm_cmpeq_epi8(c, each(0x4B)));
    __m128i blank = _mm_cmpeq_epi8(c, each(0x40));
    __m128i starts = _mm_or_si128(_mm_andnot_si128(from_f0, letter_or_digit), national);
    __m128i any = _mm_or_si128(_mm_or_si128(letter_or_digit, national), hyphen_or_period);
    __m128i of_character = _mm_or_si128(_mm_and_si128(starts, each(STARTS_PART)), _mm_and_si128(any, each(FOLLOWS_CHARACTER)));
    return _mm_or_si128(_mm_and_si128(blank, each(FOLLOWS_CHARACTER | FOLLOWS_BLANK)), of_character);
}

/* What each of 16 characters asks of the next. */
static inline __m128i asks(__m128i c)
{
    __m128i after_period = _mm_and_si128(_mm_cmpeq_epi8(c, each(0x4B)), each(FOLLOWS_CHARACTER ^ STARTS_PART));
    __m128i after_blank = _mm_and_si128(_mm_cmpeq_epi8(c, each(0x40)), each(FOLLOWS_CHARACTER ^ FOLLOWS_BLANK));
    return _mm_xor_si128(each(FOLLOWS_CHARACTER), _mm_xor_si128(after_period, after_blank));
}

/* Zero where each of 17 characters may follow the one before. */
static inline __m128i misfits(const uint8_t *at)
{
    return _mm_andnot_si128(offers(sixteen(at + 1)), asks(sixteen(at)));
}

/* A bit for each of 16 characters that is neither a period nor a blank, the only ones below X'4C'. */
static inline uint64_t inside_parts(const uint8_t *at)
{
    __m128i c = sixteen(at);
    return (uint32_t)_mm_movemask_epi8(_mm_cmpeq_epi8(_mm_max_epu8(c, each(0x4C)), c));
}

static inline bool starts_part(uint8_t c)
{
    uint64_t some = c >= 0xC0 ? 0x000003FC03FE03FE : c >= 0x40 && c < 0x80 ? 0x1800000008000000 : 0;
    return some >> (c & 63) & 1;
}

static inline bool nine_in_a_row(uint64_t bits)
{
    uint64_t two = bits & bits >> 1, four_bits = two & two >> 2, eight_bits = four_bits & four_bits >> 4;
    return (eight_bits & bits >> 8) != 0;
}

/* The name rule; most names have 16 characters or fewer, or 32, and blanks after them are quickly seen. */
static inline bool name_ok(const uint8_t *name)
{
    const uint64_t blanks = 0x4040404040404040;
    __m128i wrong = misfits(name);
    uint64_t inside = inside_parts(name);
    if (!starts_part(name[0]))
        return false;
    if (name[16] == 0x40) {
        if ((eight(name + 16) ^ blanks) | (eight(name + 24) ^ blanks) | (eight(name + 32) ^ blanks) | (eight(name + 36) ^ blanks))
            return false;
    } else {
        wrong = _mm_or_si128(wrong, misfits(name + 16));
        inside |= inside_parts(name + 16) << 16;
        if (name[32] == 0x40) {
            if ((eight(name + 32) ^ blanks) | (eight(name + 36) ^ blanks))
                return false;
        } else {
            wrong = _mm_or_si128(wrong, misfits(name + 27));
            inside |= inside_parts(name + 28) << 28;
            if (name[43] == 0x4B)
                return false;
        }
    }
    return all_zero(wrong) && !nine_in_a_row(inside);
}

static inline bool same_name(const uint8_t *one, const uint8_t *other)
{
    return ((eight(one) ^ eight(other)) | (eight(one + 8) ^ eight(other + 8)) | (eight(one + 16) ^ eight(other + 16)) |
            (eight(one + 24) ^ eight(other + 24)) | (eight(one + 32) ^ eight(other + 32)) |
            (eight(one + 36) ^ eight(other + 36))) == 0;
}

static inline uint32_t hash(const uint8_t *name)
{
    const uint64_t mix = 0x9E3779B97F4A7C15;
    uint64_t one = eight(name + 8), three = eight(name + 24);
    uint64_t sum = (eight(name) ^ (one << 7 | one >> 57)) * mix ^
                   (eight(name + 16) ^ (three << 9 | three >> 55)) * 0xC2B2AE3D27D4EB4F ^
                   (eight(name + 32) ^ eight(name + 36) << 3) * 0x165667B19E3779F9;
    return (uint32_t)((sum ^ sum >> 29) * mix >> 54);
}

/* Enters the name of the format 1 in a slot; false where it is in. */
static inline bool enter_name(struct check *check, const uint8_t *name, uint32_t slot)
{
    uint32_t at = hash(name) & check->cell_mask;
    for (; check->cells[at] != 0; at = (at + 1) & check->cell_mask)
        if (same_name(check->table + RECORD * check->cells[at], name))
            return false;
    check->cells[at] = (uint16_t)slot;
    return true;
}

/* ---- Tracks ---------------------------------------------------------------------------------------------------------------- */

/* Apart, so that the common case below stays short. */
static __attribute__((noinline)) bool claim_words(uint64_t *map, uint32_t first, uint32_t last)
{
    uint32_t low = first / 64, high = last / 64;
    uint64_t head = ~(uint64_t)0 << first % 64, tail = ~(uint64_t)0 >> (63 - last % 64);
    uint64_t taken = (map[low] & head) | (map[high] & tail);
    map[low] |= head;
    map[high] |= tail;
    for (uint32_t at = low + 1; at < high; at++) {
        taken |= map[at];
        map[at] = ~(uint64_t)0;
    }
    return taken == 0;
}

/* Claims tracks of the volume; false where one lies somewhere already. Most extents lie in one word of the map. */
static inline __attribute__((always_inline)) bool claim(struct check *check, uint32_t first, uint32_t last)
{
    check->claimed += last - first + 1;
    if (__builtin_expect((first ^ last) < 64, 1)) {
        uint64_t bits = ~(uint64_t)0 >> (63 - (last - first)) << first % 64, word = check->map[first / 64];
        check->map[first / 64] = word | bits;
        return (word & bits) == 0;
    }
    return claim_words(check->map, first, last);
}

/* The slot at CCHHR. */
static inline int slot_at(const struct geometry *volume, const uint8_t *address)
{
    uint32_t cylinder = number(address), head = number(address + 2), record = address[4];
    uint32_t track = cylinder * volume->heads + head;
    if (head >= volume->heads || record < 1 || record > volume->per_track || track < volume->vtoc_start ||
        track - volume->vtoc_start >= volume->vtoc_tracks)
        return FAULT;
    return (int)((track - volume->vtoc_start) * volume->per_track + record - 1);
}

/* Claims the ten bytes of an extent, which must have this number. */
static inline bool extent_ok(struct check *check, const uint8_t *extent, uint32_t e)
{
    const struct geometry *volume = &check->volume;
    uint64_t ends = __builtin_bswap64(eight(extent + 2));
    uint32_t first_head = ends >> 32 & 0xFFFF, last_head = ends & 0xFFFF;
    uint32_t first = (uint32_t)(ends >> 48) * volume->heads + first_head;
    uint32_t last = (ends >> 16 & 0xFFFF) * volume->heads + last_head;
    if (first_head >= volume->heads || last_head >= volume->heads || last < first || last >= volume->tracks)
        return false;
    if (extent[1] != e)
        return false;
    if (extent[0] != 0x01 && (extent[0] != 0x81 || first_head != 0 || last_head != volume->heads - 1))
        return false;
    return claim(check, first, last);
}

/* ---- Format 5s ------------------------------------------------------------------------------------------------------------- */

/* Claims entries that lie side by side: filled from the front, zeros after them. The number of filled ones, or FAULT. */
static inline int claim_entries(struct check *check, const uint8_t *entries, int most)
{
    const struct geometry *volume = &check->volume;
    for (int i = 0; i < most; i++) {
        const uint8_t *entry = entries + 5 * i;
        uint32_t start = number(entry), odd = entry[4], length = number(entry + 2) * volume->heads + odd;
        if (length == 0)
            return zero_between(entry, entries + 5 * most) ? i : FAULT;
        if (odd >= volume->heads || start + length > volume->tracks || start <= check->free_end)
            return FAULT;
        check->free_end = start + length;
        if (!claim(check, start, start + length - 1))
            return FAULT;
    }
    return most;
}

/* The number of filled entries of a format 5, or FAULT. */
static inline int format_5_entries(struct check *check, const uint8_t *record)
{
    const uint8_t *after = record + FORMAT + 1;
    int filled = claim_entries(check, record + 4, ENTRIES_BEFORE);
    if (filled == ENTRIES_BEFORE) {
        int more = claim_entries(check, after, ENTRIES_AFTER);
        return more == FAULT ? FAULT : filled + more;
    }
    return filled == FAULT || !zero_between(after, record + LINK) ? FAULT : filled;
}

/* The chain from slot 1 on. A member that is not full ends it, and only the first may be empty. */
static inline bool chain_ok(struct check *check)
{
    int slot = 1;
    for (;;) {
        const uint8_t *record = check->table + RECORD * slot;
        if (four(record) != 0x05050505 || record[FORMAT] != FORMAT_5 || !add_slot(check->chain, (uint32_t)slot))
            return false;
        int filled = format_5_entries(check, record);
        if (filled == FAULT)
            return false;
        if (link_is_zero(record))
            return filled > 0 || slot == 1;
        if (filled != ENTRIES_BEFORE + ENTRIES_AFTER)
            return false;
        slot = slot_at(&check->volume, record + LINK);
        if (slot == FAULT)
            return false;
    }
}

/* ---- Format 1s and 3s ------------------------------------------------------------------------------------------------------ */

/* Extents 3 and on of a set that has `count`, and zeros after them. */
static inline bool format_3_ok(struct check *check, int slot, uint32_t count)
{
    const uint8_t *record = check->table + RECORD * slot, *before = record + 4, *after = record + FORMAT + 1;
    uint32_t count_before = count < 7 ? count : 7;
    if (four(record) != 0x03030303 || record[FORMAT] != FORMAT_3 || !link_is_zero(record) ||
        !add_slot(check->named, (uint32_t)slot))
        return false;
    check->named_format_3s++;
    for (uint32_t e = 3; e < count_before; e++)
        if (!extent_ok(check, before + 10 * (e - 3), e))
            return false;
    for (uint32_t e = 7; e < count; e++)
        if (!extent_ok(check, after + 10 * (e - 7), e))
            return false;
    if (count < 7)
        return zero_between(before + 10 * (count - 3), record + FORMAT) && zero_between(after, record + LINK);
    return zero_between(after + 10 * (count - 7), record + LINK);
}

/* The zeros after one, two or three extents, in loads that overlap. */
static inline bool unused_is_zero(const uint8_t *record, uint32_t count)
{
    if (count == 3)
        return link_is_zero(record);
    uint64_t seen = eight(record + 125) | eight(record + 132);
    if (count == 1)
        seen |= eight(record + 115) | eight(record + 123);
    return seen == 0;
}

static inline bool format_1_ok(struct check *check, const uint8_t *record, uint32_t slot)
{
    uint32_t count = record[EXTENT_COUNT];
    /* The unit in the low byte, the secondary amount above it: tracks or cylinders with any, absolute with none. */
    uint32_t unit = four(record + UNIT);
    if (!name_ok(record) || count < 1 || count > 16 || ((unit & 0xBF) != 0x80 && unit != 0) || !enter_name(check, record, slot))
        return false;
    for (uint32_t e = 0; e < 3 && e < count; e++)
        if (!extent_ok(check, record + EXTENTS + 10 * e, e))
            return false;
    if (count <= 3)
        return unused_is_zero(record, count);
    int format_3 = slot_at(&check->volume, record + LINK);
    return format_3 != FAULT && format_3_ok(check, format_3, count);
}

/* Every slot that is neither the format 4 nor in the chain. No format 3 is named twice, so equal numbers mean: each by one. */
static inline bool slots_ok(struct check *check)
{
    const uint8_t *record = check->table + RECORD;
    for (uint32_t slot = 1; slot < check->volume.slots; slot++, record += RECORD) {
        uint8_t format = record[FORMAT];
        if (format == FORMAT_1) {
            check->highest_format_1 = slot;
            if (!format_1_ok(check, record, slot))
                return false;
        } else if (format == FORMAT_0) {
            check->format_0s++;
            if (!is_format_0(record))
                return false;
        } else if (format == FORMAT_3) {
            check->format_3s++;
        } else if (format != FORMAT_5 || !has_slot(check->chain, slot)) {
            return false;
        }
    }
    return check->format_3s == check->named_format_3s;
}

/* ---- Format 4 and the whole -------------------------------------------------------------------------------------------------- */

/* Reads the geometry; false where it is beyond the limits of initialise, or does not fit the table's length. */
static inline bool read_geometry(struct geometry *volume, const uint8_t *format_4, size_t length)
{
    uint32_t first_head = number(format_4 + 109), last_head = number(format_4 + 113);
    volume->cylinders = number(format_4 + 62);
    volume->heads = number(format_4 + 64);
    volume->per_track = format_4[74];
    if (volume->cylinders < 1 || volume->heads < 1 || volume->heads > 255 || volume->per_track < 1 ||
        first_head >= volume->heads || last_head >= volume->heads)
        return false;
    volume->tracks = volume->cylinders * volume->heads;
    volume->vtoc_start = number(format_4 + 107) * volume->heads + first_head;
    uint32_t vtoc_last = number(format_4 + 111) * volume->heads + last_head;
    if (volume->tracks > MOST_TRACKS || volume->vtoc_start < 1 || vtoc_last < volume->vtoc_start || vtoc_last >= volume->tracks)
        return false;
    volume->vtoc_tracks = vtoc_last - volume->vtoc_start + 1;
    volume->slots = volume->vtoc_tracks * volume->per_track;
    return (size_t)volume->slots * RECORD == length;
}

/* Whether the format 4 is the one that fits what was found. */
static inline bool format_4_ok(const struct check *check)
{
    const struct geometry *volume = &check->volume;
    const uint8_t *found = check->table;
    uint8_t wanted[RECORD] = {0};
    memset(wanted, 0x04, FORMAT);
    wanted[FORMAT] = FORMAT_4;
    if (check->highest_format_1 != 0) {
        uint32_t track = volume->vtoc_start + check->highest_format_1 / volume->per_track;
        wanted[45] = (uint8_t)(track / volume->heads >> 8);
        wanted[46] = (uint8_t)(track / volume->heads);
        wanted[48] = (uint8_t)(track % volume->heads);
        wanted[49] = (uint8_t)(check->highest_format_1 % volume->per_track + 1);
    }
    wanted[50] = (uint8_t)(check->format_0s >> 8);
    wanted[51] = (uint8_t)check->format_0s;
    wanted[59] = 1;
    /* The geometry is what it is. */
    memcpy(wanted + 62, found + 62, 4);
    wanted[74] = found[74];
    wanted[105] = 0x01;
    memcpy(wanted + 107, found + 107, 8);
    return memcmp(wanted, found, RECORD) == 0;
}

/* Clears no more than a volume of this size needs, for a small one is soon checked. */
static inline void begin(struct check *check, const uint8_t *table)
{
    check->table = table;
    check->claimed = check->free_end = 0;
    check->format_0s = check->format_3s = check->named_format_3s = check->highest_format_1 = 0;
    check->cell_mask = (check->volume.slots <= FEW_RECORDS ? FEW_CELLS : CELLS) - 1;
    memset(check->chain, 0, sizeof check->chain);
    memset(check->named, 0, sizeof check->named);
    memset(check->cells, 0, (check->cell_mask + 1) * sizeof check->cells[0]);
    memset(check->map, 0, (check->volume.tracks + 63) / 64 * sizeof check->map[0]);
}

/* 0 for a table that is taken, else 2 for its length or 3 for what it holds. */
uint32_t floor_check(const uint8_t *table, size_t length)
{
    struct check check;
    if (length % RECORD != 0 || length < LEAST_RECORDS * RECORD || length > MOST_RECORDS * RECORD)
        return LENGTH;
    if (!read_geometry(&check.volume, table, length))
        return UNSOUND;
    begin(&check, table);
    /* The label's track and the VTOC, which cannot overlap; in the end each track is claimed, and none twice. */
    claim(&check, 0, 0);
    claim(&check, check.volume.vtoc_start, check.volume.vtoc_start + check.volume.vtoc_tracks - 1);
    bool sound = chain_ok(&check) && slots_ok(&check) && check.claimed == check.volume.tracks && format_4_ok(&check);
    return sound ? TAKEN : UNSOUND;
}
