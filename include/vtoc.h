/*
 * vtoc.h: the VTOC space manager for hosts in C99 or C++.
 *
 * A table is one buffer of N records (DSCBs) of 140 bytes, N from 3 to 468. The host reads it from the volume, lends it to a
 * call, and writes it back where the call answered VTOC_OK. Numbers inside the bytes are big-endian, names are EBCDIC.
 *
 * THE CALLS
 *   vtoc_initialise  writes a table with no data set              vtoc_scratch  removes a data set
 *   vtoc_allocate    gives a new data set its tracks              vtoc_rename   changes a name
 *   vtoc_extend      adds the secondary amount to a data set      vtoc_obtain   reads the labels of a data set
 *   vtoc_release     gives back tracks after the last block       vtoc_lspace   says how much is free
 *   vtoc_preview_allocate, vtoc_preview_extend, vtoc_preview_release, vtoc_preview_scratch
 *                    say what the call would answer, and change nothing
 *   vtoc_date_to_stored, vtoc_date_to_packed
 *                    convert a date; they have no table
 * Each takes numbers of 32 bits and byte buffers, a buffer as a pointer and its length, and answers VTOC_OK (0) or the number
 * of a refusal (1 to 14, below). Any bytes, numbers and lengths may be handed over: every call ends in one of the two.
 *
 * WHAT IS NEW
 * Version 500: vtoc_extend joins what touches. Where its first piece begins on the track after the data set's last one, the last
 * extent is lengthened, and that piece adds none. No signature changed. A host that has the extents from the labels stays as it is.
 *   - A host that keeps extents of its own, by appending the pieces of the answer, must join too, or obtain the labels again. The
 *     answer has the pieces as before, the joined one too.
 *   - VTOC_E_EXTENTS (10), and VTOC_E_VTOC_FULL (11) for want of a format 3, come later: extents are counted after joining.
 *   - Volumes of earlier versions are taken as they are. Extents that touch there stay apart.
 * Version 400: expiry dates. Every host must change, and every file of it be compiled anew: no linker sees that an old one lacks
 * an argument.
 *   - vtoc_allocate and its preview have an expiry date after option, four bytes. As before: vtoc_no_expiry(), four zeros.
 *   - vtoc_scratch and its preview have today's date, four bytes, and an override after the name. Today's date must always be
 *     given (vtoc_packed_date makes it from the host's clock). A data set with a later expiry date is refused, VTOC_E_UNEXPIRED.
 *     As before, scratched whatever its date: VTOC_OVERRIDE.
 *   - Attribute bytes 11-13 (from 0) are no longer stored: format 1 bytes 56-58 have the expiry date, or zeros. A host that had its
 *     date there hands it over as expiry; vtoc_date_to_packed makes it of those bytes. vtoc_label_set_attributes leaves 56-58.
 *   - Volumes of earlier versions are taken as they are. What an attribute left in bytes 56-58 counts as an expiry date now.
 *   - New: the two conversions, VTOC_E_UNEXPIRED (13) and VTOC_E_DATE (14), functions for dates ('Dates', below).
 * Version 302: the check of the table adds up tracks in 16 bits. No answer changed, and no host must change.
 * Version 301: the four previews. A host of version 300 stays as it is.
 * Version 300: of a cylinder file vtoc_release keeps the cylinder of the last block to its end, so more than TT + 1 tracks. A host
 * that works out from TT what is kept or given back must take it from the answer or the labels; any other stays as it is.
 * Version 200: vtoc_allocate has a space option after secondary (CONTIG, MXIG, ALX). A host of version 100 hands over
 * VTOC_NO_OPTION there, and all is as before.
 *
 * WHAT IS PROVED
 * The result, the answer, the labels and every byte of the table equal the definitions of the rules, for good calls and for
 * refused ones; a preview has the result and the answer of its call on a copy of the table, and leaves the table; no call reads
 * or writes outside the buffers it was lent; every call ends. docs/THEOREM.md has the one theorem about lists of calls: each track
 * lies in exactly one place, and the data sets are those that the replies have granted. Previews and conversions of dates may stand
 * anywhere in such a list, and count for nothing.
 *
 * The inline functions of this header are plain C and are not proved; tests/header.c tries each of them.
 *
 * DUTIES THAT ARE C'S OWN. No proof sees a C program, so these are the host's; in Rattle the types keep 1 to 3.
 *   1. Pointers are valid and lengths are true: a pointer points to as many bytes as the length after it says, to be read, and to
 *      be written where it is not const. With length 0 it may be null.
 *   2. What a call may write (each buffer that is not const) overlaps no other buffer of that call, not by a byte: `restrict`
 *      below. Buffers that a call only reads may overlap or be one buffer, since they are shared borrows (`&`) in Rattle: the two
 *      names of vtoc_rename; name, attributes and expiry of vtoc_allocate; name and today of vtoc_scratch; and in vtoc_obtain and
 *      the previews any of these that lies in the table.
 *   3. While a call runs, nothing else (a thread, a signal handler, a device) writes a buffer that was lent to it, or reads one
 *      that it may write. So no two threads are at one table, but for the calls that take it as const (vtoc_obtain, vtoc_lspace and
 *      the previews): these may run side by side on one table, each with an answer and labels of its own. Calls on different tables
 *      may always run at the same time.
 *   4. There are VTOC_STACK_NEED bytes of stack (tests/stack.c measures what a call needs).
 * There is no other. Bytes, numbers, lengths and the order of calls may be any; buffers need no alignment; a table that was
 * changed between two calls is refused (VTOC_E_UNSOUND) or, where it still meets every rule of the layout, taken as it now is.
 * For the inline functions 1 to 3 hold too, with as many bytes as each of them says.
 *
 * A REFUSAL WRITES NO BYTE: not of the table, not of the answer, not of the labels. Nothing needs to be undone.
 *
 * The library has no state of its own, takes no lock, allocates nothing and makes no system call.
 *
 * A FILE IS CLOSED by the host itself, in the table: no call is needed. In the format 1 of a data set it may write the TTR of the
 * last block (bytes 98-100, DS1LSTAR) and the attributes (bytes 45-58, 60-93 and 101-104; DS1TRBAL and the expiry date, DS1EXPDT,
 * are among them), and no other byte of the table. The layout lets these be any bytes, so the table stays taken, and no track, name
 * or record changes hands. The theorem about lists of calls does not speak of such a write; tests/promises.c tries all values of
 * each of these bytes.
 *   uint32_t slot = vtoc_find_slot(table, table_length, name);
 *   if (slot != 0 && vtoc_label_set_last_block(table + slot * VTOC_RECORD_LENGTH, vtoc_ttr(tt, r)) == VTOC_OK)
 *       .. write record slot back to the volume ..
 * vtoc_release stores a TTR too, and gives back tracks behind it. A later or earlier expiry date is written in the same way:
 *   if (slot != 0 && vtoc_date_to_stored(packed, VTOC_PACKED_LENGTH, answer, VTOC_ANSWER_LENGTH) == VTOC_OK)
 *       memcpy(table + slot * VTOC_RECORD_LENGTH + VTOC_LABEL_EXPIRY, answer, VTOC_STORED_LENGTH);
 *
 * BUILD
 *   tools/build vtoc && cc -Iinclude examples/host.c target/staticlib/libvtoc.a -o target/host
 * The archive is for x86-64 Linux and needs no other library than C's own.
 */
#ifndef VTOC_H
#define VTOC_H

#include <stddef.h>
#include <stdint.h>

/* C99's restrict; C++ has none, and its compilers in use spell it so. */
#ifndef VTOC_RESTRICT
#if defined(__cplusplus)
#define VTOC_RESTRICT __restrict
#else
#define VTOC_RESTRICT restrict
#endif
#endif

/* A host that does not look at a result may take a refusal for a grant: compilers that can, warn of it. */
#ifndef VTOC_NODISCARD
#if defined(__GNUC__)
#define VTOC_NODISCARD __attribute__((warn_unused_result))
#elif (defined(__cplusplus) && __cplusplus >= 201703L) || (defined(__STDC_VERSION__) && __STDC_VERSION__ >= 202311L)
#define VTOC_NODISCARD [[nodiscard]]
#else
#define VTOC_NODISCARD
#endif
#endif

#ifdef __cplusplus
extern "C" {
#endif

/* ---- Version ------------------------------------------------------------------------------------------------------------ */

#define VTOC_VERSION 500 /* of this header, 100 x major + minor: a new major number where a host must change, else a new minor */
#define VTOC_REQUESTS 6  /* how many of document 02's requests are in, from the first on */

/* ---- Lengths, in bytes unless said otherwise ---------------------------------------------------------------------------- */

#define VTOC_RECORD_LENGTH 140    /* one DSCB */
#define VTOC_LEAST_RECORDS 3      /* records in a table: 3 .. */
#define VTOC_MOST_RECORDS 468     /* .. to 468 */
#define VTOC_MOST_TABLE_LENGTH 65520 /* 468 records */
#define VTOC_NAME_LENGTH 44       /* a data set name, filled up with blanks, X'40' */
#define VTOC_TEXT_LENGTH 45       /* the same as a C string */
#define VTOC_ATTRIBUTES_LENGTH 52 /* format 1 bytes 45-58, 60-93 and 101-104, in this order: any bytes, 56-58 not looked at */
#define VTOC_PACKED_LENGTH 4      /* a date as the calls take it */
#define VTOC_STORED_LENGTH 3      /* a date as a format 1 has it */
#define VTOC_ANSWER_LENGTH 24     /* the answer of every call */
#define VTOC_LABELS_LENGTH 280    /* vtoc_obtain: format 1, then format 3 or zeros */
#define VTOC_MOST_PIECES 5        /* pieces of one grant */
#define VTOC_MOST_EXTENTS 16      /* extents of one data set */
#define VTOC_MOST_TRACKS 65535    /* tracks of a volume, and the most tracks or cylinders of one request */
#define VTOC_MOST_HEADS 255       /* tracks to a cylinder */
#define VTOC_MOST_SECONDARY 16777215 /* tracks or cylinders */
#define VTOC_STACK_NEED 16384     /* no call needs more stack */
#define VTOC_NO_TRACK UINT32_MAX  /* no track of any volume; as a start it is refused (VTOC_E_AMOUNT) */

/* ---- Kinds of a request (vtoc_allocate) ---------------------------------------------------------------------------------- */

#define VTOC_TRACKS 0    /* amount in tracks; start counts for nothing */
#define VTOC_CYLINDERS 1 /* amount in whole cylinders; start counts for nothing */
#define VTOC_ABSOLUTE 2  /* exactly the tracks from start on, amount of them; secondary must be 0 */

/* ---- Space options of a request (vtoc_allocate) -------------------------------------------------------------------------- */

/* A candidate is a free extent (tracks), or the whole cylinders inside one (cylinders). Of equally long ones the lowest is first.
   An absolute request has no option. No label keeps it: vtoc_extend grants as without one. */
#define VTOC_NO_OPTION 0 /* as VTOC_CONTIG where that can grant; else up to five candidates, longest first, as far as needed */
#define VTOC_CONTIG 1    /* one piece: the first part of the shortest candidate that is at least the amount */
#define VTOC_MXIG 2      /* one piece: the longest candidate, whole, if it is at least the amount */
#define VTOC_ALX 3       /* every candidate of at least the amount, whole, longest first; of more than five the five longest */

/* ---- Override of an expiry date (vtoc_scratch) --------------------------------------------------------------------------- */

#define VTOC_NO_OVERRIDE 0 /* a data set is scratched from its expiry date on, not before */
#define VTOC_OVERRIDE 1    /* on any day; so is any other number but 0 */

/* ---- Dates: a year, 1900 to 2099, and a day from 1 on, 366 in leap years only (1900 is none, 2000 is one) ----------------- */

/* Packed, as the calls take it, four bytes: digits 0, C, Y, Y, D, D, D and sign F, a half byte each, with C 0 for 1900, 1 for 2000.
     1999 day 365: 00 99 36 5F        2000 day 1: 01 00 00 1F
   Stored, as a format 1 has it (bytes 56-58, DS1EXPDT), three bytes: the year less 1900, 1 byte, and the day, 2 bytes.
     1999 day 365: 63 01 6D           2000 day 1: 64 00 01        zeros: none
   vtoc_packed_date, below, makes a packed date of two numbers; other functions there read year and day. */

/* ---- Results ------------------------------------------------------------------------------------------------------------ */

/* Accepted: the answer is written, and the table by the calls that change it. */
#define VTOC_OK 0

/* 1, geometry: vtoc_initialise, a limit is not kept (C, H, D, S, V at least 1; H and D at most 255; C x H at most 65,535;
   S + V at most C x H; V x D from 3 to 468). The device description is wrong: correct it. */
#define VTOC_E_GEOMETRY 1

/* 2, length: a buffer has the wrong length (a table not 140 times 3 to 468, for vtoc_initialise not V x D x 140; a name not 44,
   attributes not 52, a packed date not 4, a stored one not 3, an answer not 24, labels not 280). An error in the host: correct
   the call. */
#define VTOC_E_LENGTH 2

/* 3, VTOC unsound: the table does not meet the layout. Nothing more is granted on this volume until it is put right: mount it
   for reading only, keep the bytes, and move the data sets to another volume. A copy of the table made earlier may take its
   place only if no call was accepted since: to an older one, tracks granted since are free. See docs/OPERATORS.md. */
#define VTOC_E_UNSOUND 3

/* 4, name: a name is against the rule (parts of 1 to 8 characters joined by a period, each starts with a letter or one of
   $ # @; blanks only after the end). Fail the job step; the request can never succeed under this name. */
#define VTOC_E_NAME 4

/* 5, not found: no data set of this name (in a rename, the old one) is on the volume. The catalogue and the volume disagree, or
   the wrong volume is mounted: look there; do not allocate in its stead. */
#define VTOC_E_NOT_FOUND 5

/* 6, duplicate: the new name is on the volume already, also where a rename names the same twice. Take another name, or scratch
   or rename the old data set first. */
#define VTOC_E_DUPLICATE 6

/* 7, amount: an unknown kind or option; an amount of 0 or above 65,535; a secondary above 16,777,215; absolute with count 0, an
   end past the volume's last track, a secondary that is not 0, or an option. The request is wrong for any state of the volume:
   fail the job step. */
#define VTOC_E_AMOUNT 7

/* 8, no secondary: vtoc_extend, the data set was allocated with secondary 0. It ends here: fail the job as out of space (x37),
   or allocate anew with a secondary amount. */
#define VTOC_E_NO_SECONDARY 8

/* 9, no space: the five longest candidates together are too few; with an option, none of them alone is at least the amount; or,
   for absolute, one of the tracks is taken. Where the job can do with pieces, ask again without the option. Try another volume, a
   smaller amount, or tracks in place of cylinders; scratch or release first. */
#define VTOC_E_NO_SPACE 9

/* 10, extents: vtoc_extend, the data set would have more than 16; a piece that is joined is none. Copy it into one allocated in
   fewer pieces. */
#define VTOC_E_EXTENTS 10

/* 11, VTOC full: too few free records for the labels and format 5s that the call needs, those that it frees counted. vtoc_extend
   needs one for a format 3 where the data set comes to more than 3 extents; a piece that is joined is none. Scratch a data set; for
   more records the volume must be initialised with a larger VTOC. vtoc_scratch never answers it. */
#define VTOC_E_VTOC_FULL 11

/* 12, TTR: vtoc_release, the TTR is wider than three bytes, TT + 1 is above the tracks of the data set, or R is 0 with TT above
   0. An error in the host, or the data set has changed since it was opened: read its labels again. */
#define VTOC_E_TTR 12

/* 13, unexpired: vtoc_scratch, the data set's expiry date is later than today and no override was given. Keep it: from its date on
   it can be scratched. Or ask the operator, and where he agrees call again with VTOC_OVERRIDE; do not do so unasked. Bytes 56-58
   are compared as they stand, first the year, then the day, also where they are no date: X'FFFFFF' never expires. */
#define VTOC_E_UNEXPIRED 13

/* 14, date: what was handed over is no date of its form. Zeros are none for the expiry of vtoc_allocate alone; today's date must
   be a date with an override too. For expiry: fail the job step, or ask for a right date. For today: an error in the host, look at
   its clock. For vtoc_date_to_packed: the label has no date there. */
#define VTOC_E_DATE 14

/* ---- The calls. Refusals are checked in the order given; the first that holds is the result. ----------------------------- */

/*
 * Writes the table of a volume with no data set: c cylinders of h tracks, and a VTOC of v tracks from track s with d records on
 * each. c counts the primary cylinders alone: each track of each cylinder that is counted may be granted, and alternate tracks
 * must not be. table_length is v * d * 140; what was in the table counts for nothing. The answer is 24 zeros.
 * Refusals: 1, 2.
 */
VTOC_NODISCARD
uint32_t vtoc_initialise(uint8_t *VTOC_RESTRICT table, size_t table_length, uint32_t c, uint32_t h, uint32_t d, uint32_t s,
                         uint32_t v, uint8_t *VTOC_RESTRICT answer, size_t answer_length);

/*
 * Gives a new data set its tracks. option says which (above); without one it is the shortest free extent that holds the amount,
 * or else up to five, longest first. secondary is what each later vtoc_extend grants, in the unit of kind. expiry is the packed
 * date before which vtoc_scratch refuses the data set, any date, or vtoc_no_expiry(); it is stored in place of attribute bytes
 * 11-13. The answer has the tracks granted and the pieces: take both from there, since VTOC_MXIG and VTOC_ALX may grant more than
 * the amount, up to all that is free (vtoc_release gives back what is not used). Refusals: 2, 3, 4, 14, 7, 6, 9, 11.
 */
VTOC_NODISCARD
uint32_t vtoc_allocate(uint8_t *VTOC_RESTRICT table, size_t table_length, const uint8_t *name, size_t name_length,
                       const uint8_t *attributes, size_t attributes_length, uint32_t kind, uint32_t start, uint32_t amount,
                       uint32_t secondary, uint32_t option, const uint8_t *expiry, size_t expiry_length,
                       uint8_t *VTOC_RESTRICT answer, size_t answer_length);

/*
 * Grants the secondary amount once more, without an option. The new pieces become extents after those that the data set has; but
 * where the first one begins on the track after the end of the last extent, that extent is lengthened instead. Its type stays X'81'
 * only if the piece is X'81' too, as those of a cylinder file are; else it is X'01'. No piece is preferred because it touches. The
 * answer has the tracks granted and the pieces, the joined one too; the extents are in the labels (vtoc_obtain).
 * Refusals: 2, 3, 4, 5, 8, 9, 10, 11.
 */
VTOC_NODISCARD
uint32_t vtoc_extend(uint8_t *VTOC_RESTRICT table, size_t table_length, const uint8_t *name, size_t name_length,
                     uint8_t *VTOC_RESTRICT answer, size_t answer_length);

/*
 * Stores ttr (TT * 256 + R) as the last block and keeps the first TT + 1 tracks of the data set; TT 0, R 0 (an empty data set)
 * keeps one. Of a cylinder file (allocated by VTOC_CYLINDERS: unit X'C0') it also keeps the tracks after these in the data set,
 * from extent to extent, as long as each is the next on the volume and in the same cylinder. All others are free again. No track
 * is added: where the data set has part of a cylinder, a part is kept. An extent that is cut gets type X'01'; one of type X'81' in
 * a cylinder file keeps its type.
 * The answer has the tracks given back, which may be 0. Take the number from there and the extents from vtoc_obtain, not from TT.
 * Refusals: 2, 3, 4, 5, 12, 11.
 */
VTOC_NODISCARD
uint32_t vtoc_release(uint8_t *VTOC_RESTRICT table, size_t table_length, const uint8_t *name, size_t name_length,
                      uint32_t ttr, uint8_t *VTOC_RESTRICT answer, size_t answer_length);

/*
 * Removes a data set; its tracks and records are free again. today is the packed date of today: before the data set's expiry date
 * the call is refused, unless override is not 0 (VTOC_OVERRIDE). On that date, after it, and without one it is accepted. The answer
 * has the tracks given back. Refusals: 2, 3, 4, 14, 5, 13.
 */
VTOC_NODISCARD
uint32_t vtoc_scratch(uint8_t *VTOC_RESTRICT table, size_t table_length, const uint8_t *name, size_t name_length,
                      const uint8_t *today, size_t today_length, uint32_t override, uint8_t *VTOC_RESTRICT answer,
                      size_t answer_length);

/*
 * Changes the name of a data set. The answer is 24 zeros. Refusals: 2, 3, 4 (either name), 5, 6. Old and new name may be one
 * buffer: that is a name renamed to itself, and refused by 4, 5 or 6.
 */
VTOC_NODISCARD
uint32_t vtoc_rename(uint8_t *VTOC_RESTRICT table, size_t table_length, const uint8_t *old_name, size_t old_name_length,
                     const uint8_t *new_name, size_t new_name_length, uint8_t *VTOC_RESTRICT answer, size_t answer_length);

/*
 * Reads the labels of a data set: its format 1, then its format 3 or 140 zeros. vtoc_label_extent, below, finds an extent in
 * them. The answer is 24 zeros. Refusals: 2, 3, 4, 5.
 */
VTOC_NODISCARD
uint32_t vtoc_obtain(const uint8_t *table, size_t table_length, const uint8_t *name, size_t name_length,
                     uint8_t *VTOC_RESTRICT labels, size_t labels_length, uint8_t *VTOC_RESTRICT answer, size_t answer_length);

/*
 * Says how much is free: the answer has the six numbers of vtoc_answer_space, below. It is also the simplest way to ask whether a
 * table is taken at all. Refusals: 2, 3.
 */
VTOC_NODISCARD
uint32_t vtoc_lspace(const uint8_t *table, size_t table_length, uint8_t *VTOC_RESTRICT answer, size_t answer_length);

/* ---- Previews: what a call would answer. Nothing is changed. ------------------------------------------------------------- */

/*
 * A preview takes the arguments of its call and gives the result and the answer that the call would give on a copy of the table:
 * the same refusals in the same order, and where it is accepted the same 24 bytes, for the readers below. So a host asks each of
 * its volumes what it would give, and makes the call where that is best; examples/host.c has such a planner.
 *
 * The table is not written: it may lie in memory that can only be read, and others may read it at the same time (duty 3).
 * Nothing is reserved either. What a preview says holds until the table is next changed, by a call or by the host; if that may have
 * happened, ask again, and look at the result and the answer of the call in any case.
 */

/* The tracks and pieces that vtoc_allocate would grant. */
VTOC_NODISCARD
uint32_t vtoc_preview_allocate(const uint8_t *table, size_t table_length, const uint8_t *name, size_t name_length,
                               const uint8_t *attributes, size_t attributes_length, uint32_t kind, uint32_t start,
                               uint32_t amount, uint32_t secondary, uint32_t option, const uint8_t *expiry,
                               size_t expiry_length, uint8_t *VTOC_RESTRICT answer, size_t answer_length);

/* The tracks and pieces that the next vtoc_extend would grant. Whether the first would be joined, the labels tell: it is where it
   begins on the track after the end of the last extent. */
VTOC_NODISCARD
uint32_t vtoc_preview_extend(const uint8_t *table, size_t table_length, const uint8_t *name, size_t name_length,
                             uint8_t *VTOC_RESTRICT answer, size_t answer_length);

/* The tracks that vtoc_release would give back; the TTR is not stored. */
VTOC_NODISCARD
uint32_t vtoc_preview_release(const uint8_t *table, size_t table_length, const uint8_t *name, size_t name_length, uint32_t ttr,
                              uint8_t *VTOC_RESTRICT answer, size_t answer_length);

/* The tracks that vtoc_scratch would give back, which are all that the data set has. With VTOC_NO_OVERRIDE it also says whether the
   data set is unexpired on a day, any day. */
VTOC_NODISCARD
uint32_t vtoc_preview_scratch(const uint8_t *table, size_t table_length, const uint8_t *name, size_t name_length,
                              const uint8_t *today, size_t today_length, uint32_t override, uint8_t *VTOC_RESTRICT answer,
                              size_t answer_length);

/* ---- Conversions of dates ------------------------------------------------------------------------------------------------ */

/* The stored form of a packed date: the first 3 bytes of the answer, then zeros. Refusals: 2, 14 (four zeros too). */
VTOC_NODISCARD
uint32_t vtoc_date_to_stored(const uint8_t *packed, size_t packed_length, uint8_t *VTOC_RESTRICT answer, size_t answer_length);

/* The packed form of a stored date, as in a label from VTOC_LABEL_EXPIRY on: the first 4 bytes of the answer, then zeros.
   Refusals: 2, 14 (three zeros too: a data set without a date). */
VTOC_NODISCARD
uint32_t vtoc_date_to_packed(const uint8_t *stored, size_t stored_length, uint8_t *VTOC_RESTRICT answer, size_t answer_length);

/* ---- Readers of the answer. Each is for an answer of 24 bytes that a call with result VTOC_OK has written. --------------- */

/* The number in two bytes. */
static inline uint32_t vtoc_two(const uint8_t *bytes)
{
    return (uint32_t)bytes[0] << 8 | bytes[1];
}

/* allocate and extend: tracks granted. release and scratch: tracks given back. Of a preview, those that would be. */
static inline uint32_t vtoc_answer_tracks(const uint8_t *answer)
{
    return vtoc_two(answer);
}

/* allocate and extend: the number of pieces, 1 to 5. An extend may have joined the first of them to an extent. */
static inline uint32_t vtoc_answer_pieces(const uint8_t *answer)
{
    return answer[2];
}

/* The first track of piece i, from 0; 0 where there is no such piece. */
static inline uint32_t vtoc_answer_start(const uint8_t *answer, uint32_t i)
{
    return i < VTOC_MOST_PIECES ? vtoc_two(answer + 3 + 4 * i) : 0;
}

/* The tracks of piece i, from 0; 0 where there is no such piece. */
static inline uint32_t vtoc_answer_count(const uint8_t *answer, uint32_t i)
{
    return i < VTOC_MOST_PIECES ? vtoc_two(answer + 5 + 4 * i) : 0;
}

/* The numbers of vtoc_lspace, in the order of the answer. */
#define VTOC_SPACE_CYLINDERS 0         /* the sum of the cylinders of all free extents, each by its length */
#define VTOC_SPACE_ODD_TRACKS 1        /* the sum of the tracks left over in each */
#define VTOC_SPACE_EXTENTS 2           /* the number of free extents */
#define VTOC_SPACE_LONGEST_CYLINDERS 3 /* cylinders of the longest free extent, by its length */
#define VTOC_SPACE_LONGEST_ODD 4       /* and its tracks left over */
#define VTOC_SPACE_RECORDS 5           /* free records (format 0s) */

/* One of these six numbers; 0 where there is no such number. */
static inline uint32_t vtoc_answer_space(const uint8_t *answer, uint32_t number)
{
    return number <= VTOC_SPACE_RECORDS ? vtoc_two(answer + 2 * number) : 0;
}

/* The trade's word for a result: "accepted" for VTOC_OK, a refusal's word, "unknown" for any other number. */
static inline const char *vtoc_refusal_word(uint32_t result)
{
    static const char *const words[] = {"accepted",  "geometry", "length",       "VTOC unsound", "name",    "not found",
                                        "duplicate", "amount",   "no secondary", "no space",     "extents", "VTOC full",
                                        "TTR",       "unexpired", "date"};
    return result < sizeof words / sizeof words[0] ? words[result] : "unknown";
}

/* ---- Labels: the 280 bytes that vtoc_obtain has written. A format 1 in the table has the same places. -------------------- */

#define VTOC_LABEL_ID 44         /* X'F1', a format 1 (DS1FMTID) */
#define VTOC_LABEL_EXPIRY 56     /* the expiry date, stored form, 3 bytes (DS1EXPDT) */
#define VTOC_LABEL_EXTENTS 59    /* the number of extents, 1 to 16 (DS1NOEPV) */
#define VTOC_LABEL_UNIT 94       /* X'80' tracks, X'C0' cylinders, X'00' absolute (DS1SCALO) */
#define VTOC_LABEL_SECONDARY 95  /* the secondary amount, 3 bytes */
#define VTOC_LABEL_LAST_BLOCK 98 /* TTR of the last block, 3 bytes (DS1LSTAR) */

/* The ten bytes of extent e, from 0, in labels of 280 bytes; zeros from the number of extents on. Null where e is above 15. */
static inline const uint8_t *vtoc_label_extent(const uint8_t *labels, uint32_t e)
{
    if (e >= VTOC_MOST_EXTENTS)
        return NULL;
    return labels + (e < 3 ? 105 + 10 * e : VTOC_RECORD_LENGTH + (e < 7 ? 4 + 10 * (e - 3) : 45 + 10 * (e - 7)));
}

/* Places in the ten bytes of an extent. */
#define VTOC_EXTENT_TYPE 0   /* X'81' starts a cylinder and ends one, X'01' needn't */
#define VTOC_EXTENT_NUMBER 1 /* counted from 0 */
#define VTOC_EXTENT_FIRST 2  /* CCHH of the first track, 4 bytes */
#define VTOC_EXTENT_LAST 6   /* CCHH of the last track, 4 bytes */

/* A TTR as vtoc_release takes it. A track or record too large for its bytes makes a TTR that is refused, never another one. */
static inline uint32_t vtoc_ttr(uint32_t track, uint32_t record)
{
    return track > 65535 || record > 255 ? UINT32_MAX : track << 8 | record;
}

/* The TTR of the last block in a format 1 of 140 bytes. */
static inline uint32_t vtoc_label_last_block(const uint8_t *label)
{
    return vtoc_two(label + VTOC_LABEL_LAST_BLOCK) << 8 | label[VTOC_LABEL_LAST_BLOCK + 2];
}

/* Writes the TTR of the last block into a format 1 of 140 bytes: VTOC_OK. Wider than three bytes: VTOC_E_TTR, nothing written. */
static inline uint32_t vtoc_label_set_last_block(uint8_t *label, uint32_t ttr)
{
    if (ttr > 0xFFFFFF)
        return VTOC_E_TTR;
    label[VTOC_LABEL_LAST_BLOCK] = (uint8_t)(ttr >> 16);
    label[VTOC_LABEL_LAST_BLOCK + 1] = (uint8_t)(ttr >> 8 & 0xFF);
    label[VTOC_LABEL_LAST_BLOCK + 2] = (uint8_t)(ttr & 0xFF);
    return VTOC_OK;
}

/* The byte of a format 1 where attribute byte i, from 0, lies: 45-58, 60-93, 101-104; 0 where i is above 51. */
static inline uint32_t vtoc_attribute_place(uint32_t i)
{
    return i < 14 ? 45 + i : i < 48 ? 60 + (i - 14) : i < VTOC_ATTRIBUTES_LENGTH ? 101 + (i - 48) : 0;
}

/* Copies the 52 attribute bytes out of a format 1 of 140 bytes; 11-13 are its expiry date, stored form. */
static inline void vtoc_label_attributes(const uint8_t *label, uint8_t *attributes)
{
    for (uint32_t i = 0; i < VTOC_ATTRIBUTES_LENGTH; i++)
        attributes[i] = label[vtoc_attribute_place(i)];
}

/* Writes the 52 attribute bytes into a format 1 of 140 bytes, all but 11-13: the expiry date stays, as vtoc_allocate stored it. */
static inline void vtoc_label_set_attributes(uint8_t *label, const uint8_t *attributes)
{
    for (uint32_t i = 0; i < VTOC_ATTRIBUTES_LENGTH; i++)
        if (i < 11 || i > 13)
            label[vtoc_attribute_place(i)] = attributes[i];
}

/* ---- Dates --------------------------------------------------------------------------------------------------------------- */

/* No expiry date, for vtoc_allocate: four zeros, VTOC_PACKED_LENGTH of them. */
static inline const uint8_t *vtoc_no_expiry(void)
{
    static const uint8_t none[] = {0, 0, 0, 0};
    return none;
}

/* Makes the four bytes of a packed date: VTOC_OK. Of a year and a day that are no date: VTOC_E_DATE and four times X'FF'. Zeros
   would be none; these bytes every call refuses with that number, so the result may be left aside. From a struct tm:
     vtoc_packed_date(today, (uint32_t)tm.tm_year + 1900, (uint32_t)tm.tm_yday + 1); */
static inline uint32_t vtoc_packed_date(uint8_t *packed, uint32_t year, uint32_t day)
{
    uint32_t days = year % 4 == 0 && year != 1900 ? 366 : 365;
    uint32_t is_one = year >= 1900 && year <= 2099 && day >= 1 && day <= days;
    packed[0] = (uint8_t)(!is_one ? 0xFF : year < 2000 ? 0 : 1);
    packed[1] = (uint8_t)(!is_one ? 0xFF : year / 10 % 10 << 4 | year % 10);
    packed[2] = (uint8_t)(!is_one ? 0xFF : day / 100 << 4 | day / 10 % 10);
    packed[3] = (uint8_t)(!is_one ? 0xFF : day % 10 << 4 | 0xF);
    return is_one ? VTOC_OK : VTOC_E_DATE;
}

/* The number of two decimal digits, a half byte each. */
static inline uint32_t vtoc_digits(uint8_t byte)
{
    return 10 * (uint32_t)(byte >> 4) + (byte & 0xF);
}

/* Year and day of a packed date, as vtoc_date_to_packed answers it. Of other bytes the numbers mean nothing. */
static inline uint32_t vtoc_packed_year(const uint8_t *packed)
{
    return 1900 + 100 * vtoc_digits(packed[0]) + vtoc_digits(packed[1]);
}

static inline uint32_t vtoc_packed_day(const uint8_t *packed)
{
    return 10 * vtoc_digits(packed[2]) + (packed[3] >> 4);
}

/* Year and day of a stored date, as vtoc_date_to_stored answers it and as a label has it from VTOC_LABEL_EXPIRY on. The day is 0
   where there is no expiry date. A label may have any bytes: year 1900 to 2155, day up to 65,535. */
static inline uint32_t vtoc_stored_year(const uint8_t *stored)
{
    return 1900 + (uint32_t)stored[0];
}

static inline uint32_t vtoc_stored_day(const uint8_t *stored)
{
    return vtoc_two(stored + 1);
}

/* ---- Tables and tracks --------------------------------------------------------------------------------------------------- */

/* The track of four bytes CCHH on a volume with h tracks to a cylinder. VTOC_NO_TRACK where HH is not below h, where the track is
   not below 65,535, and where h is not 1 to 255: no track of such a volume has that address. */
static inline uint32_t vtoc_track(const uint8_t *cchh, uint32_t h)
{
    uint32_t hh = vtoc_two(cchh + 2), track = vtoc_two(cchh) * h + hh;
    return h <= VTOC_MOST_HEADS && hh < h && track < VTOC_MOST_TRACKS ? track : VTOC_NO_TRACK;
}

/* Writes the four bytes CCHH of a track, and four times X'FF' where vtoc_track finds the track in no address. */
static inline void vtoc_cchh(uint8_t *cchh, uint32_t track, uint32_t h)
{
    uint32_t is_one = h > 0 && h <= VTOC_MOST_HEADS && track < VTOC_MOST_TRACKS;
    uint32_t cc = is_one ? track / h : 0xFFFF, hh = is_one ? track % h : 0xFFFF;
    cchh[0] = (uint8_t)(cc >> 8);
    cchh[1] = (uint8_t)(cc & 0xFF);
    cchh[2] = (uint8_t)(hh >> 8);
    cchh[3] = (uint8_t)(hh & 0xFF);
}

/* A volume as vtoc_initialise takes it. */
struct vtoc_geometry {
    uint32_t c; /* cylinders */
    uint32_t h; /* tracks to a cylinder */
    uint32_t d; /* records on a track of the VTOC */
    uint32_t s; /* the VTOC's first track */
    uint32_t v; /* the VTOC's tracks */
};

/* The geometry in the format 4 of a table that is taken. Of other bytes the numbers mean nothing; below 140 bytes they are 0. */
static inline struct vtoc_geometry vtoc_table_geometry(const uint8_t *table, size_t table_length)
{
    struct vtoc_geometry g = {0, 0, 0, 0, 0};
    if (table_length >= VTOC_RECORD_LENGTH) {
        const uint8_t *extent = table + 105;
        g.c = vtoc_two(table + 62);
        g.h = vtoc_two(table + 64);
        g.d = table[74];
        g.s = vtoc_track(extent + VTOC_EXTENT_FIRST, g.h);
        g.v = vtoc_track(extent + VTOC_EXTENT_LAST, g.h) - g.s + 1;
    }
    return g;
}

/* The slot of the format 1 with a name of 44 bytes, which is record slot of the table, from byte slot * 140 on. 0 where there is
   none: slots 0 and 1 have a format 4 and a format 5. For a table that is taken; of a longer one 468 records are read. */
static inline uint32_t vtoc_find_slot(const uint8_t *table, size_t table_length, const uint8_t *name)
{
    for (uint32_t slot = 2; slot < VTOC_MOST_RECORDS && table_length / VTOC_RECORD_LENGTH > slot; slot++) {
        const uint8_t *record = table + slot * VTOC_RECORD_LENGTH;
        uint32_t same = 0;
        while (same < VTOC_NAME_LENGTH && record[same] == name[same])
            same++;
        if (same == VTOC_NAME_LENGTH && record[VTOC_LABEL_ID] == 0xF1)
            return slot;
    }
    return 0;
}

/* ---- Names --------------------------------------------------------------------------------------------------------------- */

/* The EBCDIC of a character that a name may have (A to Z, 0 to 9, $ # @, hyphen, period); X'00' for any other, lower case too. */
static inline uint8_t vtoc_ebcdic(char character)
{
    if (character >= 'A' && character <= 'I')
        return (uint8_t)(0xC1 + (character - 'A'));
    if (character >= 'J' && character <= 'R')
        return (uint8_t)(0xD1 + (character - 'J'));
    if (character >= 'S' && character <= 'Z')
        return (uint8_t)(0xE2 + (character - 'S'));
    if (character >= '0' && character <= '9')
        return (uint8_t)(0xF0 + (character - '0'));
    switch (character) {
    case '$': return 0x5B;
    case '#': return 0x7B;
    case '@': return 0x7C;
    case '-': return 0x60;
    case '.': return 0x4B;
    default: return 0x00;
    }
}

/* The character of an EBCDIC byte that a name may have; '?' for any other, as vtlist prints it. */
static inline char vtoc_character(uint8_t byte)
{
    if (byte >= 0xC1 && byte <= 0xC9)
        return (char)('A' + (byte - 0xC1));
    if (byte >= 0xD1 && byte <= 0xD9)
        return (char)('J' + (byte - 0xD1));
    if (byte >= 0xE2 && byte <= 0xE9)
        return (char)('S' + (byte - 0xE2));
    if (byte >= 0xF0 && byte <= 0xF9)
        return (char)('0' + (byte - 0xF0));
    switch (byte) {
    case 0x5B: return '$';
    case 0x7B: return '#';
    case 0x7C: return '@';
    case 0x60: return '-';
    case 0x4B: return '.';
    default: return '?';
    }
}

/* Makes the 44 bytes of a name from a C string: its EBCDIC, then blanks. VTOC_OK where it is 1 to 44 characters that a name may
   have. Any other text has no EBCDIC name: the result is VTOC_E_NAME and the name 44 zeros, which every call refuses with that
   number; so the result may be left aside. Parts and their first characters are not looked at here: the calls do that. */
static inline uint32_t vtoc_name_from_text(uint8_t *name, const char *text)
{
    uint32_t length = 0, is_one;
    while (length < VTOC_NAME_LENGTH && vtoc_ebcdic(text[length]) != 0)
        length++;
    is_one = length > 0 && text[length] == '\0';
    for (uint32_t i = 0; i < VTOC_NAME_LENGTH; i++)
        name[i] = (uint8_t)(!is_one ? 0x00 : i < length ? vtoc_ebcdic(text[i]) : 0x40);
    return is_one ? VTOC_OK : VTOC_E_NAME;
}

/* Makes a C string from the 44 bytes of a name, without the blanks at its end; a byte that no name has becomes '?'. The text has
   room for VTOC_TEXT_LENGTH characters and is also what the function returns. */
static inline char *vtoc_text_from_name(char *text, const uint8_t *name)
{
    uint32_t length = VTOC_NAME_LENGTH;
    while (length > 0 && name[length - 1] == 0x40)
        length--;
    for (uint32_t i = 0; i < length; i++)
        text[i] = vtoc_character(name[i]);
    text[length] = '\0';
    return text;
}

#ifdef __cplusplus
}
#endif

#endif
