/*
 * host.c: a week on a survey volume, its last day on two, as an emulator would live it with the VTOC space manager.
 *
 *   tools/build vtoc && cc -std=c99 -Iinclude examples/host.c target/staticlib/libvtoc.a -o target/host
 *   target/host target/week.vtoc && target/bin/vtlist < target/week.vtoc
 *
 * A volume is a 3330 pack: 404 cylinders of 19 tracks, a VTOC of two tracks with 39 records each from track 1. The week is the last
 * of 1999; a date is printed as its year and its day, 1999.365. The program prints what it does in clear words, and ends with
 * status 1 where a call answers otherwise than the week needs. At the end it writes the table of the survey volume to the file
 * named by its argument, for vtlist.
 */
#include <stdarg.h>
#include <stdio.h>
#include <stdlib.h>
#include <string.h>

#include "vtoc.h"

enum { CYLINDERS = 404, HEADS = 19, RECORDS_A_TRACK = 39, VTOC_START = 1, VTOC_LENGTH = 2 };
enum { TABLE_LENGTH = VTOC_LENGTH * RECORDS_A_TRACK * VTOC_RECORD_LENGTH, VOLUMES = 2 };

static const char *const serials[VOLUMES] = {"SURV01", "SURV02"};
static uint8_t tables[VOLUMES][TABLE_LENGTH];
static uint8_t *table = tables[0]; /* of the volume that the calls are for: SURV01 up to Sunday */
static uint8_t answer[VTOC_ANSWER_LENGTH];
static uint8_t table_before[TABLE_LENGTH], answer_before[sizeof answer]; /* as they were before a call */

struct date {
    uint32_t year, day;
};
static struct date today; /* a real host has it from its clock */
static const struct date no_date = {0, 0};

/* ---- What the operator reads --------------------------------------------------------------------------------------------- */

static void print_track(uint32_t track)
{
    printf("%lu (cylinder %lu, head %lu)", (unsigned long)track, (unsigned long)(track / HEADS), (unsigned long)(track % HEADS));
}

/* The pieces of a grant, from the answer. */
static void print_pieces(void)
{
    for (uint32_t i = 0; i < vtoc_answer_pieces(answer); i++) {
        printf("      piece %lu: %lu tracks from track ", (unsigned long)i + 1, (unsigned long)vtoc_answer_count(answer, i));
        print_track(vtoc_answer_start(answer, i));
        printf("\n");
    }
}

/* The expiry date of a label, converted. A volume of earlier days may have any bytes there. */
static void print_expiry(const uint8_t *label)
{
    const uint8_t *stored = label + VTOC_LABEL_EXPIRY;
    uint8_t packed[VTOC_ANSWER_LENGTH];
    if (vtoc_date_to_packed(stored, VTOC_STORED_LENGTH, packed, sizeof packed) == VTOC_OK)
        printf("kept until %lu.%03lu\n", (unsigned long)vtoc_packed_year(packed), (unsigned long)vtoc_packed_day(packed));
    else if (memcmp(stored, vtoc_no_expiry(), VTOC_STORED_LENGTH) == 0)
        printf("no expiry date\n");
    else
        printf("no date in bytes 56-58: X'%02X%02X%02X'\n", (unsigned)stored[0], (unsigned)stored[1], (unsigned)stored[2]);
}

static void check(int holds, const char *what)
{
    if (!holds) {
        printf("   not so: %s\n", what);
        exit(EXIT_FAILURE);
    }
}

/* A line about the call that follows, and a copy of what it may write, to compare with where it is refused. */
static void say(const char *format, ...)
{
    va_list words;
    printf("   ");
    va_start(words, format);
    vprintf(format, words);
    va_end(words);
    printf("\n");
    memcpy(table_before, table, TABLE_LENGTH);
    memcpy(answer_before, answer, sizeof answer);
}

/* A refused call has nothing to tell but its number. */
static void print_refusal(uint32_t result)
{
    check(memcmp(table, table_before, TABLE_LENGTH) == 0 && memcmp(answer, answer_before, sizeof answer) == 0,
          "a refusal writes no byte");
    printf("      refused, %lu: %s; no byte was written\n", (unsigned long)result, vtoc_refusal_word(result));
}

/* Ends the program where a call answered otherwise than the week needs. */
static void expect(uint32_t result, uint32_t wanted)
{
    if (result != wanted) {
        printf("   result %lu (%s) where %lu (%s) was expected: the week ends here\n", (unsigned long)result,
               vtoc_refusal_word(result), (unsigned long)wanted, vtoc_refusal_word(wanted));
        exit(EXIT_FAILURE);
    }
    if (result != VTOC_OK)
        print_refusal(result);
}

/* ---- Dates --------------------------------------------------------------------------------------------------------------- */

static struct date date(uint32_t year, uint32_t day)
{
    struct date d;
    d.year = year;
    d.day = day;
    return d;
}

static void begin(const char *weekday, struct date d, const char *what)
{
    today = d;
    printf("%s, %lu.%03lu: %s\n", weekday, (unsigned long)d.year, (unsigned long)d.day, what);
}

/* What a call is handed for an expiry date. A day that the year does not have makes bytes that the call refuses. */
static void pack(uint8_t *packed, struct date d)
{
    if (d.day == 0)
        memcpy(packed, vtoc_no_expiry(), VTOC_PACKED_LENGTH);
    else
        vtoc_packed_date(packed, d.year, d.day);
}

/* The expiry date in a line about an allocate. */
static const char *until(struct date d)
{
    static char text[64];
    text[0] = '\0';
    if (d.day != 0)
        sprintf(text, ", kept until %lu.%03lu", (unsigned long)d.year, (unsigned long)d.day);
    return text;
}

/* ---- The calls with the table of one volume and text for names ----------------------------------------------------------- */

static void initialise(void)
{
    say("initialise %d cylinders of %d tracks", CYLINDERS, HEADS);
    expect(vtoc_initialise(table, TABLE_LENGTH, CYLINDERS, HEADS, RECORDS_A_TRACK, VTOC_START, VTOC_LENGTH, answer, sizeof answer),
           VTOC_OK);
}

static void allocate_until(struct date expiry, const char *text, uint32_t kind, uint32_t start, uint32_t amount,
                           uint32_t secondary, uint32_t option, uint32_t wanted)
{
    static const char *const units[] = {"tracks", "cylinders", "tracks from an absolute start"};
    static const char *const options[] = {"", ", CONTIG", ", MXIG", ", ALX"};
    uint8_t name[VTOC_NAME_LENGTH], packed[VTOC_PACKED_LENGTH];
    uint8_t attributes[VTOC_ATTRIBUTES_LENGTH] = {0}; /* a real host fills in organisation, block sizes, the creation date */
    uint32_t result;
    vtoc_name_from_text(name, text);
    pack(packed, expiry);
    say("allocate %s, %lu %s, secondary %lu%s%s", text, (unsigned long)amount, units[kind], (unsigned long)secondary,
        options[option], until(expiry));
    result = vtoc_allocate(table, TABLE_LENGTH, name, sizeof name, attributes, sizeof attributes, kind, start, amount, secondary,
                           option, packed, sizeof packed, answer, sizeof answer);
    expect(result, wanted);
    if (result == VTOC_OK)
        print_pieces();
}

static void allocate(const char *text, uint32_t kind, uint32_t start, uint32_t amount, uint32_t secondary, uint32_t option,
                     uint32_t wanted)
{
    allocate_until(no_date, text, kind, start, amount, secondary, option, wanted);
}

static void extend(const char *text, uint32_t wanted)
{
    uint8_t name[VTOC_NAME_LENGTH];
    uint32_t result;
    vtoc_name_from_text(name, text);
    say("extend %s", text);
    result = vtoc_extend(table, TABLE_LENGTH, name, sizeof name, answer, sizeof answer);
    expect(result, wanted);
    if (result == VTOC_OK)
        print_pieces();
}

static void release(const char *text, uint32_t tt, uint32_t r, uint32_t wanted)
{
    uint8_t name[VTOC_NAME_LENGTH];
    uint32_t result;
    vtoc_name_from_text(name, text);
    say("release %s after its last block, track %lu of the data set, record %lu", text, (unsigned long)tt, (unsigned long)r);
    result = vtoc_release(table, TABLE_LENGTH, name, sizeof name, vtoc_ttr(tt, r), answer, sizeof answer);
    expect(result, wanted);
    if (result == VTOC_OK)
        printf("      %lu tracks given back\n", (unsigned long)vtoc_answer_tracks(answer));
}

static void scratch(const char *text, uint32_t override, uint32_t wanted)
{
    uint8_t name[VTOC_NAME_LENGTH], packed[VTOC_PACKED_LENGTH];
    uint32_t result;
    vtoc_name_from_text(name, text);
    vtoc_packed_date(packed, today.year, today.day);
    say("scratch %s%s", text, override == VTOC_NO_OVERRIDE ? "" : ", override");
    result = vtoc_scratch(table, TABLE_LENGTH, name, sizeof name, packed, sizeof packed, override, answer, sizeof answer);
    expect(result, wanted);
    if (result == VTOC_OK)
        printf("      %lu tracks given back\n", (unsigned long)vtoc_answer_tracks(answer));
}

static void rename_set(const char *old_text, const char *new_text, uint32_t wanted)
{
    uint8_t old_name[VTOC_NAME_LENGTH], new_name[VTOC_NAME_LENGTH];
    vtoc_name_from_text(old_name, old_text);
    vtoc_name_from_text(new_name, new_text);
    say("rename %s to %s", old_text, new_text);
    expect(vtoc_rename(table, TABLE_LENGTH, old_name, sizeof old_name, new_name, sizeof new_name, answer, sizeof answer), wanted);
}

/* Reads the labels of a data set and prints its extents, which lie in the format 1 and, from the fourth on, in the format 3; then
   its expiry date. Returns the number of extents. */
static uint32_t obtain(const char *text)
{
    uint8_t name[VTOC_NAME_LENGTH], labels[VTOC_LABELS_LENGTH];
    vtoc_name_from_text(name, text);
    say("obtain %s", text);
    expect(vtoc_obtain(table, TABLE_LENGTH, name, sizeof name, labels, sizeof labels, answer, sizeof answer), VTOC_OK);
    for (unsigned e = 0; e < labels[VTOC_LABEL_EXTENTS]; e++) {
        const uint8_t *extent = vtoc_label_extent(labels, e);
        printf("      extent %u: track ", (unsigned)extent[VTOC_EXTENT_NUMBER]);
        print_track(vtoc_track(extent + VTOC_EXTENT_FIRST, HEADS));
        printf(" to ");
        print_track(vtoc_track(extent + VTOC_EXTENT_LAST, HEADS));
        printf("%s\n", extent[VTOC_EXTENT_TYPE] == 0x81 ? ", whole cylinders" : "");
    }
    printf("      ");
    print_expiry(labels);
    return labels[VTOC_LABEL_EXTENTS];
}

/* The expiry dates of a volume, from its format 1s. */
static void list_dates(void)
{
    say("the data sets and their dates");
    for (unsigned slot = 2; slot < TABLE_LENGTH / VTOC_RECORD_LENGTH; slot++) {
        const uint8_t *record = table + slot * VTOC_RECORD_LENGTH;
        char text[VTOC_TEXT_LENGTH];
        if (record[VTOC_LABEL_ID] == 0xF1) {
            printf("      %s: ", vtoc_text_from_name(text, record));
            print_expiry(record);
        }
    }
}

/* Writes another expiry date into the label. No call does that: the host may write it, as it may where it closes a file. */
static void move_date(const char *text, struct date expiry)
{
    uint8_t name[VTOC_NAME_LENGTH], packed[VTOC_PACKED_LENGTH];
    uint32_t slot;
    vtoc_name_from_text(name, text);
    vtoc_packed_date(packed, expiry.year, expiry.day);
    say("%s is to be kept longer, until %lu.%03lu", text, (unsigned long)expiry.year, (unsigned long)expiry.day);
    slot = vtoc_find_slot(table, TABLE_LENGTH, name);
    check(slot != 0, "the data set is on the volume");
    expect(vtoc_date_to_stored(packed, sizeof packed, answer, sizeof answer), VTOC_OK);
    memcpy(table + slot * VTOC_RECORD_LENGTH + VTOC_LABEL_EXPIRY, answer, VTOC_STORED_LENGTH);
}

static unsigned long space_number(uint32_t which)
{
    return vtoc_answer_space(answer, which);
}

static void space(void)
{
    say("space inquiry");
    expect(vtoc_lspace(table, TABLE_LENGTH, answer, sizeof answer), VTOC_OK);
    printf("      free extents: %lu, together %lu cylinders and %lu tracks, the longest %lu cylinders and %lu tracks; records: %lu\n",
           space_number(VTOC_SPACE_EXTENTS), space_number(VTOC_SPACE_CYLINDERS), space_number(VTOC_SPACE_ODD_TRACKS),
           space_number(VTOC_SPACE_LONGEST_CYLINDERS), space_number(VTOC_SPACE_LONGEST_ODD), space_number(VTOC_SPACE_RECORDS));
}

/* ---- A planner: which volume is to have a new file ----------------------------------------------------------------------- */

/* What a volume would answer. */
struct offer {
    uint32_t result;
    uint8_t answer[VTOC_ANSWER_LENGTH];
};

/* What a volume would grant to a cylinder file. A preview takes nothing: to it the table is const. */
static struct offer preview(unsigned volume, struct date expiry, const char *text, uint32_t amount, uint32_t secondary)
{
    uint8_t name[VTOC_NAME_LENGTH], packed[VTOC_PACKED_LENGTH];
    uint8_t attributes[VTOC_ATTRIBUTES_LENGTH] = {0};
    struct offer offer;
    vtoc_name_from_text(name, text);
    pack(packed, expiry);
    table = tables[volume];
    say("preview on %s: allocate %s, %lu cylinders, secondary %lu%s", serials[volume], text, (unsigned long)amount,
        (unsigned long)secondary, until(expiry));
    offer.result = vtoc_preview_allocate(table, TABLE_LENGTH, name, sizeof name, attributes, sizeof attributes, VTOC_CYLINDERS, 0,
                                         amount, secondary, VTOC_NO_OPTION, packed, sizeof packed, answer, sizeof answer);
    memcpy(offer.answer, answer, sizeof answer);
    check(memcmp(table, table_before, TABLE_LENGTH) == 0, "a preview writes no byte of the table");
    if (offer.result == VTOC_OK)
        print_pieces();
    else
        print_refusal(offer.result);
    return offer;
}

/* Accepted is better than refused, and of two that are accepted the one in fewer pieces. */
static int is_better(const struct offer *one, const struct offer *other)
{
    if (one->result != VTOC_OK || other->result != VTOC_OK)
        return one->result == VTOC_OK && other->result != VTOC_OK;
    return vtoc_answer_pieces(one->answer) < vtoc_answer_pieces(other->answer);
}

/* Allocates a cylinder file on the volume with the best offer. Of equal offers the first is taken, so that the last volume stays
   free the longest. No call came between: the volume grants, or refuses, as it said. */
static void place(struct date expiry, const char *text, uint32_t amount, uint32_t secondary)
{
    struct offer best = preview(0, expiry, text, amount, secondary);
    unsigned chosen = 0;
    for (unsigned volume = 1; volume < VOLUMES; volume++) {
        struct offer offer = preview(volume, expiry, text, amount, secondary);
        if (is_better(&offer, &best)) {
            best = offer;
            chosen = volume;
        }
    }
    table = tables[chosen];
    say("%s is chosen", serials[chosen]);
    allocate_until(expiry, text, VTOC_CYLINDERS, 0, amount, secondary, VTOC_NO_OPTION, best.result);
    check(memcmp(answer, best.answer, sizeof answer) == 0, "the grant is the one foreseen");
}

/* ---- The week ------------------------------------------------------------------------------------------------------------ */

int main(int count, char **arguments)
{
    const char *path = count > 1 ? arguments[1] : "week.vtoc";
    FILE *file;
    uint32_t freed_track, granted, kept;

    begin("Monday", date(1999, 361), "a new volume, and the survey's files");
    initialise();
    space();
    allocate("SURVEY.STRIP01", VTOC_CYLINDERS, 0, 60, 24, VTOC_NO_OPTION, VTOC_OK);
    allocate("SURVEY.NAV", VTOC_CYLINDERS, 0, 20, 0, VTOC_NO_OPTION, VTOC_OK);
    allocate("SURVEY.WEATHER", VTOC_CYLINDERS, 0, 12, 0, VTOC_NO_OPTION, VTOC_OK);
    allocate_until(date(1999, 366), "SURVEY.PHOTO", VTOC_CYLINDERS, 0, 150, 0, VTOC_NO_OPTION, VTOC_E_DATE);
    say("1999 has no such day: the job is corrected");
    allocate_until(date(1999, 365), "SURVEY.PHOTO", VTOC_CYLINDERS, 0, 150, 0, VTOC_NO_OPTION, VTOC_OK);
    allocate_until(date(2000, 10), "SURVEY.TRIAL", VTOC_CYLINDERS, 0, 14, 0, VTOC_NO_OPTION, VTOC_OK);
    allocate_until(date(2000, 366), "SURVEY.BASE", VTOC_CYLINDERS, 0, 147, 0, VTOC_NO_OPTION, VTOC_OK);
    allocate("SURVEY.LABEL", VTOC_ABSOLUTE, 3, 4, 0, VTOC_NO_OPTION, VTOC_OK);

    begin("Tuesday", date(1999, 362), "the strip is full, and so is the volume");
    extend("SURVEY.STRIP01", VTOC_E_NO_SPACE);
    scratch("SURVEY.WEATHER", VTOC_NO_OVERRIDE, VTOC_OK);
    scratch("SURVEY.TRIAL", VTOC_NO_OVERRIDE, VTOC_E_UNEXPIRED);
    obtain("SURVEY.TRIAL");
    say("its owner tells the operator that the trial is over, and the operator overrides the date");
    scratch("SURVEY.TRIAL", VTOC_OVERRIDE, VTOC_OK);
    say("two gaps now lie between the other files, and the strip grows into both");
    extend("SURVEY.STRIP01", VTOC_OK);
    check(vtoc_answer_pieces(answer) == 2 && vtoc_answer_tracks(answer) == 24 * HEADS, "24 cylinders in two pieces");
    extend("SURVEY.NAV", VTOC_E_NO_SECONDARY);

    begin("Wednesday", date(1999, 363), "the flight has a number");
    rename_set("SURVEY.STRIP01", "SURVEY.PHOTO", VTOC_E_DUPLICATE);
    rename_set("SURVEY.STRIP01", "SURVEY.FLT0317.STRIP01", VTOC_OK);
    rename_set("SURVEY.STRIP01", "SURVEY.STRIP02", VTOC_E_NOT_FOUND);
    allocate("SURVEY.STRIP 02", VTOC_TRACKS, 0, 5, 0, VTOC_NO_OPTION, VTOC_E_NAME);

    begin("Thursday", date(1999, 364), "what the strip does not use goes to others");
    obtain("SURVEY.FLT0317.STRIP01");
    release("SURVEY.FLT0317.STRIP01", 2000, 1, VTOC_E_TTR);
    release("SURVEY.FLT0317.STRIP01", 1349, 7, VTOC_OK);
    say("its last block lies on the first track of a cylinder, and the strip, a cylinder file, keeps all of that cylinder");
    obtain("SURVEY.FLT0317.STRIP01");
    space();
    say("a sort needs its 240 tracks in one piece: the gaps have 278 together, but the longest has 228");
    allocate("SURVEY.SORTWK01", VTOC_TRACKS, 0, 240, 0, VTOC_CONTIG, VTOC_E_NO_SPACE);
    say("a scratch pool takes every gap of 30 tracks or more, for the night");
    allocate("SURVEY.POOL", VTOC_TRACKS, 0, 30, 0, VTOC_ALX, VTOC_OK);
    check(vtoc_answer_pieces(answer) == 2 && vtoc_answer_tracks(answer) == 228 + 38, "two gaps, whole");
    scratch("SURVEY.POOL", VTOC_NO_OVERRIDE, VTOC_OK);
    freed_track = 255 * HEADS; /* the first one after the strip's second extent */
    say("38 tracks fit the gap that the release left behind the strip, and are granted there:");
    allocate("SURVEY.INDEX", VTOC_TRACKS, 0, 38, 8, VTOC_NO_OPTION, VTOC_OK);
    check(vtoc_answer_pieces(answer) == 1 && vtoc_answer_start(answer, 0) == freed_track && vtoc_answer_count(answer, 0) == 38,
          "SURVEY.INDEX has the very tracks that the strip gave back");
    say("the photographs are kept until tomorrow, and nobody is asked to give them up a day early");
    scratch("SURVEY.PHOTO", VTOC_NO_OVERRIDE, VTOC_E_UNEXPIRED);

    begin("Friday", date(1999, 365), "room for the next week");
    scratch("SURVEY.PHOTO", VTOC_NO_OVERRIDE, VTOC_OK); /* on its date */
    scratch("SURVEY.PHOTO", VTOC_NO_OVERRIDE, VTOC_E_NOT_FOUND);
    space();

    begin("Saturday", date(2000, 1), "the sort and the plotter have the volume to themselves");
    allocate("SURVEY.SORTWK01", VTOC_TRACKS, 0, 240, 0, VTOC_CONTIG, VTOC_OK);
    check(vtoc_answer_pieces(answer) == 1 && vtoc_answer_tracks(answer) == 240, "240 tracks in one piece");
    say("the plotter wants 60 cylinders and more where there are more: the longest gap, whole");
    allocate_until(date(2000, 91), "SURVEY.PLOT", VTOC_CYLINDERS, 0, 60, 0, VTOC_MXIG, VTOC_OK);
    granted = vtoc_answer_tracks(answer); /* MXIG and ALX: the answer has the number, not the request */
    check(vtoc_answer_pieces(answer) == 1 && granted >= 60 * HEADS && granted % HEADS == 0, "60 whole cylinders or more");
    say("the plot has %lu tracks and fills 100 cylinders of them and four tracks", (unsigned long)granted);
    release("SURVEY.PLOT", 100 * HEADS + 3, 4, VTOC_OK);
    kept = granted - vtoc_answer_tracks(answer); /* more than TT + 1: again the answer has the number */
    check(kept == 101 * HEADS, "the cylinder of the last block is kept to its end");
    say("it keeps %lu tracks: the plotter draws on to the end of its cylinder, and then has nothing to give back",
        (unsigned long)kept);
    release("SURVEY.PLOT", kept - 1, 9, VTOC_OK);
    check(vtoc_answer_tracks(answer) == 0, "nothing to give back is no refusal");
    obtain("SURVEY.PLOT");
    scratch("SURVEY.SORTWK01", VTOC_NO_OVERRIDE, VTOC_OK);
    space();

    begin("Sunday", date(2000, 2), "the next flight's files, on this volume or a new one");
    table = tables[1];
    initialise();
    place(date(2000, 14), "SURVEY.FLT0318.PHOTO", 150, 0);
    check(table == tables[1], "only the new volume has so many cylinders");
    move_date("SURVEY.FLT0318.PHOTO", date(2000, 28));
    obtain("SURVEY.FLT0318.PHOTO");
    place(no_date, "SURVEY.FLT0318.STRIP01", 55, 24);
    check(table == tables[1], "one piece is better than two");
    say("photographs come and come: the strip grows three times, each time from its last track on, and stays in one extent");
    for (unsigned i = 0; i < 3; i++)
        extend("SURVEY.FLT0318.STRIP01", VTOC_OK);
    check(obtain("SURVEY.FLT0318.STRIP01") == 1, "what touches is joined");
    place(no_date, "SURVEY.FLT0318.NAV", 20, 0);
    check(table == tables[0], "of equal offers the first");
    say("on this volume the index grows: into the shortest gap that holds 8 tracks, into the next, and on from its last track");
    for (unsigned i = 0; i < 4; i++)
        extend("SURVEY.INDEX", VTOC_OK);
    check(obtain("SURVEY.INDEX") == 3, "four pieces, of which two are joined");
    space();
    list_dates();

    file = fopen(path, "wb");
    if (file == NULL || fwrite(tables[0], 1, TABLE_LENGTH, file) != TABLE_LENGTH || fclose(file) != 0) {
        perror(path);
        return EXIT_FAILURE;
    }
    printf("The table of %s is written to the file; vtlist lists it.\n", serials[0]);
    return EXIT_SUCCESS;
}
