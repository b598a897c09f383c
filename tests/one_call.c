/*
 * one_call.c: makes one recorded call (docs/REPLAY.md) on a table, both read from files, and prints its result. The script
 * `instructions` runs it under callgrind, with the library and with the unrelated implementation.
 *
 *   one_call TABLE RECORD
 */
#include <stdio.h>
#include <stdlib.h>

#include "vtoc.h"

static uint8_t table[VTOC_MOST_TABLE_LENGTH], record[136], answer[VTOC_ANSWER_LENGTH], labels[VTOC_LABELS_LENGTH];

static size_t read_file(const char *path, uint8_t *bytes, size_t most)
{
    FILE *file = fopen(path, "rb");
    size_t length = file == NULL ? 0 : fread(bytes, 1, most, file);
    if (length == 0) {
        perror(path);
        exit(EXIT_FAILURE);
    }
    fclose(file);
    return length;
}

/* Number i of the record, from 0. */
static uint32_t number(unsigned i)
{
    const uint8_t *at = record + 8 + 4 * i;
    return (uint32_t)at[0] << 24 | (uint32_t)at[1] << 16 | (uint32_t)at[2] << 8 | at[3];
}

int main(int count, char **arguments)
{
    const uint8_t *name = record + 28, *second = record + 74, *date = record + 129;
    uint32_t result = 99;
    size_t length;
    if (count != 3)
        return EXIT_FAILURE;
    length = read_file(arguments[1], table, sizeof table);
    read_file(arguments[2], record, sizeof record);
    switch (record[0]) {
    case 1:
        result = vtoc_initialise(table, length, number(0), number(1), number(2), number(3), number(4), answer, sizeof answer);
        break;
    case 2:
        result = vtoc_allocate(table, length, name, record[1], second, record[2], number(0), number(1), number(2), number(3),
                               number(4), date, record[128], answer, sizeof answer);
        break;
    case 3:
        result = vtoc_extend(table, length, name, record[1], answer, sizeof answer);
        break;
    case 4:
        result = vtoc_release(table, length, name, record[1], number(0), answer, sizeof answer);
        break;
    case 5:
        result = vtoc_scratch(table, length, name, record[1], date, record[128], number(0), answer, sizeof answer);
        break;
    case 6:
        result = vtoc_rename(table, length, name, record[1], second, record[2], answer, sizeof answer);
        break;
    case 7:
        result = vtoc_obtain(table, length, name, record[1], labels, sizeof labels, answer, sizeof answer);
        break;
    case 8:
        result = vtoc_lspace(table, length, answer, sizeof answer);
        break;
    case 10:
        result = vtoc_date_to_stored(date, record[128], answer, sizeof answer);
        break;
    case 11:
        result = vtoc_date_to_packed(date, record[128], answer, sizeof answer);
        break;
    case 0x82:
        result = vtoc_preview_allocate(table, length, name, record[1], second, record[2], number(0), number(1), number(2),
                                       number(3), number(4), date, record[128], answer, sizeof answer);
        break;
    case 0x83:
        result = vtoc_preview_extend(table, length, name, record[1], answer, sizeof answer);
        break;
    case 0x84:
        result = vtoc_preview_release(table, length, name, record[1], number(0), answer, sizeof answer);
        break;
    case 0x85:
        result = vtoc_preview_scratch(table, length, name, record[1], date, record[128], number(0), answer, sizeof answer);
        break;
    }
    printf("%lu\n", (unsigned long)result);
    return EXIT_SUCCESS;
}
