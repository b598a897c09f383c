/*
 * one_name.c: asks the library's name rule once about a name, the bytes of a file, and prints the answer: 1 where it obeys. The
 * script `counts` runs it under callgrind.
 *
 *   one_name FILE
 */
#include <stdint.h>
#include <stdio.h>
#include <stdlib.h>

uint32_t vtoc_probe_name(const uint8_t *name, size_t length);

int main(int count, char **arguments)
{
    uint8_t name[44];
    FILE *file = count == 2 ? fopen(arguments[1], "rb") : NULL;
    if (file == NULL || fread(name, 1, sizeof name, file) != sizeof name)
        return EXIT_FAILURE;
    fclose(file);
    printf("%lu\n", (unsigned long)vtoc_probe_name(name, sizeof name));
    return EXIT_SUCCESS;
}
