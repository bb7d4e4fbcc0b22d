/*
 * The exam host in C. `exam SHEET SCRIPT` reads two files into memory and prints, on a line, the number that acornsled_mark
 * gives for their bytes. A file that cannot be read counts as an empty text.
 */
#include "acornsled.h"

#include <inttypes.h>
#include <stdio.h>

/* One byte more than a text may have shows that it is too long, so that an endless file ends too. */
#define ROOM (ACORNSLED_MOST_BYTES + 1)

static uint8_t sheet[ROOM];
static uint8_t script[ROOM];

/* Reads the beginning of a file into ROOM bytes and answers how many were read, 0 where it cannot be read. */
static size_t held(const char *path, uint8_t *text)
{
    FILE *file = fopen(path, "rb");
    if (file == NULL) {
        return 0;
    }
    size_t length = fread(text, 1, ROOM, file);
    /* a folder can be opened, and what is read before an error is no text */
    if (ferror(file)) {
        length = 0;
    }
    fclose(file);
    return length;
}

int main(int count, char **words)
{
    if (count != 3) {
        fputs("exam SHEET SCRIPT\n", stderr);
        return 2;
    }
    size_t sheet_length = held(words[1], sheet);
    size_t script_length = held(words[2], script);
    uint32_t number = acornsled_mark(sheet, sheet_length, script, script_length);
    return printf("%" PRIu32 "\n", number) < 0 || fflush(stdout) != 0;
}
