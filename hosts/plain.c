/*
 * A host in C that prints the plain key, the one that acornsled_key makes; the command `acornsled key` prints the tightest.
 * `plain < SHEET` reads the text of a sheet and prints that of its plain key, or the refusal with its line, as the command does.
 * What cannot be read counts as an empty text. The exit status is 0 with a key, 1 with a refusal, and 2 with arguments or where
 * the answer cannot be written.
 */
#include "acornsled.h"

#include <inttypes.h>
#include <stdio.h>

/* One byte more than a text may have shows that it is too long. */
static uint8_t text[ACORNSLED_MOST_BYTES + 1];
static uint8_t out[ACORNSLED_TEXT_BYTES];
static int64_t table[ACORNSLED_TABLE_WORDS];
static int64_t workspace[ACORNSLED_TABLE_WORDS];

int main(int count, char **words)
{
    (void)words;
    if (count != 1) {
        fputs("plain < SHEET\n", stderr);
        return 2;
    }
    size_t length = fread(text, 1, sizeof text, stdin);
    /* a folder can be opened, and what is read before an error is no text */
    if (ferror(stdin)) {
        length = 0;
    }
    size_t n;
    uint32_t hidden;
    size_t value;
    uint32_t number = acornsled_read(text, length, table, ACORNSLED_TABLE_WORDS, &n, &hidden, &value);
    if (number == ACORNSLED_DONE) {
        number = acornsled_key(n, hidden, table, ACORNSLED_TABLE_WORDS, workspace, ACORNSLED_TABLE_WORDS, &value);
    }
    if (number == ACORNSLED_DONE) {
        number = acornsled_write(n, hidden, table, ACORNSLED_TABLE_WORDS, out, sizeof out, &value);
    }
    if (number == ACORNSLED_DONE) {
        fwrite(out, 1, value, stdout);
    } else {
        /* the value is the line, 0 where there is none: what is lent is enough, so that 6 does not come */
        printf("refused=%" PRIu32 "\nline=%zu\n", number, value);
    }
    if (ferror(stdout) || fflush(stdout) != 0) {
        return 2;
    }
    return number != ACORNSLED_DONE;
}
