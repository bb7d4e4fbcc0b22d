/*
 * A host in C that gives the reasons. `reasons SHEET SCRIPT` reads two files into memory and prints what the command
 * `acornsled mark` prints for them: the verdict, its rule and integers that show it, or the refusal with its paper and line.
 * A file that cannot be read counts as an empty text.
 */
#include "acornsled.h"

#include <inttypes.h>
#include <stdio.h>

/* One byte more than a text may have shows that it is too long. */
#define ROOM (ACORNSLED_MOST_BYTES + 1)

static uint8_t sheet[ROOM];
static uint8_t script[ROOM];

/* Reads the beginning of a file into ROOM bytes and answers how many were read, 0 where it cannot be read. */
static size_t held(const char *path, uint8_t *text)
{
    FILE *file = fopen(path, "rb");
    if (file == NULL) {
        return 0;
    }
    size_t length = fread(text, 1, ROOM, file);
    if (ferror(file)) {
        length = 0;
    }
    fclose(file);
    return length;
}

/* A signed quantity number as a rule has it, nothing for 0. */
static void print_term(int64_t term)
{
    if (term != 0) {
        printf("%+" PRId64, term);
    }
}

/* The lines after the verdict. A rule without quantities is none. */
static void print_reasons(const int64_t rule[ACORNSLED_RULE_WORDS], const int64_t *values, size_t quantities)
{
    fputs("rule=", stdout);
    if (rule[0] != 0) {
        print_term(rule[0]);
        print_term(rule[1]);
        printf(":%" PRId64, rule[2]);
    }
    fputs("\nvalues=", stdout);
    for (size_t q = 0; q < quantities; q++) {
        printf("%s%" PRId64, q == 0 ? "" : ",", values[q]);
    }
    fputs("\n", stdout);
}

static void print_refusal(uint32_t number, uint32_t paper, size_t line)
{
    static const char *const names[] = {
        [ACORNSLED_SHEET] = "sheet", [ACORNSLED_SCRIPT] = "script", [ACORNSLED_BOTH] = "both"};
    printf("refused=%" PRIu32 "\npaper=%s\nline=%zu\n", number, names[paper], line);
}

int main(int count, char **words)
{
    if (count != 3) {
        fputs("reasons SHEET SCRIPT\n", stderr);
        return 2;
    }
    size_t sheet_length = held(words[1], sheet);
    size_t script_length = held(words[2], script);
    int64_t values[ACORNSLED_VALUES_WORDS];
    int64_t rule[ACORNSLED_RULE_WORDS];
    size_t quantities;
    size_t value;
    uint32_t paper;
    uint32_t number = acornsled_mark_texts(sheet, sheet_length, script, script_length, values, ACORNSLED_VALUES_WORDS,
                                           &quantities, rule, &paper, &value);
    switch (number) {
    case ACORNSLED_EQUAL:
        fputs("verdict=equal\n", stdout);
        break;
    case ACORNSLED_LOOSE:
    case ACORNSLED_TIGHT:
        printf("verdict=%s\n", number == ACORNSLED_LOOSE ? "loose" : "tight");
        print_reasons(rule, values, quantities);
        break;
    default:
        print_refusal(number, paper, value);
    }
    return ferror(stdout) || fflush(stdout) != 0;
}
