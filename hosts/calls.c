/*
 * A host that makes all calls of acornsled.h, by the names that the header has, on document 01's sheet A, on large scripts and on
 * input that is refused, and holds numbers, values and lent memory against the documents. The first difference ends it with
 * status 1.
 */
#include "acornsled.h"

#include <inttypes.h>
#include <stdio.h>
#include <stdlib.h>
#include <string.h>

#define N 3
#define HIDDEN 2 /* quantity 2 */
#define WORDS (2 * N * N)
#define LARGEST ACORNSLED_TABLE_WORDS
#define NONE ACORNSLED_NO_RULE
#define WIDEST (INT64_C(1) << 62) /* an assignment's integers are no further from 0 */

/* What lent words and bytes are before a call. No call here has it for an answer. */
#define BEFORE 99

/* Sheet A as document 01 has it, as the writer has it, the lower quantity first, and its key. */
static const char sheet[] = "quantities=3\nhidden=2\nrules=3\nrule=+1+2:5\nrule=+1-2:2\nrule=+3-2:0\n";
static const char written[] = "quantities=3\nhidden=2\nrules=3\nrule=+1+2:5\nrule=+1-2:2\nrule=-2+3:0\n";
static const char key[] = "quantities=3\nhidden=2\nrules=2\nrule=+1:3\nrule=+1+3:5\n";

/* The tables of both, a line for each quantity. */
static const int64_t sheet_table[WORDS] = {
    NONE, NONE,
    NONE, NONE, 5, 2, NONE, NONE,
    NONE, NONE, NONE, NONE, NONE, NONE, NONE, NONE, 0, NONE,
};
static const int64_t key_table[WORDS] = {
    3, NONE,
    NONE, NONE, NONE, NONE, NONE, NONE,
    NONE, NONE, 5, NONE, NONE, NONE, NONE, NONE, NONE, NONE,
};

/* The tightest table of sheet A with nothing hidden: +1:3, +1+2:5, +1-2:2, +1+3:5, -2+3:0. */
static const int64_t tight_table[WORDS] = {
    3, NONE,
    NONE, NONE, 5, 2, NONE, NONE,
    NONE, NONE, 5, NONE, NONE, NONE, NONE, NONE, 0, NONE,
};

/* The scripts of document 01 that are loose, tight, and both too wide and too narrow: +1:3; +1:2, +1+3:5; +1:2. */
static const int64_t wide_table[WORDS] = {
    3, NONE,
    NONE, NONE, NONE, NONE, NONE, NONE,
    NONE, NONE, NONE, NONE, NONE, NONE, NONE, NONE, NONE, NONE,
};
static const int64_t narrow_table[WORDS] = {
    2, NONE,
    NONE, NONE, NONE, NONE, NONE, NONE,
    NONE, NONE, 5, NONE, NONE, NONE, NONE, NONE, NONE, NONE,
};
static const int64_t crossed_table[WORDS] = {
    2, NONE,
    NONE, NONE, NONE, NONE, NONE, NONE,
    NONE, NONE, NONE, NONE, NONE, NONE, NONE, NONE, NONE, NONE,
};

/* What is lent. */
static int64_t table[LARGEST];
static int64_t workspace[LARGEST];
static int64_t values[LARGEST];
static uint8_t out[ACORNSLED_TEXT_BYTES];
static size_t quantities;
static uint32_t hidden;
static size_t value;
static int64_t rule[ACORNSLED_RULE_WORDS];
static uint32_t paper;
static uint64_t answers;

static unsigned calls;

static void holds(int met, const char *what)
{
    if (!met) {
        fprintf(stderr, "calls: not so: %s\n", what);
        exit(1);
    }
}

/* The call that has just been made answered this number, and wrote the value. */
static void due(const char *call, uint32_t number, uint32_t number_due, size_t value_due)
{
    if (number != number_due || value != value_due) {
        fprintf(stderr, "calls: %s: %" PRIu32 " with value %zu, due %" PRIu32 " with value %zu\n", call, number, value,
                number_due, value_due);
        exit(1);
    }
    calls++;
    value = BEFORE;
}

static void fill(int64_t *words)
{
    for (size_t at = 0; at < LARGEST; at++) {
        words[at] = BEFORE;
    }
}

/* Are the words from this one on as they were before the call? */
static int kept(const int64_t *words, size_t from)
{
    while (from < LARGEST && words[from] == BEFORE) {
        from++;
    }
    return from == LARGEST;
}

/* Lends what is as before, but for the table, which begins with these words. */
static void lend(const int64_t *words, size_t length)
{
    fill(table);
    fill(workspace);
    fill(values);
    memset(out, BEFORE, sizeof out);
    quantities = BEFORE;
    hidden = BEFORE;
    value = BEFORE;
    paper = BEFORE;
    answers = BEFORE;
    rule[0] = rule[1] = rule[2] = BEFORE;
    if (length > 0) {
        memcpy(table, words, length * sizeof *words);
    }
}

/* Does the table hold these words of sheet A, and is the rest of it as before? */
static int held(const int64_t *words)
{
    return memcmp(table, words, WORDS * sizeof *words) == 0 && kept(table, WORDS);
}

/* Is this text written, and the byte behind it as before? */
static int wrote(const char *text)
{
    return memcmp(out, text, strlen(text)) == 0 && out[strlen(text)] == BEFORE;
}

static void reading(void)
{
    const uint8_t *text = (const uint8_t *)sheet;
    lend(NULL, 0);
    due("read", acornsled_read(text, strlen(sheet), table, WORDS - 1, &quantities, &hidden, &value), ACORNSLED_TOO_SHORT,
        WORDS);
    holds(kept(table, 0) && quantities == BEFORE && hidden == BEFORE, "a refused reading changes nothing");
    due("read", acornsled_read(text, strlen(sheet), table, LARGEST, &quantities, &hidden, &value), ACORNSLED_DONE, 0);
    holds(quantities == N && hidden == HIDDEN, "sheet A has three quantities, the second hidden");
    holds(held(sheet_table), "sheet A's table is read");
}

/* A text that the reader refuses, with its number and its line. */
static void refused(const char *text, uint32_t number, size_t line)
{
    const uint8_t *bytes = (const uint8_t *)text;
    lend(NULL, 0);
    due(text, acornsled_read(bytes, strlen(text), table, LARGEST, &quantities, &hidden, &value), number, line);
    holds(kept(table, 0) && quantities == BEFORE && hidden == BEFORE, "a refused text changes nothing");
}

/* The same with a number put in. */
static void refused_with(const char *text, int put, uint32_t number, size_t line)
{
    char whole[100];
    snprintf(whole, sizeof whole, text, put);
    refused(whole, number, line);
}

static void refusals(void)
{
    refused("", ACORNSLED_MALFORMED, 1);
    refused("quantities=3\nhidden=2\nrules=1\nrule=+1:3\nrule=+1:3\n", ACORNSLED_MALFORMED, 5);
    refused("quantities=3\nhidden=2\nrules=1\nrule=+3-3:5\n", ACORNSLED_CANCELLING, 4);
    refused_with("quantities=%d\nhidden=\nrules=0\n", ACORNSLED_MOST_QUANTITIES + 1, ACORNSLED_PAST_LIMIT, 1);
    refused_with("quantities=3\nhidden=\nrules=%d\n", ACORNSLED_MOST_RULES + 1, ACORNSLED_PAST_LIMIT, 3);
    refused_with("quantities=3\nhidden=\nrules=1\nrule=+1:%d\n", ACORNSLED_MOST_BOUND + 1, ACORNSLED_PAST_LIMIT, 4);
    /* at the limits of rules and of bytes it is a line that is refused */
    refused_with("quantities=3\nhidden=\nrules=%d\n", ACORNSLED_MOST_RULES, ACORNSLED_MALFORMED, 4);
    lend(NULL, 0);
    due("read", acornsled_read(out, ACORNSLED_MOST_BYTES, table, LARGEST, &quantities, &hidden, &value),
        ACORNSLED_MALFORMED, 1);
    due("read", acornsled_read(out, ACORNSLED_MOST_BYTES + 1, table, LARGEST, &quantities, &hidden, &value),
        ACORNSLED_SIZE, 0);
}

/* A bank sheet of these lines after the first two is accepted, and the writer writes it again. */
static void banked(const char *rules)
{
    char text[200];
    snprintf(text, sizeof text, "quantities=3\nhidden=2\n%s", rules);
    lend(NULL, 0);
    due(text, acornsled_bank_read((const uint8_t *)text, strlen(text), table, LARGEST, &quantities, &hidden, &value),
        ACORNSLED_DONE, 0);
    holds(quantities == N && hidden == HIDDEN && kept(table, WORDS), "a bank sheet's n and hidden set are read");
    due(text, acornsled_write(N, HIDDEN, table, WORDS, out, sizeof out, &value), ACORNSLED_DONE, strlen(text));
    holds(wrote(text), "an accepted bank sheet is what the writer writes");
}

/* A bank sheet of these lines after the first two is refused, with its number and its line; all but `value` stays. */
static void bank_refused(const char *rules, uint32_t number, size_t line)
{
    char text[200];
    snprintf(text, sizeof text, "quantities=3\nhidden=2\n%s", rules);
    lend(NULL, 0);
    due(text, acornsled_bank_read((const uint8_t *)text, strlen(text), table, LARGEST, &quantities, &hidden, &value), number,
        line);
    holds(kept(table, 0) && quantities == BEFORE && hidden == BEFORE, "a refused bank sheet changes nothing");
}

/* 9, and the numbers that come before it or after it. */
static void banking_order(void)
{
    bank_refused("rules=1\nrule=+1+1:7\n", ACORNSLED_NOT_CANONICAL, 4);
    bank_refused("rules=1\nrule=-3-3:7\n", ACORNSLED_NOT_CANONICAL, 4);
    bank_refused("rules=1\nrule=+2+1:7\n", ACORNSLED_NOT_CANONICAL, 4);
    /* a place twice, with any bound, also where it is not that of the line before; the order is that of places */
    bank_refused("rules=2\nrule=+1+2:5\nrule=+1+2:5\n", ACORNSLED_NOT_CANONICAL, 5);
    bank_refused("rules=2\nrule=+1+2:5\nrule=+1+2:4\n", ACORNSLED_NOT_CANONICAL, 5);
    bank_refused("rules=3\nrule=+1:5\nrule=+2:5\nrule=+1:5\n", ACORNSLED_NOT_CANONICAL, 6);
    bank_refused("rules=3\nrule=+1:5\nrule=+2:5\nrule=-1:5\n", ACORNSLED_NOT_CANONICAL, 6);
    bank_refused("rules=2\nrule=+1+2:5\nrule=+2:5\n", ACORNSLED_NOT_CANONICAL, 5);
    bank_refused("rules=2\nrule=-1+2:5\nrule=+1-2:5\n", ACORNSLED_NOT_CANONICAL, 5);
    bank_refused("rules=2\nrule=+1+3:5\nrule=-2:5\n", ACORNSLED_NOT_CANONICAL, 5);
    /* 2, 3 and 4 before 9 on one line */
    bank_refused("rules=1\nrule=+2+1:07\n", ACORNSLED_MALFORMED, 4);
    bank_refused("rules=1\nrule=+2+1:1000000001\n", ACORNSLED_PAST_LIMIT, 4);
    bank_refused("rules=1\nrule=+1-1:0\n", ACORNSLED_CANCELLING, 4);
    bank_refused("rules=2\nrule=+3:0\nrule=-2+2:0\n", ACORNSLED_CANCELLING, 5);
    /* the line that fails ends the reading */
    bank_refused("rules=3\nrule=+1:0\nrule=+2+1:0\nrule=\n", ACORNSLED_NOT_CANONICAL, 5);
    bank_refused("rules=2\nrule=+1:0\nrule=+1:0\nrule=+1:0\n", ACORNSLED_NOT_CANONICAL, 5);
    bank_refused("rules=3\nrule=+1:0\nrule=+4:0\nrule=+1:0\n", ACORNSLED_PAST_LIMIT, 5);
    bank_refused("rules=1\nrule=+1:0\nrule=+1:0\n", ACORNSLED_MALFORMED, 5);
    bank_refused("rules=2\nrule=+1:0\n", ACORNSLED_MALFORMED, 5);
}

/* Document 02, request 5: sheet A is no bank sheet as document 01 has it, and is one as the writer has it. */
static void banking(void)
{
    const uint8_t *text = (const uint8_t *)sheet, *bank = (const uint8_t *)written;
    lend(NULL, 0);
    due("bank_read", acornsled_bank_read(text, strlen(sheet), table, 0, &quantities, &hidden, &value),
        ACORNSLED_NOT_CANONICAL, 6);
    due("bank_read", acornsled_bank_read(bank, strlen(written), table, WORDS - 1, &quantities, &hidden, &value),
        ACORNSLED_TOO_SHORT, WORDS);
    due("bank_read", acornsled_bank_read(out, ACORNSLED_MOST_BYTES + 1, table, 0, &quantities, &hidden, &value),
        ACORNSLED_SIZE, 0);
    due("bank_read", acornsled_bank_read(out, ACORNSLED_MOST_BYTES, table, 0, &quantities, &hidden, &value),
        ACORNSLED_MALFORMED, 1);
    holds(kept(table, 0) && quantities == BEFORE && hidden == BEFORE, "a refused bank reading changes nothing");
    due("bank_read", acornsled_bank_read(bank, strlen(written), table, LARGEST, &quantities, &hidden, &value),
        ACORNSLED_DONE, 0);
    holds(quantities == N && hidden == HIDDEN && held(sheet_table), "sheet A is read by the bank");

    banked("rules=0\n");
    banked("rules=1\nrule=-2-3:-1000000000\n");
    banked("rules=3\nrule=+1+2:5\nrule=+1-2:2\nrule=-2+3:0\n");
    banked("rules=4\nrule=+1-2:1\nrule=-1+2:1\nrule=+3:1\nrule=+1+3:1\n");
    banking_order();
}

static void assigning(void)
{
    static const int64_t half[] = {0, -1}; /* 2x is at most 1 and -2x at most -1 */

    lend(sheet_table, WORDS);
    due("assignment", acornsled_assignment(N, table, WORDS - 1, workspace, WORDS, values, N, &value), ACORNSLED_SIZE, 0);
    due("assignment", acornsled_assignment(N, table, WORDS, workspace, WORDS - 1, values, N - 1, &value),
        ACORNSLED_TOO_SHORT, WORDS);
    due("assignment", acornsled_assignment(N, table, WORDS, workspace, WORDS, values, N - 1, &value),
        ACORNSLED_TOO_SHORT, N);
    holds(kept(workspace, 0) && kept(values, 0), "a refused assignment changes nothing");
    due("assignment", acornsled_assignment(N, table, LARGEST, workspace, LARGEST, values, LARGEST, &value),
        ACORNSLED_DONE, 0);
    for (size_t at = 0; at < N; at++) {
        holds(-WIDEST <= values[at] && values[at] <= WIDEST, "the integers are from -2^62 to 2^62");
    }
    /* as sums of two that are 2^62 from 0 they might wrap */
    holds(values[0] <= 5 - values[1] && values[0] <= 2 + values[1] && values[2] <= values[1],
          "the integers satisfy sheet A");
    holds(held(sheet_table) && kept(workspace, WORDS) && kept(values, N), "all else stays");

    lend(half, 2);
    due("assignment", acornsled_assignment(1, table, 2, workspace, 2, values, 1, &value), ACORNSLED_NO_ASSIGNMENT, 0);
    holds(kept(workspace, 2) && kept(values, 0), "no assignment is written where there is none");
    due("key", acornsled_key(1, 0, table, 2, workspace, 2, &value), ACORNSLED_NO_ASSIGNMENT, 0);
    due("tight_key", acornsled_tight_key(1, 0, table, 2, workspace, 2, &value), ACORNSLED_NO_ASSIGNMENT, 0);
    holds(memcmp(table, half, sizeof half) == 0 && kept(table, 2), "a table without an assignment stays");
}

static void keying(void)
{
    int64_t bound[] = {ACORNSLED_MOST_BOUND, NONE};

    lend(sheet_table, WORDS);
    due("key", acornsled_key(N, HIDDEN, table, WORDS - 1, workspace, WORDS, &value), ACORNSLED_SIZE, 0);
    due("key", acornsled_key(ACORNSLED_MOST_QUANTITIES + 1, 0, table, LARGEST, workspace, LARGEST, &value),
        ACORNSLED_SIZE, 0);
    due("key", acornsled_key(N, HIDDEN, table, WORDS, workspace, WORDS - 1, &value), ACORNSLED_TOO_SHORT, WORDS);
    due("key", acornsled_key(N, 1 << N, table, WORDS, workspace, WORDS, &value), ACORNSLED_PAST_LIMIT, 0);
    holds(held(sheet_table) && kept(workspace, 0), "a refused key changes nothing");
    due("key", acornsled_key(N, HIDDEN, table, LARGEST, workspace, LARGEST, &value), ACORNSLED_DONE, 0);
    holds(held(key_table) && kept(workspace, WORDS), "sheet A's table becomes its key");

    lend(bound, 2);
    due("key", acornsled_key(1, 0, table, 2, workspace, 2, &value), ACORNSLED_DONE, 0);
    bound[0]++;
    lend(bound, 2);
    due("key", acornsled_key(1, 0, table, 2, workspace, 2, &value), ACORNSLED_PAST_LIMIT, 0);
}

/* Document 02, request 2: sheet A's tightest key is its key, and another sheet's bounds are past a script's. */
static void keying_tight(void)
{
    enum { TWO = 8 }; /* the words of two quantities */
    int64_t bound[] = {ACORNSLED_MOST_BOUND + 1, NONE};
    const int64_t most = ACORNSLED_MOST_BOUND;
    const int64_t chain[TWO] = {most, NONE, NONE, NONE, NONE, NONE, most, NONE};                /* +1, -1+2 */
    const int64_t tightest[TWO] = {most, NONE, 2 * most, NONE, 3 * most, NONE, most, NONE}; /* and +2, +1+2 */

    lend(sheet_table, WORDS);
    due("tight_key", acornsled_tight_key(N, HIDDEN, table, WORDS - 1, workspace, WORDS, &value), ACORNSLED_SIZE, 0);
    due("tight_key", acornsled_tight_key(ACORNSLED_MOST_QUANTITIES + 1, 0, table, LARGEST, workspace, LARGEST, &value),
        ACORNSLED_SIZE, 0);
    due("tight_key", acornsled_tight_key(N, HIDDEN, table, WORDS, workspace, WORDS - 1, &value), ACORNSLED_TOO_SHORT, WORDS);
    due("tight_key", acornsled_tight_key(N, 1 << N, table, WORDS, workspace, WORDS, &value), ACORNSLED_PAST_LIMIT, 0);
    holds(held(sheet_table) && kept(workspace, 0), "a refused tight key changes nothing");
    due("tight_key", acornsled_tight_key(N, HIDDEN, table, LARGEST, workspace, LARGEST, &value), ACORNSLED_DONE, 0);
    holds(held(key_table) && kept(workspace, WORDS), "sheet A's table becomes its tightest key");
    due("tight_key", acornsled_tight_key(N, HIDDEN, table, LARGEST, workspace, LARGEST, &value), ACORNSLED_DONE, 0);
    holds(held(key_table), "a tightest key is its own");

    lend(chain, TWO);
    due("tight_key", acornsled_tight_key(2, 0, table, TWO, workspace, TWO, &value), ACORNSLED_DONE, 0);
    holds(memcmp(table, tightest, sizeof tightest) == 0 && kept(table, TWO), "least bounds may be past every limit");
    lend(bound, 2);
    due("tight_key", acornsled_tight_key(1, 0, table, 2, workspace, 2, &value), ACORNSLED_PAST_LIMIT, 0);
}

/* Sheet A in the middle of the step that hides quantity 2, with so many blocks done. */
static void stepped(size_t blocks, const int64_t *words_due)
{
    lend(sheet_table, WORDS);
    due("step", acornsled_step(N, 0, 2, blocks, table, LARGEST, workspace, LARGEST, &value), ACORNSLED_DONE, 0);
    holds(held(words_due), "the words of sheet A in the middle of a hiding step");
    holds(kept(workspace, WORDS), "a step leaves what is past its workspace");
}

/* A step on sheet A that is refused. */
static void step_refused(size_t n, uint32_t before, size_t quantity, size_t blocks, size_t table_words,
                         size_t workspace_words, uint32_t number, size_t value_due)
{
    lend(sheet_table, WORDS);
    due("step", acornsled_step(n, before, quantity, blocks, table, table_words, workspace, workspace_words, &value), number,
        value_due);
    holds(held(sheet_table) && kept(workspace, 0), "a refused step changes nothing");
}

/* Document 02, request 4: a hiding step of sheet A block by block, and one after another. */
static void stepping(void)
{
    enum { TWO = 8 }; /* the words of two quantities */
    /* +1+1:7, halved, is of the first block, +1+3:5 of the third; no sum is of the second */
    static const int64_t first_done[WORDS] = {
        3, NONE,
        NONE, NONE, 5, 2, NONE, NONE,
        NONE, NONE, NONE, NONE, NONE, NONE, NONE, NONE, 0, NONE,
    };
    static const int64_t all_done[WORDS] = {
        3, NONE,
        NONE, NONE, 5, 2, NONE, NONE,
        NONE, NONE, 5, NONE, NONE, NONE, NONE, NONE, 0, NONE,
    };
    static const int64_t none[] = {0, -1};                                                   /* +1:0 and -1:-1 */
    static const int64_t past[] = {ACORNSLED_MOST_BOUND + 1, NONE};                          /* +1 */
    static const int64_t chain[TWO] = {NONE, 4, NONE, NONE, 1, NONE, NONE, NONE};            /* -1:4, +1+2:1 */
    static const int64_t added[TWO] = {NONE, NONE, 5, NONE, NONE, NONE, NONE, NONE};         /* +2:5 */
    static const int64_t nothing[TWO] = {NONE, NONE, NONE, NONE, NONE, NONE, NONE, NONE};

    stepped(0, sheet_table);
    stepped(1, first_done);
    stepped(2, first_done);
    stepped(3, all_done);
    stepped(4, key_table);

    /* a quantity that is hidden before has nothing left to be added */
    lend(sheet_table, WORDS);
    due("step", acornsled_step(N, HIDDEN, 2, N, table, WORDS, workspace, WORDS, &value), ACORNSLED_DONE, 0);
    holds(held(key_table), "quantity 2 is hidden once");
    lend(chain, TWO);
    due("step", acornsled_step(2, 1, 2, 0, table, TWO, workspace, TWO, &value), ACORNSLED_DONE, 0);
    holds(memcmp(table, added, sizeof added) == 0 && kept(table, TWO), "quantity 1 is hidden before quantity 2");
    lend(chain, TWO);
    due("step", acornsled_step(2, 1, 2, 3, table, TWO, workspace, TWO, &value), ACORNSLED_DONE, 0);
    holds(memcmp(table, nothing, sizeof nothing) == 0, "then quantity 2 is hidden as well");

    step_refused(0, 0, 1, 0, LARGEST, LARGEST, ACORNSLED_SIZE, 0);
    step_refused(ACORNSLED_MOST_QUANTITIES + 1, 0, 1, 0, LARGEST, LARGEST, ACORNSLED_SIZE, 0);
    step_refused(N, 0, 2, 0, WORDS - 1, 0, ACORNSLED_SIZE, 0);
    step_refused(N, 1 << N, 0, N + 2, WORDS, WORDS - 1, ACORNSLED_TOO_SHORT, WORDS);
    step_refused(N, 1 << N, 2, 0, WORDS, WORDS, ACORNSLED_PAST_LIMIT, 0);
    step_refused(N, 0, 0, 0, WORDS, WORDS, ACORNSLED_PAST_LIMIT, 0);
    step_refused(N, 0, N + 1, 0, WORDS, WORDS, ACORNSLED_PAST_LIMIT, 0);
    step_refused(N, 0, 2, N + 2, WORDS, WORDS, ACORNSLED_PAST_LIMIT, 0);
    step_refused(N, 0, SIZE_MAX, 0, WORDS, WORDS, ACORNSLED_PAST_LIMIT, 0);
    step_refused(N, 0, 2, SIZE_MAX, WORDS, WORDS, ACORNSLED_PAST_LIMIT, 0);
    lend(past, 2);
    due("step", acornsled_step(1, 0, 1, 0, table, 2, workspace, 2, &value), ACORNSLED_PAST_LIMIT, 0);
    /* 3 before 5, which comes also where nothing of the step is done */
    lend(none, 2);
    due("step", acornsled_step(1, 0, 2, 0, table, 2, workspace, 2, &value), ACORNSLED_PAST_LIMIT, 0);
    holds(kept(workspace, 0), "a refused step changes nothing");
    due("step", acornsled_step(1, 0, 1, 0, table, 2, workspace, LARGEST, &value), ACORNSLED_NO_ASSIGNMENT, 0);
    holds(memcmp(table, none, sizeof none) == 0 && kept(table, 2) && kept(workspace, 2), "a table without an assignment stays");
}

/* Puts questions of so many words to sheet A, with so many words of workspace. The answers are BEFORE where they stay. */
static void asked(const int64_t *questions, size_t words, size_t workspace_words, uint32_t number, size_t value_due,
                  uint64_t answers_due)
{
    lend(sheet_table, WORDS);
    due("ask", acornsled_ask(N, table, LARGEST, questions, words, workspace, workspace_words, &answers, &value), number,
        value_due);
    holds(answers == answers_due, "the answers to questions");
    holds(held(sheet_table), "asking leaves the table");
    if (number == ACORNSLED_DONE) {
        holds(memcmp(workspace, tight_table, sizeof tight_table) == 0 && kept(workspace, WORDS),
              "the workspace becomes the tightest table");
    } else {
        holds(kept(workspace, 0), "a refused list changes nothing");
    }
}

/* One question to sheet A. */
static void question(int64_t first, int64_t second, int64_t bound, uint32_t number, uint64_t answers_due)
{
    const int64_t words[ACORNSLED_RULE_WORDS] = {first, second, bound};
    asked(words, ACORNSLED_RULE_WORDS, WORDS, number, 0, answers_due);
}

/* A list of so many questions +1:2 to sheet A, the last of which is +1:3: no to all but that. */
static void asking_many(size_t count, size_t workspace_words, uint32_t number, size_t value_due, uint64_t answers_due)
{
    static int64_t list[ACORNSLED_QUESTIONS_WORDS + ACORNSLED_RULE_WORDS];
    for (size_t at = 0; at < count; at++) {
        list[3 * at] = 1;
        list[3 * at + 1] = 0;
        list[3 * at + 2] = at + 1 == count ? 3 : 2;
    }
    asked(list, count * ACORNSLED_RULE_WORDS, workspace_words, number, value_due, answers_due);
}

/* Document 02, request 3: questions to sheet A, then to a sheet that nothing satisfies. */
static void asking(void)
{
    static const int64_t ten[] = {
        1, 0, 3, 1, 0, 2, 1, 1, 7, 1, 1, 6, 1, 1, 5, 1, 3, 5, 3, 1, 5, 1, 3, 4,
        -1, 0, ACORNSLED_MOST_BOUND, 3, 0, ACORNSLED_MOST_BOUND,
        /* no whole question */ 0, 0,
    };
    static const int64_t both[] = {1, -1, 0, 1, 0, ACORNSLED_MOST_BOUND + 1};
    static const int64_t none[] = {0, -1}; /* +1:0 and -1:-1 */
    static const int64_t cancelling[] = {1, -1, 0}, plain_question[] = {1, 0, 0};

    asked(ten, sizeof ten / sizeof *ten, LARGEST, ACORNSLED_DONE, 0, 0x6d);
    question(1, 0, 3, ACORNSLED_DONE, 1);
    question(1, 0, 2, ACORNSLED_DONE, 0);
    question(-2, 3, 0, ACORNSLED_DONE, 1);
    question(3, -2, -1, ACORNSLED_DONE, 0);
    asking_many(ACORNSLED_MOST_QUESTIONS, WORDS, ACORNSLED_DONE, 0, UINT64_C(1) << 63);
    asking_many(ACORNSLED_MOST_QUESTIONS, WORDS - 1, ACORNSLED_TOO_SHORT, WORDS, BEFORE);
    asking_many(ACORNSLED_MOST_QUESTIONS + 1, 0, ACORNSLED_LIST_SIZE, 0, BEFORE);
    asked(ten, 2, 0, ACORNSLED_LIST_SIZE, 0, BEFORE);
    /* a first quantity that is none, quantities past n, a bound past the limit as it is written */
    question(0, 0, 3, ACORNSLED_PAST_LIMIT, BEFORE);
    question(N + 1, 0, 3, ACORNSLED_PAST_LIMIT, BEFORE);
    question(1, -N - 1, 3, ACORNSLED_PAST_LIMIT, BEFORE);
    question(1, 1, 2 * ACORNSLED_MOST_BOUND, ACORNSLED_PAST_LIMIT, BEFORE);
    asked(both, 6, WORDS, ACORNSLED_PAST_LIMIT, 0, BEFORE);
    asked(both, 3, WORDS, ACORNSLED_CANCELLING, 0, BEFORE);

    lend(none, 2);
    due("ask", acornsled_ask(0, table, 2, cancelling, 3, workspace, 2, &answers, &value), ACORNSLED_SIZE, 0);
    due("ask", acornsled_ask(1, table, 1, cancelling, 0, workspace, 0, &answers, &value), ACORNSLED_SIZE, 0);
    due("ask", acornsled_ask(1, table, 2, cancelling, 3, workspace, 2, &answers, &value), ACORNSLED_CANCELLING, 0);
    holds(kept(workspace, 0), "a refused list changes nothing");
    due("ask", acornsled_ask(1, table, 2, plain_question, 3, workspace, LARGEST, &answers, &value),
        ACORNSLED_NO_ASSIGNMENT, 0);
    holds(answers == BEFORE && kept(workspace, 2) && memcmp(table, none, sizeof none) == 0 && kept(table, 2),
          "a sheet that nothing satisfies answers nothing");
}

static void writing(void)
{
    size_t length = strlen(key);
    lend(key_table, WORDS);
    due("write", acornsled_write(N, HIDDEN, table, WORDS - 1, out, sizeof out, &value), ACORNSLED_SIZE, 0);
    due("write", acornsled_write(N, 1 << N, table, WORDS, out, sizeof out, &value), ACORNSLED_PAST_LIMIT, 0);
    due("write", acornsled_write(N, HIDDEN, table, WORDS, out, length - 1, &value), ACORNSLED_TOO_SHORT, length);
    holds(wrote(""), "a refused writing changes nothing");
    due("write", acornsled_write(N, HIDDEN, table, LARGEST, out, sizeof out, &value), ACORNSLED_DONE, length);
    holds(wrote(key), "sheet A's key is written");

    lend(sheet_table, WORDS);
    due("write", acornsled_write(N, HIDDEN, table, WORDS, out, strlen(written), &value), ACORNSLED_DONE, strlen(written));
    holds(wrote(written), "sheet A is written");
}

/* Marks a script against a paper. No value is written. */
static void marked_against(const char *paper_text, const char *script, uint32_t number)
{
    const uint8_t *text = (const uint8_t *)paper_text;
    due("mark", acornsled_mark(text, strlen(paper_text), (const uint8_t *)script, strlen(script)), number, BEFORE);
}

/* Against sheet A. */
static void marked(const char *script, uint32_t number)
{
    marked_against(sheet, script, number);
}

static void marking(void)
{
    lend(NULL, 0);
    marked("quantities=3\nhidden=2\nrules=2\nrule=+1+1:7\nrule=+1+3:5\n", ACORNSLED_EQUAL);
    marked("quantities=3\nhidden=2\nrules=1\nrule=+1:3\n", ACORNSLED_LOOSE);
    marked("quantities=3\nhidden=2\nrules=2\nrule=+1:2\nrule=+1+3:5\n", ACORNSLED_TIGHT);
    marked(sheet, ACORNSLED_MISMATCH);
}

/* Document 02, request 1: bounds of a script past a sheet's limit, in the range of the script's own header. */
static void marking_large(void)
{
    const char *chain = "quantities=3\nhidden=2\nrules=2\nrule=+1-2:1000000000\nrule=+2-3:1000000000\n";
    const char *hides = "1,2,3,4,5,6,7,8,9,10,11,12,13,14,15,16,17,18,19,20,21,22,23,24,25,26,27,28,29,30,31";
    char none[200], script[200];

    lend(NULL, 0);
    marked_against(chain, "quantities=3\nhidden=2\nrules=1\nrule=+1-3:2000000000\n", ACORNSLED_EQUAL);
    marked_against(chain, "quantities=3\nhidden=2\nrules=1\nrule=+1-3:2000000001\n", ACORNSLED_PAST_LIMIT);
    marked_against(chain, "quantities=3\nhidden=2\nrules=1\nrule=+1-3:1999999999\n", ACORNSLED_TIGHT);
    marked_against(chain, "quantities=3\nhidden=\nrules=1\nrule=+1-3:2000000000\n", ACORNSLED_PAST_LIMIT);
    marked_against(chain, "quantities=3\nhidden=1,2\nrules=1\nrule=+3:4000000000\n", ACORNSLED_MISMATCH);
    marked_against(chain, "quantities=3\nhidden=1,2\nrules=1\nrule=+3:4000000001\n", ACORNSLED_PAST_LIMIT);
    marked_against(chain, "quantities=3\nhidden=1,2\nrules=1\nrule=+3-3:4000000000\n", ACORNSLED_CANCELLING);
    snprintf(none, sizeof none, "quantities=32\nhidden=%s\nrules=0\n", hides);
    snprintf(script, sizeof script, "quantities=32\nhidden=%s\nrules=1\nrule=+32:2147483648000000000\n", hides);
    marked_against(none, script, ACORNSLED_TIGHT);
    snprintf(script, sizeof script, "quantities=32\nhidden=%s\nrules=1\nrule=+32:2147483648000000001\n", hides);
    marked_against(none, script, ACORNSLED_PAST_LIMIT);
}

/* Marks a script against sheet A with the reasons: the paper and the value, then n and the rule, BEFORE where they stay. */
static void reasoned(const char *script, size_t words, uint32_t number, uint32_t paper_due, size_t value_due, size_t n,
                     const int64_t *rule_due)
{
    lend(NULL, 0);
    uint32_t answer = acornsled_mark_texts((const uint8_t *)sheet, strlen(sheet), (const uint8_t *)script, strlen(script),
                                           values, words, &quantities, rule, &paper, &value);
    due(script, answer, number, value_due);
    holds(paper == paper_due && quantities == n, "the paper of a refusal, and the n of a verdict");
    holds(memcmp(rule, rule_due, sizeof rule) == 0, "the rule of loose and tight");
    holds(kept(values, answer == ACORNSLED_LOOSE || answer == ACORNSLED_TIGHT ? N : 0), "other words stay");
}

static void reasoning(void)
{
    static const int64_t none[] = {BEFORE, BEFORE, BEFORE}, sum[] = {1, 3, 5}, low[] = {1, 0, 2};
    const char *loose = "quantities=3\nhidden=2\nrules=1\nrule=+1:3\n";

    reasoned("quantities=3\nhidden=2\nrules=2\nrule=+1+1:7\nrule=+1+3:5\n", N, ACORNSLED_EQUAL, ACORNSLED_NO_PAPER, 0,
             N, none);
    reasoned(loose, LARGEST, ACORNSLED_LOOSE, ACORNSLED_NO_PAPER, 0, N, sum);
    holds(values[0] <= 3 && values[1] == 0 && values[0] > 5 - values[2], "the integers of loose break its rule alone");
    reasoned("quantities=3\nhidden=2\nrules=2\nrule=+1:2\nrule=+1+3:5\n", N, ACORNSLED_TIGHT, ACORNSLED_NO_PAPER, 0, N,
             low);
    holds(values[0] > 2 && values[0] <= 5 - values[1] && values[0] <= 2 + values[1] && values[2] <= values[1],
          "the integers of tight satisfy sheet A and break the script's rule");
    reasoned(loose, N - 1, ACORNSLED_TOO_SHORT, ACORNSLED_BOTH, N, BEFORE, none);
    reasoned("quantities=3\nhidden=2\nrules=1\nrule=+3-3:5\n", 0, ACORNSLED_CANCELLING, ACORNSLED_SCRIPT, 4, BEFORE, none);
    reasoned(sheet, N, ACORNSLED_MISMATCH, ACORNSLED_BOTH, 0, BEFORE, none);
    lend(NULL, 0);
    due("mark_texts", acornsled_mark_texts(out, 0, out, 0, values, N, &quantities, rule, &paper, &value),
        ACORNSLED_MALFORMED, 1);
    holds(paper == ACORNSLED_SHEET, "the sheet is refused first");
}

/* Marks a script's table against the one that is lent, over n quantities. The rule is BEFORE where it stays. */
static void tabled(size_t n, uint32_t set, const int64_t *script, uint32_t number, const int64_t *rule_due)
{
    size_t words = 2 * n * n;
    uint32_t answer = acornsled_mark_tables(n, set, table, words, script, words, workspace, LARGEST, values, LARGEST, rule,
                                            &value);
    due("mark_tables", answer, number, 0);
    holds(memcmp(rule, rule_due, sizeof rule) == 0, "the rule of loose and tight");
    holds(kept(values, answer == ACORNSLED_LOOSE || answer == ACORNSLED_TIGHT ? n : 0), "no word past the integers changes");
    holds(kept(table, words) && kept(workspace, 2 * words), "other words stay");
}

/* One refusal of marking tables, all else being fine: n, the hidden set, how many words are lent, and the script. */
static void tables_refused(size_t n, uint32_t set, const int64_t *script, size_t script_words, size_t workspace_words,
                           size_t values_words, uint32_t number, size_t value_due)
{
    due("mark_tables", acornsled_mark_tables(n, set, table, WORDS, script, script_words, workspace, workspace_words, values,
                                             values_words, rule, &value),
        number, value_due);
    holds(rule[0] == BEFORE && rule[1] == BEFORE && rule[2] == BEFORE && kept(workspace, 0) && kept(values, 0),
          "marking tables that is refused changes nothing");
}

static void refusing_tables(void)
{
    lend(sheet_table, WORDS);
    tables_refused(0, 0, key_table, WORDS, 2 * WORDS, N, ACORNSLED_SIZE, 0);
    tables_refused(N, HIDDEN, key_table, WORDS - 1, 0, 0, ACORNSLED_SIZE, 0);
    tables_refused(N, HIDDEN, key_table, WORDS, 2 * WORDS - 1, 0, ACORNSLED_TOO_SHORT, 2 * WORDS);
    tables_refused(N, 1 << N, key_table, WORDS, 2 * WORDS, N - 1, ACORNSLED_TOO_SHORT, N);
    tables_refused(N, 1 << N, sheet_table, WORDS, 2 * WORDS, N, ACORNSLED_PAST_LIMIT, 0);
    tables_refused(N, HIDDEN, sheet_table, WORDS, 2 * WORDS, N, ACORNSLED_MISMATCH, 0);
    holds(held(sheet_table), "the sheet's table stays");
}

static void marking_tables(void)
{
    static const int64_t half[] = {0, -1}, all[] = {NONE, NONE}; /* the first is satisfied by nothing, the second by all */
    static const int64_t none[] = {BEFORE, BEFORE, BEFORE}, sum[] = {1, 3, 5}, low[] = {1, 0, 2}, zero[] = {0, 0, 0};

    refusing_tables();
    /* +1+1:7 is the same in a table as +1:3 */
    lend(sheet_table, WORDS);
    tabled(N, HIDDEN, key_table, ACORNSLED_EQUAL, none);
    tabled(N, HIDDEN, wide_table, ACORNSLED_LOOSE, sum);
    holds(values[0] <= 3 && values[1] == 0 && values[0] > 5 - values[2], "the integers of loose break its rule alone");
    lend(sheet_table, WORDS);
    tabled(N, HIDDEN, narrow_table, ACORNSLED_TIGHT, low);
    holds(values[0] > 2 && values[0] <= 5 - values[1] && values[0] <= 2 + values[1] && values[2] <= values[1],
          "the integers of tight satisfy sheet A and break the script's rule");
    lend(sheet_table, WORDS);
    tabled(N, HIDDEN, crossed_table, ACORNSLED_LOOSE, sum);
    holds(values[0] <= 2 && values[1] == 0 && values[0] > 5 - values[2], "the script that is both is loose");
    holds(held(sheet_table), "the sheet's table stays");
    /* a sheet that nothing satisfies is marked, and a loose verdict then has no rule */
    lend(half, 2);
    tabled(1, 0, half, ACORNSLED_EQUAL, none);
    tabled(1, 0, all, ACORNSLED_LOOSE, zero);
}

int main(void)
{
    reading();
    refusals();
    banking();
    assigning();
    keying();
    keying_tight();
    stepping();
    asking();
    writing();
    marking();
    marking_large();
    reasoning();
    marking_tables();
    return printf("calls: %u calls from C answered as is due\n", calls) < 0 || fflush(stdout) != 0;
}
