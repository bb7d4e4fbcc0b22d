/*
 * How much of the stack each call takes. A call is made on a thread of its own, whose stack is filled with one byte
 * beforehand, on papers of 32 quantities with a rule at every place that they may have; what is
 * counted is how far down the stack bytes have changed, the thread's own beginning included. Prints a line for each call,
 * and first one for a thread that calls nothing.
 */
#define _POSIX_C_SOURCE 200809L

#include "acornsled.h"

#include <pthread.h>
#include <stdio.h>
#include <stdlib.h>
#include <string.h>

#define N ACORNSLED_MOST_QUANTITIES
#define WORDS ACORNSLED_TABLE_WORDS
#define STACK (1 << 20)
#define FILLED 0xA5

static uint8_t stack[STACK] __attribute__((aligned(4096)));
static int64_t table[WORDS], script_table[WORDS], workspace[ACORNSLED_MARKING_WORDS], values[N];
static char sheet[ACORNSLED_MOST_BYTES], script[ACORNSLED_MOST_BYTES];
static uint8_t out[ACORNSLED_TEXT_BYTES];
static size_t sheet_length, script_length, quantities, value;
static uint32_t hidden, paper_of, answer;
static int64_t rule[ACORNSLED_RULE_WORDS], questions[ACORNSLED_QUESTIONS_WORDS];
static uint64_t answers;

static void *call_nothing(void *unused)
{
    return unused;
}

static void *call_read(void *unused)
{
    answer = acornsled_read((uint8_t *)sheet, sheet_length, table, WORDS, &quantities, &hidden, &value);
    return unused;
}

/* The sheet has its rules in place order, and is a bank sheet as well. */
static void *call_bank_read(void *unused)
{
    answer = acornsled_bank_read((uint8_t *)sheet, sheet_length, table, WORDS, &quantities, &hidden, &value);
    return unused;
}

static void *call_write(void *unused)
{
    answer = acornsled_write(N, hidden, table, WORDS, out, sizeof out, &value);
    return unused;
}

static void *call_assignment(void *unused)
{
    answer = acornsled_assignment(N, table, WORDS, workspace, WORDS, values, N, &value);
    return unused;
}

static void *call_key(void *unused)
{
    answer = acornsled_key(N, hidden, table, WORDS, workspace, WORDS, &value);
    return unused;
}

static void *call_tight_key(void *unused)
{
    answer = acornsled_tight_key(N, hidden, table, WORDS, workspace, WORDS, &value);
    return unused;
}

static void *call_step(void *unused)
{
    answer = acornsled_step(N, hidden, N, N + 1, table, WORDS, workspace, WORDS, &value);
    return unused;
}

static void *call_ask(void *unused)
{
    answer = acornsled_ask(N, table, WORDS, questions, ACORNSLED_QUESTIONS_WORDS, workspace, WORDS, &answers, &value);
    return unused;
}

static void *call_mark(void *unused)
{
    answer = acornsled_mark((uint8_t *)sheet, sheet_length, (uint8_t *)script, script_length);
    return unused;
}

static void *call_mark_texts(void *unused)
{
    answer = acornsled_mark_texts((uint8_t *)sheet, sheet_length, (uint8_t *)script, script_length, values, N,
                                  &quantities, rule, &paper_of, &value);
    return unused;
}

static void *call_mark_tables(void *unused)
{
    answer = acornsled_mark_tables(N, hidden, table, WORDS, script_table, WORDS, workspace, ACORNSLED_MARKING_WORDS, values,
                                   N, rule, &value);
    return unused;
}

/* How many bytes down the stack a thread with this call writes. */
static size_t taken(void *(*call)(void *))
{
    pthread_attr_t attributes;
    pthread_t thread;
    memset(stack, FILLED, STACK);
    if (pthread_attr_init(&attributes) != 0 || pthread_attr_setstack(&attributes, stack, STACK) != 0 ||
        pthread_create(&thread, &attributes, call, NULL) != 0 || pthread_join(thread, NULL) != 0) {
        fputs("stack: no thread\n", stderr);
        exit(2);
    }
    pthread_attr_destroy(&attributes);
    size_t untouched = 0;
    while (untouched < STACK && stack[untouched] == FILLED) {
        untouched++;
    }
    return STACK - untouched;
}

/* Writes the rules of one paper, of every `step`-th quantity, and answers their end; counts them. */
static char *rules_of(char *at, int step, int bound, int *count)
{
    for (int q = step; q <= N; q += step) {
        at += sprintf(at, "rule=+%d:%d\nrule=-%d:%d\n", q, bound, q, bound);
        *count += 2;
        for (int p = step; p < q; p += step) {
            at += sprintf(at, "rule=+%d+%d:%d\nrule=+%d-%d:%d\n", p, q, bound, p, q, bound);
            at += sprintf(at, "rule=-%d+%d:%d\nrule=-%d-%d:%d\n", p, q, bound, p, q, bound);
            *count += 4;
        }
    }
    return at;
}

/* Writes a paper on which the odd quantities are hidden; answers its length. */
static size_t paper(char *text, int step, int bound)
{
    static char rules[ACORNSLED_MOST_BYTES];
    int count = 0;
    *rules_of(rules, step, bound, &count) = '\0';
    char *at = text + sprintf(text, "quantities=%d\nhidden=1", N);
    for (int q = 3; q <= N; q += 2) {
        at += sprintf(at, ",%d", q);
    }
    return (size_t)(at + sprintf(at, "\nrules=%d\n%s", count, rules) - text);
}

/* Makes the call and prints what it took; its answer must be the one that is due, for a refusal takes less. */
static void measure(const char *name, void *(*call)(void *), uint32_t due)
{
    size_t bytes = taken(call);
    if (answer != due) {
        fprintf(stderr, "stack: %s answered %u\n", name, (unsigned)answer);
        exit(1);
    }
    printf("stack: %s took %zu bytes\n", name, bytes);
}

int main(void)
{
    sheet_length = paper(sheet, 1, 1000);
    script_length = paper(script, 2, 999);
    measure("a thread alone", call_nothing, ACORNSLED_DONE);
    measure("acornsled_read", call_read, ACORNSLED_DONE);
    measure("acornsled_bank_read", call_bank_read, ACORNSLED_DONE);
    measure("acornsled_write", call_write, ACORNSLED_DONE);
    measure("acornsled_assignment", call_assignment, ACORNSLED_DONE);
    for (int at = 0; at < ACORNSLED_MOST_QUESTIONS; at++) {
        questions[3 * at] = at % N + 1;
        questions[3 * at + 1] = at < N ? 0 : -((at + 1) % N + 1);
        questions[3 * at + 2] = 1000;
    }
    measure("acornsled_ask", call_ask, ACORNSLED_DONE);
    measure("acornsled_key", call_key, ACORNSLED_DONE);
    /* the sheet's table has become the key */
    acornsled_read((uint8_t *)sheet, sheet_length, table, WORDS, &quantities, &hidden, &value);
    measure("acornsled_tight_key", call_tight_key, ACORNSLED_DONE);
    /* and again, also below */
    acornsled_read((uint8_t *)sheet, sheet_length, table, WORDS, &quantities, &hidden, &value);
    measure("acornsled_step", call_step, ACORNSLED_DONE);
    measure("acornsled_mark", call_mark, ACORNSLED_TIGHT);
    measure("acornsled_mark_texts", call_mark_texts, ACORNSLED_TIGHT);
    acornsled_read((uint8_t *)sheet, sheet_length, table, WORDS, &quantities, &hidden, &value);
    acornsled_read((uint8_t *)script, script_length, script_table, WORDS, &quantities, &hidden, &value);
    measure("acornsled_mark_tables", call_mark_tables, ACORNSLED_TIGHT);
    return 0;
}
