/*
 * The calls of the static library libacornsled.a, for hosts in C and C++.
 *
 * A slice is lent as a pointer and a length in its own elements, bytes or words. No pointer is null, also not that of an
 * empty slice. The host passes true lengths, and a slice or a single word that a call may change overlaps nothing else that
 * the call is given. A call asks nothing further: bad input is answered with a number. No call keeps anything, and any
 * number of threads may call at once.
 *
 * A table over n quantities has 2n^2 words, one for each term in place order; ACORNSLED_NO_RULE means that there is no
 * rule. Place order goes quantity by quantity: for q first +q, -q, then for each p below q, from 1 on, +p+q, +p-q, -p+q,
 * -p-q. The block of q begins at word 2(q - 1)^2, counted from 0: that of 3 begins at word 8, and +1+3 is word 10.
 *
 * Bit q - 1 of a hidden set stands for quantity q. Words and bytes past those named are never changed.
 */
#ifndef ACORNSLED_H
#define ACORNSLED_H

#include <stddef.h>
#include <stdint.h>

/* The version of this header and of the library that it is installed with. */
#define ACORNSLED_VERSION_MAJOR 0
#define ACORNSLED_VERSION_MINOR 1
#define ACORNSLED_VERSION_PATCH 0
#define ACORNSLED_VERSION "0.1.0"

/*
 * The limits of a sheet. Its bounds are from -ACORNSLED_MOST_BOUND to ACORNSLED_MOST_BOUND, as they are written, a doubled term
 * too. A script's other limits are the same; for its bounds ACORNSLED_MOST_BOUND is doubled once for each quantity that is
 * hidden, in a text by its own hidden list. The bounds of acornsled_key's key are never past that: handed in as the script of
 * its sheet, it is equal. Those of acornsled_tight_key's may be; where none is, that is equal too. acornsled_read,
 * acornsled_bank_read, acornsled_key, acornsled_tight_key, acornsled_step, acornsled_assignment and acornsled_ask hold what they
 * are given to a sheet's limits, so that a key may be past them (3); acornsled_write writes any bound.
 */
#define ACORNSLED_MOST_QUANTITIES 32
#define ACORNSLED_MOST_BOUND INT64_C(1000000000)
#define ACORNSLED_MOST_RULES 2048
#define ACORNSLED_MOST_BYTES 65536
#define ACORNSLED_NO_RULE INT64_MAX

/* The most questions that can be put to a sheet in one call. */
#define ACORNSLED_MOST_QUESTIONS 64

/* Lengths that are enough for every sheet: words of a table, and of a workspace for a key, for a hiding step, for an assignment
 * and for questions; words of a workspace for marking two tables; bytes of a text written, words of an assignment, words of a
 * rule or of a question, words of the longest list of questions. */
#define ACORNSLED_TABLE_WORDS 2048
#define ACORNSLED_MARKING_WORDS 4096
#define ACORNSLED_TEXT_BYTES 67703
#define ACORNSLED_VALUES_WORDS ACORNSLED_MOST_QUANTITIES
#define ACORNSLED_RULE_WORDS 3
#define ACORNSLED_QUESTIONS_WORDS (ACORNSLED_MOST_QUESTIONS * ACORNSLED_RULE_WORDS)

/* The answers. 0 is the answer of a call on one paper that is not refused, and the last three are verdicts. */
enum {
    ACORNSLED_DONE = 0,
    ACORNSLED_SIZE = 1,          /* a call's n outside 1 to 32, a table shorter than 2n^2 words, a text over 65,536 bytes */
    ACORNSLED_MALFORMED = 2,     /* a line of a text is malformed or missing, or bytes follow the last rule */
    ACORNSLED_PAST_LIMIT = 3,    /* a number is outside its limit, in a text, a hidden set, a table, a question or a step */
    ACORNSLED_CANCELLING = 4,    /* a rule of a text, or a question, is +q-q or -q+q */
    ACORNSLED_NO_ASSIGNMENT = 5, /* no integers satisfy the table */
    ACORNSLED_TOO_SHORT = 6,     /* what is lent to be written to is too short */
    ACORNSLED_MISMATCH = 7,      /* the script has another n or hidden list, or a rule that names a hidden quantity */
    ACORNSLED_LIST_SIZE = 8,     /* the list of questions is empty or has more than 64 */
    ACORNSLED_NOT_CANONICAL = 9, /* a bank sheet's rule is doubled, has its higher quantity first, or is out of place order */
    ACORNSLED_EQUAL = 100,       /* the script allows what the sheet allows */
    ACORNSLED_LOOSE = 101,       /* it allows something that the sheet does not, whatever it forbids */
    ACORNSLED_TIGHT = 102        /* it only forbids more */
};

/* The paper that a refusal of acornsled_mark_texts is about. */
enum {
    ACORNSLED_NO_PAPER = 0, /* with a verdict */
    ACORNSLED_SHEET = 1,
    ACORNSLED_SCRIPT = 2,
    ACORNSLED_BOTH = 3 /* with 6 and 7 */
};

#ifdef __cplusplus
extern "C" {
#endif

/*
 * The first eight calls write to `value` what stands beside their number: with 2, 3 and 4 of a text, and with 9, the line, with
 * 6 the length needed, with 0 of acornsled_write the text's length, and 0 with all others. A refusal changes nothing else, but 5
 * leaves the first 2n^2 words of the workspace free.
 */

/*
 * Reads the text of a sheet: 0, or 1, 2, 3, 4, 6. With 0 the table's first 2n^2 words hold the text's rules, and `quantities`
 * and `hidden` its n and its hidden set. ACORNSLED_TABLE_WORDS are enough for every text.
 */
uint32_t acornsled_read(const uint8_t *text, size_t text_length, int64_t *table, size_t table_length,
                        size_t *quantities, uint32_t *hidden, size_t *value);

/*
 * Reads the text of a bank sheet, a sheet whose rules stand in place order, each place once, the lower quantity first and no
 * term doubled: 0, or 1, 2, 3, 4, 6, 9. With 0 all is as after acornsled_read. So each table has one text: what acornsled_write
 * writes of a table whose bounds are in a sheet's limits is accepted, and gives n, the hidden set and the table back; and every
 * text that is accepted is, byte for byte, what acornsled_write writes of what was read.
 *
 * 1 comes first, for the size, then the lines from the first, and the line that fails ends the reading. On the line of a rule 2,
 * 3 and 4 are those of acornsled_read, and 9 comes after them: for a doubled term, as +1+1, for the higher quantity first, as
 * +3-2, and for a place that is not after that of the rule before it. So a 9 at line 5 is told before a 2 at line 6. 6 comes
 * last.
 */
uint32_t acornsled_bank_read(const uint8_t *text, size_t text_length, int64_t *table, size_t table_length,
                             size_t *quantities, uint32_t *hidden, size_t *value);

/*
 * Writes a table and a hidden set as a text: 0, or 1, 3, 6; 3 is for the set alone, a bound may be any word. With 0 the first
 * `value` bytes of `out` are the text.
 * ACORNSLED_TEXT_BYTES are enough for every table.
 */
uint32_t acornsled_write(size_t n, uint32_t hidden, const int64_t *table, size_t table_length, uint8_t *out,
                         size_t out_length, size_t *value);

/*
 * Makes the plain key of a sheet, by document 01's steps: 0, or 1, 3, 5, 6. The workspace needs 2n^2 words. With 0 the table's
 * first 2n^2 words have become the key, and the workspace's are free. The call takes some 19 KiB of the stack.
 */
uint32_t acornsled_key(size_t n, uint32_t hidden, int64_t *table, size_t table_length, int64_t *workspace,
                       size_t workspace_length, size_t *value);

/*
 * Makes the tightest key of a sheet: 0, or 1, 3, 5, 6, each as acornsled_key answers it, with the same workspace. With 0 the
 * table's first 2n^2 words have become that key: a term has a rule exactly when it is of visible quantities and some bound on
 * it is met by all integers that satisfy the sheet, and the rule has the least such bound. Two sheets with one n and one
 * hidden set that are answered 0 get the same words exactly when they allow the same visible integers. Given to the call again
 * with the same n and hidden set, the key stays as it is where its bounds are in a sheet's limits; where one is not, that is 3.
 * The program key prints this key; marking takes the rule of a loose verdict from the one that acornsled_key makes.
 */
uint32_t acornsled_tight_key(size_t n, uint32_t hidden, int64_t *table, size_t table_length, int64_t *workspace,
                             size_t workspace_length, size_t *value);

/*
 * Makes the table as it stands at a point of a hiding step of document 01: 0, or 1, 3, 5, 6, with the workspace of
 * acornsled_key. The quantities of the set `before` are hidden first, as acornsled_key hides them. Then the step that hides
 * `quantity`, from 1 to n, is begun, and done on its first `blocks` blocks, from 0 to n + 1. The block of q begins at word
 * 2(q - 1)^2 and ends before word 2q^2. The work on it puts in every sum that has its place there, of a rule with +quantity and
 * a rule with -quantity, by minimum, and changes no word outside of it: each word of it that does not name `quantity` is then as
 * the whole step leaves it. Words that name `quantity` stay until all blocks are done. With n blocks all sums are in, and with
 * n + 1 these words have become ACORNSLED_NO_RULE too: the step is at its end. Where `quantity` is higher than all of `before`,
 * that is acornsled_key's key with `quantity` and those of `before` hidden.
 *
 * 1 comes first, then 6, 3 for a set, a bound, a `quantity` or a number of `blocks` outside its limits, and 5. With 0 the table's
 * first 2n^2 words have become that table, and the workspace's are free. The next table is had from the sheet's again, and not
 * from this one.
 */
uint32_t acornsled_step(size_t n, uint32_t before, size_t quantity, size_t blocks, int64_t *table, size_t table_length,
                        int64_t *workspace, size_t workspace_length, size_t *value);

/*
 * Finds an assignment of a sheet: 0, or 1, 3, 5, 6. The workspace needs 2n^2 words and `values` n. With 0 the first n words of
 * `values` are integers from -2^62 to 2^62 that satisfy the table, and the workspace's first 2n^2 words are free.
 */
uint32_t acornsled_assignment(size_t n, const int64_t *table, size_t table_length, int64_t *workspace,
                              size_t workspace_length, int64_t *values, size_t values_length, size_t *value);

/*
 * Puts up to 64 questions to a sheet: 0, or 1, 3, 4, 5, 6, 8. A question is a rule, as three words: two quantity numbers with
 * their signs, +q as q and -q as -q, in either order, the second 0 where there is none, and the bound. It is taken as written:
 * 1, 1, 7 asks whether twice quantity 1 is at most 7. Three words of `questions` make a question, and one or two that are left
 * at its end are not looked at. The answer is yes exactly when all integers that satisfy the table meet the question; no
 * quantity is taken as hidden. With 0 bit i of `answers` is the answer to the question with i others before it, 1 for yes, and
 * the bits that stand for no question are 0; a refusal leaves `answers` as it was.
 *
 * The workspace needs 2n^2 words. With 0 its first 2n^2 words have become the tightest table of the sheet, as
 * acornsled_tight_key makes it where nothing is hidden, from which all answers are taken. Table and questions are only read.
 *
 * 1 comes first, then 8 for a list of no question or of more than 64, 6 for the workspace, 3 for a bound of the table or for
 * any question outside a sheet's limits, as is one whose first quantity is 0, 4 for any question +q-q or -q+q, and 5: a 3 of
 * the last question is told before a 4 of the first.
 */
uint32_t acornsled_ask(size_t n, const int64_t *table, size_t table_length, const int64_t *questions,
                       size_t questions_length, int64_t *workspace, size_t workspace_length, uint64_t *answers,
                       size_t *value);

/*
 * Marks a script against a sheet, both as texts: 100, 101 or 102, or the refusal's number alone, 1, 2, 3, 4 or 7. The sheet
 * is read first, then the script, then the two are held against each other. Nothing but the texts is lent and nothing is
 * changed; the call takes some 68 KiB of the stack.
 */
uint32_t acornsled_mark(const uint8_t *sheet, size_t sheet_length, const uint8_t *script, size_t script_length);

/*
 * Marks the same way and gives the reasons: 100, 101 or 102, or 1, 2, 3, 4, 6, 7. 6 comes where both texts are fine and
 * `values` has fewer words than the sheet's n; it is checked before 7.
 *
 * A refusal writes to `paper` which paper it is about, and to `value` the line with 2, 3 and 4 and the length needed with 6, 0
 * with 1 and 7; a verdict writes 0 to both. A verdict writes the sheet's n to `quantities`.
 *
 * Loose and tight write a rule to `rule`: for loose the first rule of acornsled_key's key, by place, that something which the
 * script allows breaks; for tight the first rule of the script's table that something which satisfies the sheet breaks. Its
 * words are two quantity numbers with their signs, +q as q and -q as -q, the lower quantity first, and the bound; a rule of one
 * quantity has 0 for the second. Where the sheet itself allows nothing a loose verdict has no rule, and all three words are 0.
 *
 * Loose and tight also write to the first n words of `values` integers from -2^62 to 2^62 that show the verdict and break the
 * rule: for loose the script allows the visible ones, no hidden values complete them, and the hidden words are 0; for tight all
 * of them together satisfy the sheet, and the script forbids the visible ones. Nothing else is changed. The call takes some
 * 68 KiB of the stack.
 */
uint32_t acornsled_mark_texts(const uint8_t *sheet, size_t sheet_length, const uint8_t *script, size_t script_length,
                              int64_t *values, size_t values_length, size_t *quantities,
                              int64_t rule[ACORNSLED_RULE_WORDS], uint32_t *paper, size_t *value);

/*
 * Marks a script against a sheet, both as tables over n quantities with one hidden set: 100, 101 or 102, or 1, 3, 6, 7. The
 * workspace needs 4n^2 words and `values` n. 1 comes for n and for either table, then 6 for the workspace, 6 for `values`, 3
 * for the hidden set and for a bound past the limit of its paper, which for the script is the sheet's, doubled for each
 * quantity of the set, and 7 where a rule of the script names a hidden quantity. 5 is no answer: a sheet that nothing
 * satisfies is marked.
 *
 * `value` gets the length needed with 6 and 0 with all others. Loose and tight write the rule to `rule` and the integers that
 * show the verdict to the first n words of `values`, both as acornsled_mark_texts does. A verdict leaves the first 4n^2 words
 * of the workspace free; a refusal changes nothing but `value`.
 */
uint32_t acornsled_mark_tables(size_t n, uint32_t hidden, const int64_t *sheet, size_t sheet_length, const int64_t *script,
                               size_t script_length, int64_t *workspace, size_t workspace_length, int64_t *values,
                               size_t values_length, int64_t rule[ACORNSLED_RULE_WORDS], size_t *value);

#ifdef __cplusplus
}
#endif

#endif
