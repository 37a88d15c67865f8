/* The plan lister, for C: what the static library libexports.a exports.
 *
 * A slice passes as a pointer and a length in elements. Every pointer is to be
 * valid for its length and not null, also at length 0. Slices that are written
 * (answer, offsets, rows, scratch, out) must not overlap each other or what is
 * read. The functions keep nothing between calls and allocate no memory, so they
 * may be called from several threads at once. They take every text, number and
 * length there is, and always return. 2 MiB of stack are enough, as measured.
 *
 * A refusal is a number, 1 to 20, and a place, a byte offset in the text from 0;
 * README.md has what each number means. docs/CALLING.md shows how to call. */
#ifndef PLANS_H
#define PLANS_H

#include <stddef.h>
#include <stdint.h>

#ifdef __cplusplus
extern "C" {
#endif

enum {
    PLANS_MOST_BYTES = 2048,     /* of a text; a longer one is refused with 1 */
    PLANS_MOST_FUNCTIONS = 16,   /* of a text: places for offsets */
    PLANS_SCRATCH_WORDS = 16384, /* that list is to be lent */
    PLANS_ROW_WORDS = 10,        /* result, count of values, eight values */
    PLANS_CHECK_WORDS = 2,       /* of the answers */
    PLANS_REMARKS_WORDS = 3,
    PLANS_LIST_WORDS = 5,
    PLANS_WRITE_WORDS = 3,
    PLANS_PAGE_ROWS = 58,        /* of a page, at most */
    PLANS_PAGE_BYTES = 4860,     /* of a page: 60 lines of 80 characters and LF */
    PLANS_HOUSE_BYTES = 131072   /* enough for the house style of any rule */
};

/* How a search ended: the third word of list's answer. A page that is not the
 * last one of its sheet says nothing of it. */
enum { PLANS_WHOLE = 0, PLANS_CUT = 1, PLANS_FULL = 2, PLANS_SPENT = 3, PLANS_UNSAID = 4 };

/* Is the text a rule?
 * answer[0] is 0 if it is accepted, else the number of the refusal; answer[1] is
 * the place, 0 if it is accepted. Further words keep their content. An answer
 * of fewer than two words is left as it is. */
void plans_check(const uint8_t *text, size_t text_length,
                 uint32_t *answer, size_t answer_length);

/* Which functions does nothing call?
 * answer[0] and answer[1] as for check; under 16 places for offsets are refused
 * with 15 before the text is looked at. answer[2] is the count of functions but
 * main that no chain of calls leads to from main, 0 after a refusal. The offsets
 * of their names, in ascending order, are the first places of offsets; other
 * places keep their content, after a refusal all. With an answer of fewer than
 * three words nothing is written anywhere. */
void plans_remarks(const uint8_t *text, size_t text_length,
                   uint16_t *offsets, size_t offsets_length,
                   uint32_t *answer, size_t answer_length);

/* The plans of a rule.
 * Its free numbers are tried from low to high, those with a pair of their own in
 * that pair, each run within the given steps.
 * Of the plan list the first `skip` rows are left out and the next ones written,
 * as many as rows has whole tens of words. The search stops when it has made
 * `budget` moves.
 *
 * answer[0] and answer[1] as for check, with 11 for under 16,384 words of
 * scratch, 12 for low above high, 13 for over 4,096 numbers, 14 for steps 0 or
 * over 1,000, in this order and before the text is looked at. After a refusal the other
 * words are 0, and rows and scratch are left as they were. Else
 * answer[2] is the ending:
 *   whole: the search has ended, and these are all rows after the skipped ones;
 *   cut:   the search has ended, but some choice ran past a limit (the steps,
 *          eight free numbers, 32 calls within each other), and rows that
 *          need more are missing;
 *   full:  there is a row more than there was room for;
 *   spent: the budget is made and the search has not ended; the rows are the
 *          first ones;
 * answer[3] is the count of rows written, answer[4] that of the moves made. A
 * row is ten words: the result, the count of values (0 to 8), the values in the
 * order in which the rule reaches them, zeros. Words after the last row keep
 * their content. Scratch is left all zero, whatever it held. With an answer of
 * fewer than five words nothing is written anywhere. */
void plans_list(const uint8_t *text, size_t text_length,
                int32_t low, int32_t high, uint32_t steps,
                uint32_t skip, uint32_t budget,
                int32_t *rows, size_t rows_length,
                uint32_t *scratch, size_t scratch_length,
                uint32_t *answer, size_t answer_length);

/* One page of a sheet for the wall.
 * Line 1 has the words `plan list` and the page number in 5 columns (of one over
 * 99,999 the last five digits). Lines 2 to 59 have the rows in the whole tens of
 * words that rows has, the first 58 of them: the result in 12 columns, then the
 * values in columns of 8, all right-aligned; a value of over 8 characters, a
 * minus counted, is shown as ########. A count of values below 0 is taken as 0,
 * one above 8 as 8. Line 60 has the word of the ending, 0 to 3; with any other
 * number it is blank. Each line is filled with blanks to 80 characters and ended
 * by LF.
 *
 * The page is the first 4,860 bytes of out; the bytes after it keep their
 * content. With fewer bytes nothing is written. */
void plans_page(const int32_t *rows, size_t rows_length,
                uint32_t page, uint32_t ending,
                uint8_t *out, size_t out_length);

/* A rule in house style.
 * answer[0] and answer[1] as for check; then 20, at 0, if out is too short for
 * the whole. answer[2] is the length written, 0 after a refusal. The rule in
 * house style, which may have more than 2,048 bytes, is at the front of out; the
 * bytes after it keep their content, after a refusal all. With an answer of
 * fewer than three words nothing is written anywhere. */
void plans_write(const uint8_t *text, size_t text_length,
                 uint8_t *out, size_t out_length,
                 uint32_t *answer, size_t answer_length);

#ifdef __cplusplus
}
#endif

#endif
