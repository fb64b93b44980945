/* The repair library for scripts: plain numbers and buffers that the caller lends.
 *
 * A stripe is rows (shelves) by columns (modules) of symbols, one byte each, row after row. Rows and columns count from 0. A row's
 * marks are one 64-bit word, whatever the plan, bit c for column c; a set bit says that the symbol there is lost. The library finds
 * lost symbols from the others: first inside a row, then across rows. README.md tells it with a picture, and explains the words.
 *
 * What a caller keeps to, and no call can test:
 *   - A buffer is a pointer and then its length in elements (bytes, or mark words). The length is true: so much can be read and,
 *     where the pointer is not const, written.
 *   - No pointer is null, not even with length 0, and two buffers of one call do not overlap.
 *   - Mark words are uint64_t. Scripts written before plan 5 had words of 32 bits: README.md says what they must change.
 * All else is tested. Every call ends and answers, for any numbers, any bytes and any lengths; it keeps no buffer, allocates
 * nothing and prints nothing. Calls share nothing, so any number of them may run side by side, each on buffers of its own.
 *
 * A number of 10 or more is a refusal: every buffer is then as it was, with one exception: a refused shelf_start fills a bench
 * buffer of the right length with zeros, and every step on that bench is then refused by 10.
 *
 * No answer and no other byte depends on the byte under a mark, except that a file must hold 0 there. */
#ifndef SHELF_H
#define SHELF_H

#include <stddef.h>
#include <stdint.h>

#ifdef __cplusplus
extern "C" {
#endif

/* ---- plans ----
 *
 *     plan  rows  columns  symbols below  stripe bytes  mark words  data bytes  file bytes  levels  any losses restored
 *        1     3        7              2            21           3          15          41       2                    3
 *        2     8       32              2           256           8         198         296       3                    7
 *        3     8       15             16           120           8          98         160       3                    7
 *        4    12       24            256           288          12         253         344       3                    9
 *        5     8       64              2           512           8         444         584       3                    7
 *
 * In plan 4 every byte is a symbol. A number that is not in the table is refused by 10.
 */
#define SHELF_PLAN_1_ROWS 3
#define SHELF_PLAN_1_COLUMNS 7
#define SHELF_PLAN_1_BELOW 2
#define SHELF_PLAN_1_STRIPE 21
#define SHELF_PLAN_1_MARKS 3
#define SHELF_PLAN_1_DATA 15
#define SHELF_PLAN_1_FILE 41
#define SHELF_PLAN_1_LEVELS 2

#define SHELF_PLAN_2_ROWS 8
#define SHELF_PLAN_2_COLUMNS 32
#define SHELF_PLAN_2_BELOW 2
#define SHELF_PLAN_2_STRIPE 256
#define SHELF_PLAN_2_MARKS 8
#define SHELF_PLAN_2_DATA 198
#define SHELF_PLAN_2_FILE 296
#define SHELF_PLAN_2_LEVELS 3

#define SHELF_PLAN_3_ROWS 8
#define SHELF_PLAN_3_COLUMNS 15
#define SHELF_PLAN_3_BELOW 16
#define SHELF_PLAN_3_STRIPE 120
#define SHELF_PLAN_3_MARKS 8
#define SHELF_PLAN_3_DATA 98
#define SHELF_PLAN_3_FILE 160
#define SHELF_PLAN_3_LEVELS 3

#define SHELF_PLAN_4_ROWS 12
#define SHELF_PLAN_4_COLUMNS 24
#define SHELF_PLAN_4_BELOW 256
#define SHELF_PLAN_4_STRIPE 288
#define SHELF_PLAN_4_MARKS 12
#define SHELF_PLAN_4_DATA 253
#define SHELF_PLAN_4_FILE 344
#define SHELF_PLAN_4_LEVELS 3

#define SHELF_PLAN_5_ROWS 8
#define SHELF_PLAN_5_COLUMNS 64
#define SHELF_PLAN_5_BELOW 2
#define SHELF_PLAN_5_STRIPE 512
#define SHELF_PLAN_5_MARKS 8
#define SHELF_PLAN_5_DATA 444
#define SHELF_PLAN_5_FILE 584
#define SHELF_PLAN_5_LEVELS 3

/* Lengths of the buffers whose layout does not depend on the plan. */
#define SHELF_BENCH 838
#define SHELF_REPORT 8
#define SHELF_TEXT 640
#define SHELF_TEXT_SIZE 2

/* ---- numbers that are returned ---- */

#define SHELF_RESTORED 0         /* mending: every symbol is there, no mark is left */
#define SHELF_DONE 0             /* start, encoding, extraction, reading and writing a file */
#define SHELF_YES 0              /* the codeword test */
#define SHELF_STUCK 1            /* mending: some rows are left as they were, the others are restored */
#define SHELF_NO 1               /* the codeword test */
#define SHELF_CLASH 2            /* what is not marked contradicts itself: some unmarked symbol is wrong; nothing was changed */
#define SHELF_WHOLE 3            /* row step: the row has no marks, and its sums are the learned ones */
#define SHELF_FILLED 4           /* row step: the row's marked symbols were found, its marks are clear */
#define SHELF_TIED 5             /* row step: the row can be filled, but in more than one way at this level */
#define SHELF_RAISED 6           /* level step: the next level's sums were learned */
#define SHELF_BLOCKED 7          /* level step: too many rows have marks; there are such sums, but more than one choice of them */
#define SHELF_TOP 8              /* level step: the bench is at the plan's last level */

/* Refusals. The first that applies is returned, in the order 10, 11, 15, 12, 13, 14, 16 (but see the length of a bench below);
 * for a file that is read in the order 20 (shorter than 8 bytes), 10, 21, 20 (of a wrong length), 11, 12, 13, 22. */
#define SHELF_UNKNOWN_PLAN 10    /* there is no plan of this number */
#define SHELF_WRONG_LENGTH 11    /* a buffer's length is not the plan's */
#define SHELF_MARK_OUTSIDE 12    /* a mark at a column that the plan does not have: any set bit from its columns on, up to bit 63 */
#define SHELF_TOO_LARGE 13       /* an unmarked symbol, a data symbol, or a learned sum that is no symbol of the plan; never in plan 4 */
#define SHELF_NO_SUCH_ROW 14     /* a row step on a row that the plan does not have */
#define SHELF_NO_SUCH_LEVEL 15   /* a bench at no level of its plan */
#define SHELF_NO_CODEWORD 16     /* extraction from a stripe that is not a codeword */
#define SHELF_FILE_LENGTH 20     /* a file that is shorter than 8 bytes or not as long as its plan's */
#define SHELF_FILE_HEADER 21     /* a file header that disagrees with its plan, byte 3 too: the size of mark words */
#define SHELF_FILE_NOT_BLANK 22  /* a file with a byte other than 0 under a mark */

#define SHELF_IS_REFUSAL(number) ((number) >= 10)

/* ---- mending in one call ---- */

/* Mends a stripe: fills what the marks say is lost, as far as the plan can, and clears the marks of each row that was restored.
 *     0 Restored   every row is whole, all marks are clear
 *     1 Stuck      some rows are left, with their marks and bytes as they were; the others are restored. Each row that is left can
 *                  be filled in more than one way at the level reached: bring a module back, clear its marks, mend again
 *     2 Clash      stripe and marks are as they were. Some unmarked symbol is wrong, and no module that comes back helps before it
 *                  is found: mark it, mend again. A row of any number of marks is a Clash where nothing fills it
 *     10, 11, 12, 13   refused: the report is as it was too
 * Restored does not say that the unmarked symbols were right, nor Stuck that they agree with a codeword: what is wrong may show
 * only once more is known.
 *
 * The report, 8 bytes:
 *     0     level reached          5  place of a Clash: 0 none, 1 in a row, 2 across rows
 *     1     rows left              6  row of a Clash in a row
 *     2..4  rows restored at       7  level of a Clash
 *           levels 1, 2 and 3
 * After Restored and Stuck bytes 5 to 7 are 0; after a Clash bytes 0 to 4 are, and byte 6 of a Clash across rows.
 * The wrong symbol of a Clash in a row at level 1 stands in that row. At a higher level the row's sums were learned from the other
 * rows, so it may stand in any of these too. */
size_t shelf_mend(size_t plan, uint8_t *stripe, size_t stripe_length, uint64_t *marks, size_t marks_length,
                  uint8_t *report, size_t report_length);

/* Whether a stripe is a codeword, that is, whether all its checks hold: 0 yes, 1 no; or refused by 10, 11 or 13. It takes no
 * marks: every byte counts. */
size_t shelf_is_codeword(size_t plan, const uint8_t *stripe, size_t stripe_length);

/* Whether a stripe of 120 bytes is a codeword of plan 3, by the plan's interleaved form: 0 yes, 1 no; or refused by 11 or 13. It answers as
 * shelf_is_codeword does for plan 3, and takes no plan number. */
size_t shelf_is_interleaved(const uint8_t *stripe, size_t stripe_length);

/* ---- data in and out ---- */

/* Encodes data to a stripe: 0; or refused by 10, 11 or 13. What the stripe held is not read. */
size_t shelf_encode(size_t plan, const uint8_t *data, size_t data_length, uint8_t *stripe, size_t stripe_length);

/* Takes the data out of a stripe that is a codeword: 0; or refused by 10, 11, 13 or 16. What the data buffer held is not read.
 *
 * WARNING: extraction takes no marks. After Stuck the bytes under the marks that are left are whatever they were; should they make
 * a codeword by chance, extraction answers 0 with data that were never restored. Extract only after shelf_mend answered 0. */
size_t shelf_extract(size_t plan, const uint8_t *stripe, size_t stripe_length, uint8_t *data, size_t data_length);

/* ---- mending step by step ----
 *
 * A bench is 838 bytes that the caller keeps and may copy, with one stripe at work. The layout is the same for every plan:
 *     0         plan
 *     1         level t: the checks of levels 1 to t are in use
 *     2..513    symbols, row after row; those beyond the plan's are not used
 *     514..609  twelve mark words of 8 bytes, low byte first: row r's from 514 + 8 r on; those beyond the plan's rows are not used
 *     610..837  learned sums, row r's from 610 + 19 r on, in the order of the levels; those beyond the plan's are not used
 * A row's sums at a level are what its checks of that level add up to. At level 1 every row of a true stripe has sums 0. At a
 * higher level only the weighted totals over all rows are 0; a row's own sums must be learned there: a row without marks gives its
 * own, and those of rows with marks follow from the totals where few enough rows have marks. That is what a level step does. A row
 * step then finds the row's lost symbols from its checks and its learned sums. Where a codeword agrees with the stripe, the order of
 * steps does not matter: carried on until no step changes the bench, they end with the same bytes.
 *
 * A bench buffer of another length is refused by 11: by a step before anything else, by shelf_start after 10. */

/* Starts a bench at level 1 with the stripe and the marks as they are, zeros elsewhere: 0; or refused by 10, 11, 12 or 13, with zeros
 * all over the bench. */
size_t shelf_start(size_t plan, const uint8_t *stripe, size_t stripe_length, const uint64_t *marks, size_t marks_length,
                   uint8_t *bench, size_t bench_length);

/* The row step. Only Filled changes the bench.
 *     3 Whole    the row has no marks, and its sums are the learned ones
 *     4 Filled   one filling alone gives the learned sums: it is in place, the marks are clear
 *     5 Tied     several fillings give them. Go on with the other rows and the level step; the row's turn comes again at the next
 *                level, or once some of its symbols are put in and their marks cleared
 *     2 Clash    no filling gives them, whatever the number of marks. Stop: some unmarked symbol is wrong
 *     11, 10, 15, 12, 13, 14   refused */
size_t shelf_row_step(uint8_t *bench, size_t bench_length, size_t row);

/* The level step. Only Raised changes the bench.
 *     6 Raised    the sums of the next level are learned: step on all rows again
 *     7 Blocked   sums that make all totals of the next level zero there are, but more than one choice of them: too many rows have
 *                 marks. Stop until one of these rows has its symbols back. Where the totals fail the answer is never Blocked
 *     8 Top       there is no further level. Rows that still have marks are stuck
 *     2 Clash     no sums make them zero. Stop: some unmarked symbol is wrong, in any row
 *     11, 10, 15, 12, 13   refused */
size_t shelf_level_step(uint8_t *bench, size_t bench_length);

/* ---- stripe files ----
 *
 *     0     plan                                4, 5  where the marks start, low byte first: always 8
 *     1, 2  rows, columns                       6, 7  where the symbols start, low byte first
 *     3     0: mark words of 4 bytes (plans 1 to 4); 1: of 8 bytes (plan 5)
 *     8..   a mark word for each row, low byte first; behind them the symbols, row after row, 0 at each marked place
 * The symbols start at 20, 40, 40, 56 and 72 in files of plans 1 to 5. Files of plans 1, 2 and 3 are what they were before mark
 * words in memory had 64 bits: every stored file is read as it was, and written with the same bytes. */

/* Reads a stripe file's stripe and marks: 0; or refused by 10, 11, 12, 13, 20, 21 or 22. The file's first byte is its plan, and
 * the two buffers have that plan's lengths. The marks are 64-bit words here too, whatever the size of the file's words. */
size_t shelf_read_file(const uint8_t *file, size_t file_length, uint8_t *stripe, size_t stripe_length,
                       uint64_t *marks, size_t marks_length);

/* Writes a stripe and its marks as a stripe file, with 0 at each marked place: 0; or refused by 10, 11, 12 or 13. */
size_t shelf_write_file(size_t plan, const uint8_t *stripe, size_t stripe_length, const uint64_t *marks, size_t marks_length,
                        uint8_t *file, size_t file_length);

/* Writes what the program `mend` prints for a file of any bytes: into text, 640 bytes, with zeros behind it; and how many bytes
 * it is into size, 2 bytes, low byte first. Returns 0, or 11 where one of these two buffers has another length. A symbol is a hex digit
 * and a mark `?`; in plan 4 two digits, the high one first, and `??`.
 *
 * WARNING: 0 says that the text was written, and not that the stripe was restored. It is 0 for a file that is Stuck or a Clash,
 * and for one that is refused, whose text is `refused` and the number. What became of the stripe stands in the text alone;
 * shelf_read_file and shelf_mend return it as a number. */
size_t shelf_text(const uint8_t *file, size_t file_length, uint8_t *text, size_t text_length, uint8_t *size, size_t size_length);

#ifdef __cplusplus
}
#endif

#endif
