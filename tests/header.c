/* Holds the numbers and lengths that shelf.h names to the library: each plan's buffers of the named lengths are taken, one byte more or
 * less is refused, and each named answer is given once. Prints what is otherwise, and how many calls it made. */
#include <stdio.h>
#include <string.h>

#include "shelf.h"

static size_t calls, wrong;

static void hold(const char *what, size_t answer, size_t expected) {
    calls++;
    if (answer == expected)
        return;
    wrong++;
    printf("%s: %zu, and the header says %zu\n", what, answer, expected);
}

/* Room for each plan's buffers, and one byte more. */
static uint8_t stripe[513], data[513], file[585], bench[SHELF_BENCH], report[SHELF_REPORT], text[SHELF_TEXT], size[SHELF_TEXT_SIZE];
static uint64_t marks[16];

static void blank(void) {
    memset(stripe, 0, sizeof stripe);
    memset(data, 0, sizeof data);
    memset(marks, 0, sizeof marks);
}

struct plan {
    size_t number, rows, columns, below, stripe, marks, data, file, levels;
};

/* Every length of a plan, right and one off; its symbols, columns, rows and levels at their limits. */
static void plan_is(struct plan p) {
    blank();
    hold("rows by columns", p.rows * p.columns, p.stripe);
    hold("encoding", shelf_encode(p.number, data, p.data, stripe, p.stripe), SHELF_DONE);
    hold("encoding, data too long", shelf_encode(p.number, data, p.data + 1, stripe, p.stripe), SHELF_WRONG_LENGTH);
    hold("encoding, stripe too short", shelf_encode(p.number, data, p.data, stripe, p.stripe - 1), SHELF_WRONG_LENGTH);
    data[0] = (uint8_t)(p.below - 1);
    hold("encoding, the largest symbol", shelf_encode(p.number, data, p.data, stripe, p.stripe), SHELF_DONE);
    if (p.below < 256) { /* of plan 4 every byte is a symbol */
        data[0] = (uint8_t)p.below;
        hold("encoding, a larger one", shelf_encode(p.number, data, p.data, stripe, p.stripe), SHELF_TOO_LARGE);
    }
    hold("extraction", shelf_extract(p.number, stripe, p.stripe, data, p.data), SHELF_DONE);
    hold("codeword test", shelf_is_codeword(p.number, stripe, p.stripe), SHELF_YES);
    hold("mending", shelf_mend(p.number, stripe, p.stripe, marks, p.marks, report, SHELF_REPORT), SHELF_RESTORED);
    hold("its level", report[0], p.levels);
    hold("mending, a word too many", shelf_mend(p.number, stripe, p.stripe, marks, p.marks + 1, report, SHELF_REPORT), SHELF_WRONG_LENGTH);
    hold("mending, another report", shelf_mend(p.number, stripe, p.stripe, marks, p.marks, report, SHELF_REPORT - 1), SHELF_WRONG_LENGTH);
    hold("writing", shelf_write_file(p.number, stripe, p.stripe, marks, p.marks, file, p.file), SHELF_DONE);
    hold("writing, a file too long", shelf_write_file(p.number, stripe, p.stripe, marks, p.marks, file, p.file + 1), SHELF_WRONG_LENGTH);
    hold("reading", shelf_read_file(file, p.file, stripe, p.stripe, marks, p.marks), SHELF_DONE);
    hold("reading, a file too short", shelf_read_file(file, p.file - 1, stripe, p.stripe, marks, p.marks), SHELF_FILE_LENGTH);
    hold("bytes of the words in a file", (p.file - 8 - p.stripe) / p.rows, p.columns > 32 ? 8 : 4);
    hold("byte 3 of the file", file[3], p.columns > 32);
    file[3] ^= 1;
    hold("another byte 3", shelf_read_file(file, p.file, stripe, p.stripe, marks, p.marks), SHELF_FILE_HEADER);
    hold("start", shelf_start(p.number, stripe, p.stripe, marks, p.marks, bench, SHELF_BENCH), SHELF_DONE);
    hold("start, another bench", shelf_start(p.number, stripe, p.stripe, marks, p.marks, bench, SHELF_BENCH - 1), SHELF_WRONG_LENGTH);
    hold("the last row", shelf_row_step(bench, SHELF_BENCH, p.rows - 1), SHELF_WHOLE);
    hold("one row more", shelf_row_step(bench, SHELF_BENCH, p.rows), SHELF_NO_SUCH_ROW);
    for (size_t level = 1; level < p.levels; level++)
        hold("a level step", shelf_level_step(bench, SHELF_BENCH), SHELF_RAISED);
    hold("at the last level", shelf_level_step(bench, SHELF_BENCH), SHELF_TOP);
    marks[0] = (uint64_t)1 << (p.columns - 1);
    hold("the last column", shelf_mend(p.number, stripe, p.stripe, marks, p.marks, report, SHELF_REPORT), SHELF_RESTORED);
    for (size_t column = p.columns; column < 64; column++) {
        marks[0] = (uint64_t)1 << column;
        hold("one column more", shelf_mend(p.number, stripe, p.stripe, marks, p.marks, report, SHELF_REPORT), SHELF_MARK_OUTSIDE);
    }
}

/* The other named answers, on plan 1. */
static void answers(void) {
    const size_t n = SHELF_PLAN_1_STRIPE, r = SHELF_PLAN_1_MARKS;
    blank();
    marks[0] = marks[1] = 3;
    hold("two marks in two rows", shelf_mend(1, stripe, n, marks, r, report, SHELF_REPORT), SHELF_STUCK);
    hold("their bench", shelf_start(1, stripe, n, marks, r, bench, SHELF_BENCH), SHELF_DONE);
    hold("a tied row", shelf_row_step(bench, SHELF_BENCH, 0), SHELF_TIED);
    hold("a blocked level", shelf_level_step(bench, SHELF_BENCH), SHELF_BLOCKED);
    bench[1] = 0;
    hold("level 0", shelf_level_step(bench, SHELF_BENCH), SHELF_NO_SUCH_LEVEL);
    marks[0] = marks[1] = 1;
    hold("a bench again", shelf_start(1, stripe, n, marks, r, bench, SHELF_BENCH), SHELF_DONE);
    hold("a row with one mark", shelf_row_step(bench, SHELF_BENCH, 0), SHELF_FILLED);
    marks[0] = 0;
    marks[1] = 0x4b;
    stripe[9] = 1;
    hold("a tied row that nothing fills", shelf_mend(1, stripe, n, marks, r, report, SHELF_REPORT), SHELF_CLASH);
    hold("its row", report[6], 1);
    hold("its level", report[7], 2);
    marks[1] = 0;
    stripe[9] = 0;
    stripe[0] = 1;
    hold("one wrong symbol", shelf_mend(1, stripe, n, marks, r, report, SHELF_REPORT), SHELF_CLASH);
    hold("no codeword", shelf_is_codeword(1, stripe, n), SHELF_NO);
    hold("its data", shelf_extract(1, stripe, n, data, SHELF_PLAN_1_DATA), SHELF_NO_CODEWORD);
    hold("no plan", shelf_is_codeword(0, stripe, n), SHELF_UNKNOWN_PLAN);
    hold("no plan either", shelf_is_codeword(6, stripe, n), SHELF_UNKNOWN_PLAN);
    hold("interleaved form, no codeword", shelf_is_interleaved(stripe, SHELF_PLAN_3_STRIPE), SHELF_NO);
    hold("interleaved form, another length", shelf_is_interleaved(stripe, n), SHELF_WRONG_LENGTH);
    hold("a file", shelf_write_file(1, stripe, n, marks, r, file, SHELF_PLAN_1_FILE), SHELF_DONE);
    hold("its text", shelf_text(file, SHELF_PLAN_1_FILE, text, SHELF_TEXT, size, SHELF_TEXT_SIZE), SHELF_DONE);
    file[8] = 1;
    hold("a byte under a mark", shelf_read_file(file, SHELF_PLAN_1_FILE, stripe, n, marks, r), SHELF_FILE_NOT_BLANK);
    file[1] = 4;
    hold("another header", shelf_read_file(file, SHELF_PLAN_1_FILE, stripe, n, marks, r), SHELF_FILE_HEADER);
}

#define PLAN(number)                                                                                                                     \
    ((struct plan){number, SHELF_PLAN_##number##_ROWS, SHELF_PLAN_##number##_COLUMNS, SHELF_PLAN_##number##_BELOW,                       \
                   SHELF_PLAN_##number##_STRIPE, SHELF_PLAN_##number##_MARKS, SHELF_PLAN_##number##_DATA, SHELF_PLAN_##number##_FILE,    \
                   SHELF_PLAN_##number##_LEVELS})

int main(void) {
    plan_is(PLAN(1));
    plan_is(PLAN(2));
    plan_is(PLAN(3));
    plan_is(PLAN(4));
    plan_is(PLAN(5));
    answers();
    printf("shelf.h: %zu numbers held, %zu wrong\n", calls, wrong);
    return wrong != 0 || !SHELF_IS_REFUSAL(SHELF_UNKNOWN_PLAN) || SHELF_IS_REFUSAL(SHELF_TOP);
}
