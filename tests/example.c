/* Mends the customer's example stripe, plan 1. Build and run it at the top of the repository:
 *
 *     (cd crates/shelf_c && rt lib && cp out/libshelf_c.a ../../libshelf.a)
 *     cc -I include tests/example.c libshelf.a -o example && ./example
 */
#include <stdio.h>

#include "shelf.h"

int main(void) {
    uint8_t stripe[21] = {
        1, 0, 0, 0, 0, 0, 0, /* column 1 is lost */
        0, 0, 0, 0, 0, 1, 0, /* columns 0, 2 and 4 are lost */
        0, 0, 0, 0, 0, 0, 0, /* column 2 is lost */
    };
    uint64_t marks[3] = {0x02, 0x15, 0x04};
    uint8_t report[SHELF_REPORT] = {0};

    size_t answer = shelf_mend(1, stripe, 21, marks, 3, report, SHELF_REPORT);

    printf("answer %zu level %d left %d rows %d %d\n", answer, report[0], report[1], report[2], report[3]);
    for (int place = 0; place < 21; place++)
        printf("%d%s", stripe[place], place % 7 == 6 ? "\n" : "");
    return answer == 0 ? 0 : 1;
}
