/*
 * What the tests in C share: what is so and what is not is counted, and told by the last line, 'N passed, M failed'.
 */
#include <stdio.h>

static unsigned passed, failed;

/* One test: is it so? */
static void expect(int so, const char *what) {
    if (so) {
        passed++;
    } else {
        failed++;
        printf("not so: %s\n", what);
    }
}

/* The last line, and the exit status. */
static int counted(void) {
    printf("%u passed, %u failed\n", passed, failed);
    return failed == 0 ? 0 : 1;
}
