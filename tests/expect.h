/* Counting what was expected of the calls, for the tests in C: the last line is `N passed, M failed`. */
#include <stdio.h>

static int failed, made;

static void expect(const char *what, int good)
{
    made++;
    if (good)
        return;
    failed++;
    printf("failed: %s\n", what);
}

static int summary(void)
{
    printf("%d passed, %d failed\n", made - failed, failed);
    return failed != 0;
}
