/* What the test programs share: expectations, counted, and the exit status. */
#ifndef TESTS_EXPECT_H
#define TESTS_EXPECT_H

#include <stdio.h>

static int failures;

static void expect(int holds, const char *what, const char *file, int line)
{
    if (holds)
        return;
    if (failures++ < 20)
        fprintf(stderr, "%s:%d: does not hold: %s\n", file, line, what);
}

#define EXPECT(holds) expect((holds), #holds, __FILE__, __LINE__)

#endif
