/* What is done where an assertion fails. */
#include <assert.h>
#include <stdio.h>
#include <stdlib.h>

void tp_assert_failed(const char *it, const char *file, int line, const char *function)
{
    printf("%s:%d: %s: %s is false\n", file, line, function, it);
    abort();
}
