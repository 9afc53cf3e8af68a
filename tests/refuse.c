/* Stands before the C library: counts a program's requests for memory from 1, and refuses the one
 * whose number the variable REFUSE has (0: none). At the end it writes how many there were into the
 * file that the variable COUNT names. `no_memory` builds and loads it. */
#include <errno.h>
#include <fcntl.h>
#include <stddef.h>
#include <stdlib.h>
#include <unistd.h>

void *__libc_malloc(size_t);
void *__libc_calloc(size_t, size_t);
void *__libc_realloc(void *, size_t);

static unsigned long made, refused;

/* What was asked for before the program begins is not its own. */
__attribute__((constructor)) static void begin(void)
{
    refused = strtoul(getenv("REFUSE"), NULL, 10);
    made = 0;
}

static int is_refused(void)
{
    made++;
    if (made != refused)
        return 0;
    errno = ENOMEM;
    return 1;
}

void *malloc(size_t size)
{
    return is_refused() ? NULL : __libc_malloc(size);
}

void *calloc(size_t count, size_t size)
{
    return is_refused() ? NULL : __libc_calloc(count, size);
}

void *realloc(void *old, size_t size)
{
    return is_refused() ? NULL : __libc_realloc(old, size);
}

__attribute__((destructor)) static void end(void)
{
    int file = open(getenv("COUNT"), O_WRONLY | O_CREAT | O_TRUNC, 0600);
    if (write(file, &made, sizeof made) != sizeof made)
        abort();
}
