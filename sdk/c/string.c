/* Bytes and texts. The first four the compiler calls by itself, too. */
#include <string.h>

void *memcpy(void *restrict to, const void *restrict from, size_t count)
{
    char *at = to;
    for (const char *byte = from; count; count--)
        *at++ = *byte++;
    return to;
}

void *memmove(void *to, const void *from, size_t count)
{
    char *at = to;
    const char *byte = from;
    if (at <= byte)
        return memcpy(to, from, count);
    while (count--)
        at[count] = byte[count];
    return to;
}

void *memset(void *to, int byte, size_t count)
{
    for (char *at = to; count; count--)
        *at++ = (char)byte;
    return to;
}

int memcmp(const void *one, const void *other, size_t count)
{
    const unsigned char *left = one, *right = other;
    for (; count; count--, left++, right++)
        if (*left != *right)
            return *left - *right;
    return 0;
}

void *memchr(const void *in, int byte, size_t count)
{
    for (const unsigned char *at = in; count; count--, at++)
        if (*at == (unsigned char)byte)
            return (void *)at;
    return NULL;
}

size_t strlen(const char *text)
{
    const char *end = text;
    while (*end)
        end++;
    return (size_t)(end - text);
}

int strcmp(const char *one, const char *other)
{
    for (; *one && *one == *other; one++)
        other++;
    return (unsigned char)*one - (unsigned char)*other;
}

int strncmp(const char *one, const char *other, size_t most)
{
    for (; most && *one && *one == *other; most--, one++)
        other++;
    return most ? (unsigned char)*one - (unsigned char)*other : 0;
}

char *strcpy(char *restrict to, const char *restrict from)
{
    return memcpy(to, from, strlen(from) + 1);
}

/* The rest of `most` bytes is zero; no zero comes after a text of `most` bytes or more. */
char *strncpy(char *restrict to, const char *restrict from, size_t most)
{
    size_t length = 0;
    while (length < most && from[length])
        length++;
    memcpy(to, from, length);
    memset(to + length, 0, most - length);
    return to;
}

char *strcat(char *restrict to, const char *restrict from)
{
    strcpy(to + strlen(to), from);
    return to;
}

char *strchr(const char *in, int byte)
{
    for (; *in != (char)byte; in++)
        if (!*in)
            return NULL;
    return (char *)in;
}
