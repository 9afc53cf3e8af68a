/* Bytes and texts, as C has them. (stdint.h, stddef.h, stdbool.h, limits.h and stdarg.h
   come with the compiler.) */
#ifndef STRING_H
#define STRING_H

#include <stddef.h>

void *memcpy(void *restrict to, const void *restrict from, size_t count);
void *memmove(void *to, const void *from, size_t count);
void *memset(void *to, int byte, size_t count);
int memcmp(const void *one, const void *other, size_t count);
void *memchr(const void *in, int byte, size_t count);

size_t strlen(const char *text);
int strcmp(const char *one, const char *other);
int strncmp(const char *one, const char *other, size_t most);
char *strcpy(char *restrict to, const char *restrict from);
char *strncpy(char *restrict to, const char *restrict from, size_t most);
char *strcat(char *restrict to, const char *restrict from);
char *strchr(const char *in, int byte);

#endif
