/* Memory, numbers at random, and how a program ends. */
#ifndef STDLIB_H
#define STDLIB_H

#include <stddef.h>

#define EXIT_SUCCESS 0
#define EXIT_FAILURE 1
#define RAND_MAX 0x7fffffff

/* Memory comes by ALLOC and MAP, a page of 4,096 bytes at a time, from the domain's free
   frames: where its `calls` leave those out there is none. Pages stand at 0x100000 and up to
   0x400000, writable and mapped once and for all; each keeps a capability slot, the last
   empty one. What is answered is a multiple of 16, or NULL where no memory is left, and for
   0 bytes. */
void *malloc(size_t bytes);
void *calloc(size_t count, size_t bytes);
void *realloc(void *block, size_t bytes);
void free(void *block);

/* A number from 0 to RAND_MAX, the next of those that the seed makes: 1 at first. */
int rand(void);
void srand(unsigned seed);

/* Ends the domain with this code. */
void exit(int code) __attribute__((noreturn));

/* Stops the domain by an EBREAK (exception 3). */
void abort(void) __attribute__((noreturn));

#endif
