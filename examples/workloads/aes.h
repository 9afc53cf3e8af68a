/* AES-128: what its two victims share. A block is four columns, each a word whose highest
   byte is the column's first row. */
#include <stdio.h>

#include "tp.h"

#define COLUMNS 4
#define ROUNDS 10

volatile uint32_t key[COLUMNS] = {0x2b7e1516, 0x28aed2a6, 0xabf71588, 0x09cf4f3c};
volatile uint32_t block[COLUMNS] = {0x3243f6a8, 0x885a308d, 0x313198a2, 0xe0370734};

/* What each victim has of its own: a word's bytes substituted, and a column's, which are
   then mixed. */
static uint32_t substitute(uint32_t bytes);
static uint32_t mixed(uint32_t column);

static uint32_t rotate(uint32_t word, unsigned bits)
{
    return word << bits | word >> (32 - bits);
}

/* Each byte times two, in the cipher's field. */
static uint32_t doubled(uint32_t bytes)
{
    uint32_t over = bytes >> 7 & 0x01010101;
    return (bytes & 0x7f7f7f7f) << 1 ^ over ^ over << 1 ^ over << 3 ^ over << 4;
}

/* A column after the rows are shifted. */
static uint32_t shifted(const uint32_t state[COLUMNS], unsigned number)
{
    uint32_t column = 0;
    for (unsigned row = 0; row < COLUMNS; row++)
        column |= state[(number + row) % COLUMNS] & 0xff000000 >> 8 * row;
    return column;
}

static void expand(uint32_t keys[ROUNDS + 1][COLUMNS])
{
    uint32_t constant = 0x01000000;
    for (unsigned number = 0; number < COLUMNS; number++)
        keys[0][number] = key[number];
    for (unsigned round = 1; round <= ROUNDS; round++) {
        uint32_t last = substitute(rotate(keys[round - 1][COLUMNS - 1], 8)) ^ constant;
        for (unsigned number = 0; number < COLUMNS; number++)
            last = keys[round][number] = keys[round - 1][number] ^ last;
        constant = doubled(constant);
    }
}

static void encrypt(const uint32_t keys[ROUNDS + 1][COLUMNS], uint32_t state[COLUMNS])
{
    uint32_t next[COLUMNS];
    for (unsigned number = 0; number < COLUMNS; number++)
        state[number] = block[number] ^ keys[0][number];
    for (unsigned round = 1; round <= ROUNDS; round++) {
        for (unsigned number = 0; number < COLUMNS; number++) {
            uint32_t column = shifted(state, number);
            next[number] = (round < ROUNDS ? mixed(column) : substitute(column)) ^ keys[round][number];
        }
        for (unsigned number = 0; number < COLUMNS; number++)
            state[number] = next[number];
    }
}

/* Prints the block under the key. */
int main(void)
{
    uint32_t keys[ROUNDS + 1][COLUMNS], state[COLUMNS];

    expand(keys);
    encrypt(keys, state);
    for (unsigned number = 0; number < COLUMNS; number++)
        printf("%08lx", state[number]);
    putchar('\n');
    return 0;
}
