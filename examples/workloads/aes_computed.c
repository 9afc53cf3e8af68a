/* A victim that encrypts without tables: bytes are substituted by arithmetic in the cipher's
   field, the four of a word side by side. No branch and no address depends on them, so what
   it loads, and how long it takes, is the same for every block and key. */
#include "aes.h"

#define BITS 8

/* Maps of bytes that keep sums: what each bit, from the lowest on, is mapped to. */
static const uint8_t to_2[BITS] = {0x01, 0x04, 0x10, 0x40, 0x1b, 0x6c, 0xab, 0x9a};
static const uint8_t to_4[BITS] = {0x01, 0x10, 0x1b, 0xab, 0x5e, 0x97, 0xb3, 0xc5};
static const uint8_t to_16[BITS] = {0x01, 0x5e, 0xe4, 0xe8, 0x4d, 0x91, 0x1d, 0x6c};
static const uint8_t spread[BITS] = {0x1f, 0x3e, 0x7c, 0xf8, 0xf1, 0xe3, 0xc7, 0x8f};

/* All ones in each byte that has the bit, and zeros in the others. */
static uint32_t having(uint32_t bytes, int bit)
{
    uint32_t chosen = bytes >> bit & 0x01010101;
    return (chosen << BITS) - chosen;
}

static uint32_t mapped(const uint8_t map[BITS], uint32_t bytes)
{
    uint32_t sum = 0;
    for (int bit = 0; bit < BITS; bit++)
        sum ^= having(bytes, bit) & (map[bit] * 0x01010101u);
    return sum;
}

/* Each byte of one word times that of the other. */
static uint32_t times(uint32_t one, uint32_t other)
{
    uint32_t product = 0;
    for (int bit = BITS - 1; bit >= 0; bit--)
        product = doubled(product) ^ (one & having(other, bit));
    return product;
}

/* Each byte to the power 254, which is its inverse, and 0 for 0. */
static uint32_t inverted(uint32_t bytes)
{
    uint32_t square = mapped(to_2, bytes);
    uint32_t cube = times(square, bytes);
    uint32_t power_12 = mapped(to_4, cube);
    uint32_t power_240 = mapped(to_16, times(power_12, cube));
    return times(times(power_240, power_12), square);
}

static uint32_t substitute(uint32_t bytes)
{
    return mapped(spread, inverted(bytes)) ^ 0x63636363;
}

static uint32_t mixed(uint32_t column)
{
    uint32_t once = substitute(column), twice = doubled(once);
    return twice ^ rotate(once ^ twice, 8) ^ rotate(once, 16) ^ rotate(once, 24);
}
