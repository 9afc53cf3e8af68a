/* Powers modulo the prime 2^127 - 1: what two victims share. A number has four words, the
   lowest first. Products are Montgomery's: that of two numbers, divided by 2^128. They are
   made of the machine's own, which take the same time for all factors; no division is. */
#include <stdio.h>

#include "../channels/channel.h"

#define WORDS 4
#define BITS 8      /* of an exponent */
#define BASE_LINE 54

typedef struct {
    uint32_t word[WORDS];
} number;

volatile uint32_t exponent = 0xb5;
static const number prime = {{0xffffffff, 0xffffffff, 0xffffffff, 0x7fffffff}};
static const number one = {{2}};     /* times 2^128 */
static const number square = {{4}};  /* 2^128 times itself */
/* The base stands in a line of its own, in the page's set of that number. */
static union {
    number in_line[PAGE_LINES][LINE_WORDS / WORDS];
} base __attribute__((aligned(4096)));

/* What each victim has of its own. */
static void raise(number *power, const number *to_raise, uint32_t to);

/* Takes the prime away where there is as much; no branch tells whether it was. */
static void reduce(number *to, const uint32_t sum[WORDS + 1])
{
    number less;
    uint32_t borrow = 0;
    for (int place = 0; place < WORDS; place++) {
        uint64_t difference = (uint64_t)sum[place] - prime.word[place] - borrow;
        less.word[place] = difference;
        borrow = difference >> 32 & 1;
    }
    uint32_t keep = -(borrow & ~sum[WORDS] & 1);
    for (int place = 0; place < WORDS; place++)
        to->word[place] = (sum[place] & keep) | (less.word[place] & ~keep);
}

/* Adds a number, so many times, to a sum. */
static void add_times(uint32_t sum[WORDS + 1], const number *added, uint32_t times)
{
    uint32_t carry = 0;
    for (int place = 0; place < WORDS; place++) {
        uint64_t partial = (uint64_t)added->word[place] * times + sum[place] + carry;
        sum[place] = partial;
        carry = partial >> 32;
    }
    sum[WORDS] += carry;
}

static void multiply(number *to, const number *one_factor, const number *other)
{
    uint32_t sum[WORDS + 1] = {0};
    for (int place = 0; place < WORDS; place++) {
        add_times(sum, one_factor, other->word[place]);
        add_times(sum, &prime, sum[0]); /* the lowest word is then 0, as the prime's is -1 */
        for (int lower = 0; lower < WORDS; lower++)
            sum[lower] = sum[lower + 1];
        sum[WORDS] = 0;
    }
    reduce(to, sum);
}

/* Prints 3 to the exponent, the highest word first. */
int main(void)
{
    number *three = &base.in_line[BASE_LINE][0], power = one, plain = {{1}};

    three->word[0] = 3;
    multiply(three, three, &square);
    raise(&power, three, exponent);
    multiply(&power, &power, &plain);
    for (int place = WORDS - 1; place >= 0; place--)
        printf("%08lx", power.word[place]);
    putchar('\n');
    return 0;
}
