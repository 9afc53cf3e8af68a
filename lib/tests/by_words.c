/* The program over the library: it takes the program's words, reads the image from standard input and
 * writes the text to standard output. So what is held against the program can be held against the library.
 *
 * Each answer is asked for twice: with no room at all, which tells how long it is, and with just that room.
 */
#include <stdio.h>
#include <stdlib.h>
#include <string.h>

#include "libtp.h"

enum { MOST_BYTES = 1048576 };
static const uint32_t OUT_OF_RANGE = UINT32_MAX;

/* The words: a command, and options with their values. */
struct words {
    char **at;
    int count;
};

/* The bytes of standard input, in a block of their own size, so that a read past them is found. */
static uint8_t *read_image(size_t *len)
{
    static uint8_t bytes[MOST_BYTES + 1];
    *len = fread(bytes, 1, sizeof bytes, stdin);
    uint8_t *image = malloc(*len > 0 ? *len : 1);
    if (image == NULL)
        exit(TP_MEMORY);
    memcpy(image, bytes, *len);
    return image;
}

/* Whether they are this command with so many options. */
static int is(struct words words, const char *command, int options)
{
    return words.count == 1 + 2 * options && strcmp(words.at[0], command) == 0;
}

static const char *value_of(struct words words, const char *option)
{
    for (int i = 1; i + 1 < words.count; i += 2)
        if (strcmp(words.at[i], option) == 0)
            return words.at[i + 1];
    return "";
}

/* Reads the number of an option, where it is one. */
static int number(struct words words, const char *option, uint32_t *found)
{
    const char *value = value_of(words, option);
    size_t digits = strspn(value, "0123456789");
    unsigned long long number = digits <= 10 ? strtoull(value, NULL, 10) : UINT64_MAX;
    *found = (uint32_t)number;
    return digits > 0 && value[digits] == '\0' && number <= UINT32_MAX;
}

/* Reads the guard that is to be off, where it is one. */
static int guard(struct words words, uint32_t *found)
{
    static const char *const names[] = {"flush", "prefetch", "pad", "colour", "clone", "irq"};
    const char *value = value_of(words, "--off");
    for (*found = 0; *found < sizeof names / sizeof *names; ++*found)
        if (strcmp(names[*found], value) == 0)
            return 1;
    return 0;
}

static enum tp_status answer(struct words words, const uint8_t *image, size_t len, uint8_t *text,
                             size_t room, size_t *taken)
{
    uint32_t slots, seed, domain, off;
    if (is(words, "check", 0))
        return tp_check(image, len, text, room, taken);
    if (is(words, "bound", 0))
        return tp_bound(image, len, text, room, taken);
    if (is(words, "run", 1) && number(words, "--slots", &slots))
        return tp_run(image, len, slots, text, room, taken);
    if (is(words, "harts", 2) && number(words, "--slots", &slots) && number(words, "--seed", &seed))
        return tp_harts(image, len, slots, seed, text, room, taken);
    if (is(words, "alone", 2) && number(words, "--domain", &domain) && number(words, "--slots", &slots))
        return tp_alone(image, len, domain, slots, text, room, taken);
    if (is(words, "ablate", 2) && guard(words, &off) && number(words, "--slots", &slots))
        return tp_ablate(image, len, off, slots, text, room, taken);
    if (is(words, "redact", 1) && number(words, "--domain", &domain))
        return tp_redact(image, len, domain, text, room, taken);
    if (is(words, "gen", 1) && number(words, "--seed", &seed))
        return tp_gen(seed, text, room, taken);
    if (is(words, "demo", 1) && number(words, "--seed", &seed))
        return tp_demo(seed, text, room, taken);
    /* Words that are no command have the usage line, as a value out of range has. */
    return tp_run(image, len, OUT_OF_RANGE, text, room, taken);
}

int main(int argc, char **argv)
{
    struct words words = {argv + 1, argc - 1};
    size_t len, wanted, taken = 0;
    uint8_t *image = read_image(&len);
    uint8_t *text = malloc(1);
    enum tp_status status = text == NULL ? TP_MEMORY : answer(words, image, len, text, 0, &wanted);
    if (status == TP_TOO_SMALL) {
        free(text);
        text = malloc(wanted);
        status = text == NULL ? TP_MEMORY : answer(words, image, len, text, wanted, &taken);
        fwrite(text, 1, taken, stdout);
    }
    free(text);
    free(image);
    return status;
}
