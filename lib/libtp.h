/* The program tp as a library: a call for each command.
 *
 * A call answers how it ended, and writes a text: both are those of the program for the
 * same words, but where the buffer is too small. docs/LIBRARY.md tells what is proved.
 *
 * Each call takes
 *
 *   image, image_len    the image, as bytes of TOML: of more than 1,048,576 only that they are too many is told
 *   text, text_len      the caller's buffer, and how many bytes it has
 *   taken               where the call says how long the text is, in bytes
 *
 * and the values of its command. A value out of its range is answered with TP_USAGE. By how
 * the call ended:
 *
 *   TP_DONE, TP_REFUSED, TP_USAGE, TP_TOO_LONG
 *                       the text stands at the front of the buffer, with no NUL behind it
 *   TP_TOO_SMALL        the buffer is as it was, and *taken is the length that is wanted
 *   TP_MEMORY           the buffer is as it was, and *taken is 0
 *
 * Whose is what: the caller owns all that it hands over, and a call keeps none of it. What a
 * call asks the heap for it has given back when it returns. No pointer may be NULL, also where
 * its length is 0; the image, the buffer and *taken must not overlap.
 *
 * There is no state between calls, so several threads may call at once, each with a buffer of
 * its own. A call is not to be made from a signal handler, nor in a forked child of a process
 * that has threads. It takes as long as its run does, and can't be stopped.
 */
#ifndef LIBTP_H
#define LIBTP_H

#include <stddef.h>
#include <stdint.h>

#define TP_VERSION "1.0.0"

#ifdef __cplusplus
extern "C" {
#endif

/* How a call ended: but for TP_TOO_SMALL the program's exit codes, of which 3 and 4, reads and
 * writes that fail, are none of a library. */
enum tp_status {
    TP_DONE = 0,      /* the command did its work */
    TP_REFUSED = 1,   /* the image breaks a rule, which the text names */
    TP_USAGE = 2,     /* a value is out of range, or the image lacks the domain, or has several harts */
    TP_MEMORY = 5,    /* memory ran out */
    TP_TOO_LONG = 6,  /* the image has more bytes than it may */
    TP_TOO_SMALL = 7, /* the buffer has no room for the text */
};

/* What keeps domains apart in time: the guards, one of which tp_ablate turns off. */
enum tp_guard {
    TP_FLUSH = 0,
    TP_PREFETCH = 1,
    TP_PAD = 2,
    TP_COLOUR = 3,
    TP_CLONE = 4,
    TP_IRQ = 5,
};

/* Tests the image's rules: "accepted", or the first that it breaks. */
enum tp_status tp_check(const uint8_t *image, size_t image_len, uint8_t *text, size_t text_len, size_t *taken);

/* Tells the most cycles that a switch can use on the image's machine: what pads must be at least. */
enum tp_status tp_bound(const uint8_t *image, size_t image_len, uint8_t *text, size_t text_len, size_t *taken);

/* Runs the image and writes its report.
 * slots: of each hart, 0 to 65,536 */
enum tp_status tp_run(const uint8_t *image, size_t image_len, uint32_t slots, uint8_t *text, size_t text_len,
                      size_t *taken);

/* The same in an order of the harts' events that a seed draws.
 * slots: of each hart, 0 to 65,536; seed: any */
enum tp_status tp_harts(const uint8_t *image, size_t image_len, uint32_t slots, uint32_t seed, uint8_t *text,
                        size_t text_len, size_t *taken);

/* Runs one domain with no other domain at all, and writes its section of the report.
 * domain: its number, 0 to 31; slots: of its hart, 0 to 65,536 */
enum tp_status tp_alone(const uint8_t *image, size_t image_len, uint32_t domain, uint32_t slots, uint8_t *text,
                        size_t text_len, size_t *taken);

/* Runs the image on the machine without one guard, and writes which, and its report.
 * off: one of enum tp_guard; slots: 0 to 65,536 */
enum tp_status tp_ablate(const uint8_t *image, size_t image_len, uint32_t off, uint32_t slots, uint8_t *text,
                         size_t text_len, size_t *taken);

/* Writes the image as the tenant of one of its domains may hold it.
 * domain: its number, 0 to 31 */
enum tp_status tp_redact(const uint8_t *image, size_t image_len, uint32_t domain, uint8_t *text, size_t text_len,
                         size_t *taken);

/* Writes the image that a seed makes.
 * seed: any */
enum tp_status tp_gen(uint32_t seed, uint8_t *text, size_t text_len, size_t *taken);

/* Runs the image that a seed makes for 64 slots, and writes a summary.
 * seed: any */
enum tp_status tp_demo(uint32_t seed, uint8_t *text, size_t text_len, size_t *taken);

#ifdef __cplusplus
}
#endif

/* The calls return 32 bits. */
#if defined(__cplusplus) && __cplusplus >= 201103L
static_assert(sizeof(enum tp_status) == 4, "an enumeration has 32 bits");
#elif defined(__STDC_VERSION__) && __STDC_VERSION__ >= 201112L
_Static_assert(sizeof(enum tp_status) == 4, "an enumeration has 32 bits");
#endif

#endif
