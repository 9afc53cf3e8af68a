/* A small printf, each byte of it a PUT. */
#ifndef STDIO_H
#define STDIO_H

#include <stdarg.h>

#define EOF (-1)

/* Prints, and answers how many bytes, or EOF where the output is full (4,096 bytes).
   A conversion is '%', and then
   - any of the flags `-` (at the left of its width), `0` (zeros in the place of spaces),
     `+` or a space (before a number that isn't negative), `#` (0 before octal, 0x before
     hexadecimal);
   - a width, and `.` with a precision: the least digits of a number, the most bytes of a
     text. Each is a number, or `*` for an argument;
   - of a number `hh`, `h`, `l`, `ll`, `j`, `z` or `t`;
   - d i u o x X c s p or %.
   (A uint32_t is an unsigned long here: `%lu`; a uint64_t is `%llu`.)
   For what C has besides (%f, %e, %g, %a, %n) and what nobody has it prints a `?`; the
   compiler warns of both, and of arguments that don't fit. */
int printf(const char *format, ...) __attribute__((format(printf, 1, 2)));
int vprintf(const char *format, va_list arguments) __attribute__((format(printf, 1, 0)));

int putchar(int byte);

/* Prints a text, and a new line. */
int puts(const char *text);

/* What `format` lets through and is no conversion here is warned of where a text that is
   known has it among the first eight: that takes a compiler that optimises. */
#if defined __OPTIMIZE__ && defined __GNUC__ && !defined __clang__
#define TP_FOLDED extern inline __attribute__((always_inline, gnu_inline))

void tp_printf_lacks(void) __attribute__((warning("printf has no such conversion, and prints a '?'")));
int tp_printf(const char *format, ...) __asm__("printf");

/* Looks at the first conversion from a place on, and answers the place after it. */
TP_FOLDED unsigned tp_printf_after(const char *format, unsigned at)
{
    at += __builtin_strcspn(format + at, "%");
    if (!format[at])
        return at;
    at += 1 + __builtin_strspn(format + at + 1, "-0+ #.*123456789hljzt");
    if (format[at] && !__builtin_strchr("diuoxXcsp%", format[at]))
        tp_printf_lacks();
    return format[at] ? at + 1 : at;
}

TP_FOLDED int printf(const char *format, ...)
{
    unsigned at = __builtin_constant_p(*format) ? tp_printf_after(format, 0) : 0;
    if (__builtin_constant_p(at) && at) {
        at = tp_printf_after(format, tp_printf_after(format, at));
        at = tp_printf_after(format, tp_printf_after(format, at));
        at = tp_printf_after(format, tp_printf_after(format, at));
        tp_printf_after(format, at);
    }
    return tp_printf(format, __builtin_va_arg_pack());
}

#undef TP_FOLDED
#endif

#endif
