/* A small printf, each byte of it a PUT. */
#include <stdbool.h>
#include <stdint.h>
#include <stdio.h>
#include <string.h>

#include "tp.h"

#define MOST_DIGITS 22 /* of 64 bits in octal */

/* What has been printed yet. */
struct output {
    int printed;
    bool is_full;
};

/* A conversion, as what comes after its '%' says. */
struct conversion {
    bool is_left;
    bool is_zeroed;
    bool is_marked;      /* '#': 0 or 0x before a number */
    const char *no_sign; /* what stands where a minus would: nothing, "+" or " " */
    int width;
    int precision; /* -1 where there is none */
    int longs;     /* how many `l`, 2 also for `j`; less 1 for each `h` */
    char letter;
};

static void put(struct output *out, char byte)
{
    if (out->is_full || tp_put(byte) != TP_OK)
        out->is_full = true;
    else
        out->printed++;
}

static void put_times(struct output *out, char byte, int times)
{
    for (; times > 0; times--)
        put(out, byte);
}

/* Puts a text in its width: what stands before it, zeros, itself. */
static void put_field(struct output *out, const struct conversion *its, const char *before, int zeros,
                      const char *text, int length)
{
    if (zeros < 0)
        zeros = 0;
    int rest = its->width - (int)strlen(before) - zeros - length;
    if (!its->is_left)
        put_times(out, ' ', rest);
    while (*before)
        put(out, *before++);
    put_times(out, '0', zeros);
    while (length--)
        put(out, *text++);
    if (its->is_left)
        put_times(out, ' ', rest);
}

static void put_text(struct output *out, const struct conversion *its, const char *text)
{
    if (!text)
        text = "(null)";
    int length = 0;
    while (length != its->precision && text[length])
        length++;
    put_field(out, its, "", 0, text, length);
}

/* Divides a number by its base, and answers what is left: in steps of 16 bits, for which
   the machine's 32 are enough. */
static uint32_t divide(uint64_t *number, uint32_t base)
{
    uint32_t high = *number >> 32, low = (uint32_t)*number, left = high % base;
    *number = high / base;
    for (int place = 16; place >= 0; place -= 16) {
        left = left << 16 | (low >> place & 0xffff);
        *number = *number << 16 | left / base;
        left %= base;
    }
    return left;
}

static void put_number(struct output *out, const struct conversion *its, const char *before, uint64_t number,
                       uint32_t base)
{
    const char *digits = its->letter == 'X' ? "0123456789ABCDEF" : "0123456789abcdef";
    char text[MOST_DIGITS];
    int at = MOST_DIGITS;
    while (number >> 32)
        text[--at] = digits[divide(&number, base)];
    for (uint32_t low = (uint32_t)number; low; low /= base)
        text[--at] = digits[low % base];
    if (at == MOST_DIGITS && its->precision)
        text[--at] = '0';
    int length = MOST_DIGITS - at, zeros = its->precision - length;
    if (its->precision < 0 && its->is_zeroed && !its->is_left)
        zeros = its->width - (int)strlen(before) - length;
    if (its->letter == 'o' && its->is_marked && zeros <= 0 && (!length || text[at] != '0'))
        zeros = 1;
    put_field(out, its, before, zeros, text + at, length);
}

static void put_signed(struct output *out, const struct conversion *its, int64_t number)
{
    uint64_t size = number < 0 ? -(uint64_t)number : (uint64_t)number;
    put_number(out, its, number < 0 ? "-" : its->no_sign, size, 10);
}

static void put_unsigned(struct output *out, const struct conversion *its, uint64_t number)
{
    bool is_hex = its->letter == 'x' || its->letter == 'X';
    const char *before = !is_hex || !its->is_marked || !number ? "" : its->letter == 'x' ? "0x" : "0X";
    put_number(out, its, before, number, is_hex ? 16 : its->letter == 'o' ? 8 : 10);
}

static const char *read_flags(struct conversion *its, const char *format)
{
    its->is_left = its->is_zeroed = its->is_marked = false;
    its->no_sign = "";
    for (;; format++) {
        switch (*format) {
        case '-':
            its->is_left = true;
            break;
        case '0':
            its->is_zeroed = true;
            break;
        case '#':
            its->is_marked = true;
            break;
        case '+':
            its->no_sign = "+";
            break;
        case ' ':
            if (!*its->no_sign)
                its->no_sign = " ";
            break;
        default:
            return format;
        }
    }
}

static const char *read_size(int *size, const char *format, va_list *arguments)
{
    *size = 0;
    if (*format == '*') {
        *size = va_arg(*arguments, int);
        return format + 1;
    }
    for (; '0' <= *format && *format <= '9'; format++)
        *size = 10 * *size + (*format - '0');
    return format;
}

static const char *read_length(struct conversion *its, const char *format)
{
    its->longs = 0;
    for (;; format++) {
        switch (*format) {
        case 'l':
            its->longs++;
            break;
        case 'h':
            its->longs--;
            break;
        case 'j':
            its->longs = 2;
            break;
        case 't':
        case 'z':
            break;
        default:
            return format;
        }
    }
}

/* Reads what comes after a '%'; answers where its letter is. */
static const char *read_conversion(struct conversion *its, const char *format, va_list *arguments)
{
    format = read_size(&its->width, read_flags(its, format), arguments);
    if (its->width < 0) {
        its->is_left = true;
        its->width = -its->width;
    }
    its->precision = -1;
    if (*format == '.')
        format = read_size(&its->precision, format + 1, arguments);
    format = read_length(its, format);
    its->letter = *format;
    return format;
}

static int64_t signed_argument(const struct conversion *its, va_list *arguments)
{
    if (its->longs == 2)
        return va_arg(*arguments, int64_t);
    int32_t number = va_arg(*arguments, int32_t);
    return its->longs == -1 ? (int16_t)number : its->longs == -2 ? (int8_t)number : number;
}

static uint64_t unsigned_argument(const struct conversion *its, va_list *arguments)
{
    if (its->longs == 2)
        return va_arg(*arguments, uint64_t);
    uint32_t number = va_arg(*arguments, uint32_t);
    return its->longs == -1 ? (uint16_t)number : its->longs == -2 ? (uint8_t)number : number;
}

static void convert(struct output *out, struct conversion *its, va_list *arguments)
{
    switch (its->letter) {
    case 'd':
    case 'i':
        put_signed(out, its, signed_argument(its, arguments));
        break;
    case 'u':
    case 'o':
    case 'x':
    case 'X':
        put_unsigned(out, its, unsigned_argument(its, arguments));
        break;
    case 'p':
        put_number(out, its, "0x", va_arg(*arguments, uint32_t), 16);
        break;
    case 'c':
        put_field(out, its, "", 0, &(char){(char)va_arg(*arguments, int)}, 1);
        break;
    case 's':
        put_text(out, its, va_arg(*arguments, const char *));
        break;
    case '%':
        put(out, '%');
        break;
    default:
        /* (what C has more are numbers with a point: passed over, so that the next are right) */
        if (its->letter && strchr("aAeEfFgG", its->letter))
            (void)va_arg(*arguments, double);
        put(out, '?');
    }
}

int vprintf(const char *format, va_list given)
{
    struct output out = {0};
    struct conversion its;
    va_list arguments;
    va_copy(arguments, given);
    for (; *format; format++) {
        if (*format != '%') {
            put(&out, *format);
            continue;
        }
        format = read_conversion(&its, format + 1, &arguments);
        convert(&out, &its, &arguments);
        if (!its.letter)
            break;
    }
    va_end(arguments);
    return out.is_full ? EOF : out.printed;
}

int printf(const char *format, ...)
{
    va_list arguments;
    va_start(arguments, format);
    int printed = vprintf(format, arguments);
    va_end(arguments);
    return printed;
}

/* (called where a format is warned of, for the warning alone) */
void tp_printf_lacks(void)
{
}

int putchar(int byte)
{
    return tp_put((char)byte) == TP_OK ? (unsigned char)byte : EOF;
}

int puts(const char *text)
{
    return tp_print(text) == TP_OK && putchar('\n') != EOF ? 0 : EOF;
}
