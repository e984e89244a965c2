/* printf and snprintf, linked in place of newlib's by --wrap: Debian builds that one without the formats of C99, as %zu. These
 * know characters, texts and numbers, with width, zeros in front, and the lengths l, ll and z. */
#include <stdarg.h>
#include <stdint.h>
#include <stdio.h>
#include <string.h>

int __wrap_printf(const char *format, ...);
int __wrap_snprintf(char *text, size_t size, const char *format, ...);

typedef struct {
    char *text;
    size_t size, length; /* as snprintf: what does not fit is counted and left out */
} room;

static void put(room *to, char c) {
    if (to->length + 1 < to->size) {
        to->text[to->length] = c;
    }
    to->length++;
}

static void put_padded(room *to, const char *text, size_t length, size_t width, char with) {
    for (size_t i = length; i < width; i++) {
        put(to, with);
    }
    for (size_t i = 0; i < length; i++) {
        put(to, text[i]);
    }
}

static void put_number(room *to, uint64_t number, unsigned base, int negative, size_t width, char with) {
    char digits[24];
    size_t at = sizeof digits;
    do {
        digits[--at] = "0123456789ABCDEF"[number % base];
        number /= base;
    } while (number != 0);
    if (negative) {
        digits[--at] = '-';
    }
    put_padded(to, digits + at, sizeof digits - at, width, with);
}

static uint64_t take_number(va_list *arguments, unsigned longs) {
    return longs < 2 ? va_arg(*arguments, unsigned long)
                     : va_arg(*arguments, unsigned long long); /* int, long and size_t are as wide */
}

static void put_formatted(room *to, const char *format, va_list *arguments) {
    for (; *format != 0; format++) {
        if (*format != '%') {
            put(to, *format);
            continue;
        }
        char with = *++format == '0' ? '0' : ' ';
        size_t width = 0;
        unsigned longs = 0;
        for (; *format >= '0' && *format <= '9'; format++) {
            width = 10 * width + (size_t)(*format - '0');
        }
        for (; *format == 'l' || *format == 'z'; format++) {
            longs += *format == 'l';
        }
        if (*format == 'u' || *format == 'X') {
            put_number(to, take_number(arguments, longs), *format == 'u' ? 10 : 16, 0, width, with);
        } else if (*format == 'd') {
            uint64_t word = take_number(arguments, longs);
            int64_t number = longs < 2 ? (int32_t)word : (int64_t)word;
            put_number(to, number < 0 ? -(uint64_t)number : (uint64_t)number, 10, number < 0, width, with);
        } else if (*format == 's') {
            const char *text = va_arg(*arguments, const char *);
            put_padded(to, text, strlen(text), width, ' ');
        } else if (*format == 'c') {
            put(to, (char)va_arg(*arguments, int));
        } else if (*format == '%') {
            put(to, '%');
        } else {
            put_padded(to, "(a format that print.c does not know)", 37, 0, ' ');
            return;
        }
    }
}

int __wrap_snprintf(char *text, size_t size, const char *format, ...) {
    room to = {text, size, 0};
    va_list arguments;
    va_start(arguments, format);
    put_formatted(&to, format, &arguments);
    va_end(arguments);
    if (size > 0) {
        text[to.length < size ? to.length : size - 1] = 0;
    }
    return (int)to.length;
}

int __wrap_printf(const char *format, ...) {
    char line[256];
    room to = {line, sizeof line, 0};
    va_list arguments;
    va_start(arguments, format);
    put_formatted(&to, format, &arguments);
    va_end(arguments);
    size_t length = to.length < sizeof line ? to.length : sizeof line - 1;
    fwrite(line, 1, length, stdout);
    return (int)length;
}
