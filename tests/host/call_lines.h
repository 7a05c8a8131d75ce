/* Calls over the C interface, one a line, in the lines of the calls program (section 25 of docs/RULES.md): takes numbers and octets from a
   line, writes answers, and answers all lines in turn. */
#include "tubarexi.h"

#include <stdio.h>
#include <string.h>

enum { LINE_LIMIT = 240000, FILLING = 0xA5 };

/* The octets of a line, how many they are, and which comes next: `at` is past `size` if the line ended early. */
static uint8_t line[LINE_LIMIT / 2];
static size_t size, at;

/* The next `count` octets; NULL if there are fewer, or if `count` is 0. */
static inline const uint8_t *octets(size_t count)
{
    const uint8_t *from = line + at;
    if (at > size || count > size - at) at = size + 1;
    else at += count;
    return count && at <= size ? from : NULL;
}

/* The next number of `width` octets, high octet first; 0 if there is none. */
static inline unsigned long number(int width)
{
    const uint8_t *from = octets((size_t)width);
    unsigned long value = 0;
    while (from && width--) value = value << 8 | *from++;
    return value;
}

static inline void put(unsigned long value, int width) { printf("%0*lX", 2 * width, value); }

static inline void put_octets(const uint8_t *from, size_t count)
{
    for (size_t i = 0; i < count; i++) put(from[i], 1);
}

/* Writes the start of an answer, done or the refusal with its place (rule 25.3); returns whether the call was done. */
static inline bool answered(int why, size_t place)
{
    put(why ? 0xFF : 0, 1);
    if (why) put((unsigned)why, 1), put(place, 2);
    return !why;
}

static inline int digit(int c)
{
    return c >= '0' && c <= '9' ? c - '0' : c >= 'A' && c <= 'F' ? c - 'A' + 10 : c >= 'a' && c <= 'f' ? c - 'a' + 10 : -1;
}

/* Answers a line that is not empty: with EE if `answer` returns, before it writes anything, that the line is no call (rule 25.5). */
static inline void answer_line(const char *text, size_t length, bool (*answer)(void))
{
    bool good = length <= LINE_LIMIT && length % 2 == 0;
    size = length / 2, at = 0;
    for (size_t i = 0; good && i < size; i++) {
        int high = digit((uint8_t)text[2 * i]), low = digit((uint8_t)text[2 * i + 1]);
        good = high >= 0 && low >= 0;
        line[i] = (uint8_t)(high * 16 + low);
    }
    puts(good && answer() ? "" : "EE");
}

static inline void answer_lines(bool (*answer)(void))
{
    static char text[LINE_LIMIT + 1];
    size_t length = 0;
    int c;
    do {
        c = getchar();
        if (c != '\n' && c != EOF) {
            if (length < sizeof text) text[length++] = (char)c;
        } else {
            if (length) answer_line(text, length, answer);
            length = 0;
        }
    } while (c != EOF);
}
