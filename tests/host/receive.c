/* The program `receive` over the C interface, to be compared with it: reads lines of hexadecimal and writes result lines (rules 18.1 to
   18.11). By default it uses the checked calls, with an argument the unchecked ones. */
#include "tubarexi.h"

#include <stdio.h>
#include <string.h>

enum { LINE_LIMIT = 2 * TBX_DATAGRAM_LIMIT, NO_DIGITS = TBX_WRONG_SETTINGS };

static tbx_session session;
static bool checked = true;

static int digit(int c)
{
    return c >= '0' && c <= '9' ? c - '0' : c >= 'A' && c <= 'F' ? c - 'A' + 10 : c >= 'a' && c <= 'f' ? c - 'a' + 10 : -1;
}

static void put_refusal(int refusal, size_t place) { printf("FF%02X%04X\n", refusal, (unsigned)place); }

/* Makes one release; returns whether a number left. */
static int release(bool skip)
{
    uint8_t out[TBX_PACKET_LIMIT];
    tbx_number left;
    int why = (checked ? tbx_release : tbx_release_unchecked)(&session, skip, out, sizeof out, &left);
    if (why) {
        if (skip) put_refusal(why, left.place);
        return 0;
    }
    printf("%02X%04X", left.kind, left.number);
    for (size_t i = 0; i < left.size; i++) printf("%02X", out[i]);
    putchar('\n');
    return 1;
}

static int offer(const char *line, size_t length, size_t *place)
{
    uint8_t datagram[TBX_DATAGRAM_LIMIT];
    *place = 0;
    if (length > LINE_LIMIT) return TBX_TOO_LONG;
    if (length % 2) return NO_DIGITS;
    for (size_t i = 0; i < length / 2; i++) {
        int high = digit((uint8_t)line[2 * i]), low = digit((uint8_t)line[2 * i + 1]);
        if (high < 0 || low < 0) return NO_DIGITS;
        datagram[i] = (uint8_t)(high * 16 + low);
    }
    return (checked ? tbx_offer : tbx_offer_unchecked)(&session, datagram, length / 2, place);
}

static void take(const char *line, size_t length)
{
    size_t place;
    int why = 0;
    if (!length) release(true);
    else if ((why = offer(line, length, &place))) put_refusal(why, place);
    while (release(false)) {}
}

int main(int arguments, char **argument)
{
    static char line[LINE_LIMIT + 1];
    size_t length = 0;
    int c;
    (void)argument;
    checked = arguments < 2;
    memset(&session, 0xA5, sizeof session);
    tbx_fresh(&session);
    while ((c = getchar()) != EOF) {
        if (c == '\n') take(line, length), length = 0;
        else if (length < sizeof line) line[length++] = (char)c;
    }
    if (length) take(line, length);
    if (!tbx_in_ranges(&session)) puts("outside the ranges");
    return 0;
}
