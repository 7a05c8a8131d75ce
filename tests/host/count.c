/* Offers and releases of a trace through the C interface, or through the C receiver of tests/speed, for counting instructions. It reads
   lines of hexadecimal: count ours | checked | plain < LINES. Only the function `counted` is counted; reading the lines is not. */
#define main other_main /* is not called */
#include "../speed/receive.c"
#undef main

#include "tubarexi.h"

enum { MOST = 4096 };

static struct { size_t size; uint8_t octets[DATAGRAM_LIMIT]; } lines[MOST];
static size_t line_count;
static struct session plain;
static tbx_session ours;
static unsigned long left_all;

/* The C receiver's core: it copies the packet out as our release does. */
static void take_plain(const uint8_t *octets, size_t size)
{
    static uint8_t handed[PACKET_LIMIT];
    unsigned place = 0;
    if (size) offer(&plain, octets, size, &place);
    else advance(&plain), left_all++;
    while (plain.base < NUMBERS_LIMIT) {
        const struct place *at = place_of(&plain, plain.base);
        if (at->state == UNKNOWN) return;
        memcpy(handed, at->octets, at->length);
        left_all++;
        advance(&plain);
    }
}

static void take_ours(const uint8_t *octets, size_t size)
{
    static uint8_t handed[TBX_PACKET_LIMIT];
    tbx_number left;
    size_t place;
    if (size) tbx_offer_unchecked(&ours, octets, size, &place);
    else if (!tbx_release_unchecked(&ours, true, handed, sizeof handed, &left)) left_all++;
    while (!tbx_release_unchecked(&ours, false, handed, sizeof handed, &left)) left_all++;
}

static void take_checked(const uint8_t *octets, size_t size)
{
    static uint8_t handed[TBX_PACKET_LIMIT];
    tbx_number left;
    size_t place;
    if (size) tbx_offer(&ours, octets, size, &place);
    else if (!tbx_release(&ours, true, handed, sizeof handed, &left)) left_all++;
    while (!tbx_release(&ours, false, handed, sizeof handed, &left)) left_all++;
}

__attribute__((noinline)) void counted(int which)
{
    for (size_t i = 0; i < line_count; i++)
        if (which == 'p') take_plain(lines[i].octets, lines[i].size);
        else if (which == 'o') take_ours(lines[i].octets, lines[i].size);
        else take_checked(lines[i].octets, lines[i].size);
}

int main(int arguments, char **argument)
{
    static char line[LINE_LIMIT + 2];
    if (arguments < 2) return 2;
    for (unsigned number = AFTER; number < VIEW; number++) plain.places[number].state = BLANK;
    tbx_fresh(&ours);
    while (line_count < MOST && fgets(line, sizeof line, stdin)) {
        unsigned octet;
        size_t size = 0;
        while (sscanf(line + 2 * size, "%2x", &octet) == 1) lines[line_count].octets[size++] = (uint8_t)octet;
        lines[line_count++].size = size;
    }
    counted(argument[1][0]);
    printf("%zu %lu\n", line_count, left_all);
    return 0;
}
