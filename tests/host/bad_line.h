/* A bad line for thousand.c: it holds back, repeats and damages datagrams, in the same way for the same seed. */
#include "tubarexi.h"

#include <string.h>

enum { LINE = 64, WIDEST = TBX_DATAGRAM_LIMIT + 300 };

/* What the line does to a datagram. A bad box cuts it short, adds octets behind its end or makes it longer than a datagram may be, and then
   computes its checksum again; or one of its octets is altered on the wire. */
enum damage { WHOLE, CUT, BEHIND, TOO_LONG, ALTERED, DAMAGES };

/* A datagram on the line. `whole` is its size before the line damaged it. */
typedef struct {
    unsigned long number, due;
    enum damage damage;
    uint16_t checksum;
    size_t size, whole;
    uint8_t octets[WIDEST];
} datagram;

static datagram line[LINE];
static size_t line_count;
static unsigned long damaged[DAMAGES];
static uint64_t state;

/* xorshift64*: on every machine the same seed gives the same sheets and the same line. */
static unsigned chance(unsigned below)
{
    state ^= state >> 12, state ^= state << 25, state ^= state >> 27;
    return (unsigned)((state * 2685821657736338717u >> 33) % below);
}

/* The checksum of RFC 768 over pseudo header, header and data, from 192.0.2.1 to 192.0.2.2, both with port 49170. */
static uint16_t checksum(const uint8_t *octets, size_t size)
{
    uint32_t sum = 0xC000 + 0x0201 + 0xC000 + 0x0202 + 17 + 2 * ((uint32_t)size + 8) + 2 * 49170;
    for (size_t i = 0; i < size; i++) sum += i % 2 ? octets[i] : (uint32_t)octets[i] << 8;
    while (sum >> 16) sum = (sum & 0xFFFF) + (sum >> 16);
    return sum == 0xFFFF ? 0xFFFF : (uint16_t)~sum;
}

/* Puts a copy of a datagram on the line at this tick, perhaps damaged, to arrive at once or some ticks later. */
static void fly(const uint8_t *octets, size_t size, unsigned long number, unsigned long now)
{
    if (line_count == LINE) return;
    datagram *d = &line[line_count++];
    memset(d, 0, sizeof *d);
    memcpy(d->octets, octets, size);
    d->number = number, d->size = d->whole = size;
    d->due = now + (chance(10) ? 0 : 1 + chance(chance(4) ? 6 : 40));
    d->damage = chance(60) ? WHOLE : (enum damage)(1 + chance(DAMAGES - 1));
    if (d->damage == BEHIND && size == TBX_DATAGRAM_LIMIT) d->damage = TOO_LONG;
    if (d->damage == CUT) d->size = chance((unsigned)size);
    if (d->damage == BEHIND) d->size += 1 + chance((unsigned)(TBX_DATAGRAM_LIMIT - size));
    if (d->damage == TOO_LONG) d->size = TBX_DATAGRAM_LIMIT + 1 + chance(WIDEST - TBX_DATAGRAM_LIMIT);
    for (size_t i = size; i < d->size; i++) d->octets[i] = (uint8_t)chance(256);
    d->checksum = checksum(d->octets, d->size);
    if (d->damage == ALTERED) d->octets[chance((unsigned)size)] ^= (uint8_t)(1 + chance(255));
    damaged[d->damage]++;
}
