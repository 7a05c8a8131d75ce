/* The program of docs/RULES.md, section 18, in plain C, for counting instructions beside it: lines of hexadecimal in, result lines out.
   Written from the rules alone. A session here is never outside its ranges, so they are not checked. */

#include <stdint.h>
#include <stdio.h>
#include <stdlib.h>
#include <string.h>

enum { PACKET_LIMIT = 256, DATAGRAM_LIMIT = 2400, LINE_LIMIT = 4800, NUMBERS_LIMIT = 1000000, VIEW = 64, AFTER = 32 };
enum { SPARES_LIMIT = 8, N_LIMIT = 8, M_LIMIT = 4 };
enum { UNKNOWN, RECEIVED, SPARE, REPAIRED, BLANK };
enum { ENDS = 1, OVERLONG, FORM, SIZE, SPARE_BIT, LEFT_OVER, REPEATED, AHEAD, LATE, NO_DIGITS = 15, LIMIT = 16 };

/* A packet, spare or message: octets that stand elsewhere. */
struct piece { const uint8_t *octets; unsigned length; };

struct datagram { unsigned number, n, count; int parity; struct piece packet, items[SPARES_LIMIT]; };

struct place { uint8_t state; uint16_t length; uint8_t octets[PACKET_LIMIT]; };

struct mark { uint8_t accepted, n, m; uint16_t lengths[M_LIMIT]; uint8_t messages[M_LIMIT][PACKET_LIMIT]; };

struct session {
    uint32_t base;                /* not wrapped; the number is its low 16 bits, and it is the sum of the counts */
    struct place places[VIEW];    /* by number modulo 64 */
    struct mark marks[AFTER];     /* by number modulo 32 */
};

/* Octets that are read from the front, and where the item begins that is read now, or was read last. */
struct input { const uint8_t *at, *end, *item; };

static int read_length(struct input *in, unsigned *value)
{
    in->item = in->at;
    if (in->at == in->end) return ENDS;
    unsigned first = *in->at++;
    *value = first;
    if (first < 0x80) return 0;
    if (first >= 0xC0) return FORM;
    if (in->at == in->end) return ENDS;
    *value = (first - 0x80) << 8 | *in->at++;
    return *value < 128 ? FORM : 0;
}

/* A length within the sizes, and the octets that it promises. */
static int read_piece(struct input *in, unsigned least, struct piece *piece)
{
    int refusal = read_length(in, &piece->length);
    if (refusal) return refusal;
    if (piece->length < least || piece->length > PACKET_LIMIT) return SIZE;
    in->item = in->at;
    if ((size_t)(in->end - in->at) < piece->length) return ENDS;
    piece->octets = in->at;
    in->at += piece->length;
    return 0;
}

static int read_octet(struct input *in, unsigned *value)
{
    in->item = in->at;
    if (in->at == in->end) return ENDS;
    *value = *in->at++;
    return 0;
}

/* The items in order; at a refusal the input says where the refused one begins. */
static int read_items(struct input *in, struct datagram *d)
{
    unsigned kind, one;
    if (in->end - in->at < 2) return ENDS;
    d->number = (unsigned)in->at[0] << 8 | in->at[1];
    in->at += 2;
    int refusal = read_piece(in, 1, &d->packet);
    if (refusal) return refusal;
    refusal = read_octet(in, &kind);
    if (refusal) return refusal;
    if (kind & 0x7F) return SPARE_BIT;
    d->parity = kind != 0;
    d->n = 0;
    if (d->parity) {
        refusal = read_octet(in, &one);
        if (refusal) return refusal;
        if (one != 1) return SIZE;
        refusal = read_octet(in, &d->n);
        if (refusal) return refusal;
        if (d->n < 1 || d->n > N_LIMIT) return SIZE;
    }
    refusal = read_length(in, &d->count);
    if (refusal) return refusal;
    if (d->parity ? d->count < 1 || d->count > M_LIMIT : d->count > SPARES_LIMIT) return SIZE;
    for (unsigned i = 0; i < d->count; i++) {
        refusal = read_piece(in, d->parity ? 0 : 1, &d->items[i]);
        if (refusal) return refusal;
    }
    in->item = in->at;
    return in->at == in->end ? 0 : LEFT_OVER;
}

/* A refusal met in reading order gives its place; otherwise the place is unchanged. */
static int read_datagram(const uint8_t *octets, size_t length, struct datagram *d, unsigned *place)
{
    struct input in = { octets, octets + length, octets };
    if (length > DATAGRAM_LIMIT) return OVERLONG;
    int refusal = read_items(&in, d);
    if (refusal) *place = (unsigned)(in.item - octets);
    return refusal;
}

static struct place *place_of(struct session *s, uint32_t number) { return &s->places[number % VIEW]; }

static struct mark *mark_of(struct session *s, uint32_t number) { return &s->marks[number % AFTER]; }

static void fill(struct place *place, int state, const uint8_t *octets, unsigned length)
{
    if (place->state != UNKNOWN) return;
    place->state = (uint8_t)state;
    place->length = (uint16_t)length;
    memcpy(place->octets, octets, length);
}

/* Message i of a number, if exactly one member is unknown: fills it. */
static int repair(struct session *s, uint32_t number, struct mark *mark, unsigned i)
{
    struct place *unknown = NULL;
    uint32_t member = number + i;
    for (unsigned step = 0; step < mark->n; step++) {
        struct place *place = place_of(s, member -= mark->m);
        if (place->state == UNKNOWN) {
            if (unknown) return 0;
            unknown = place;
        }
    }
    if (!unknown) return 0;
    uint8_t octets[PACKET_LIMIT];
    unsigned length = mark->lengths[i];
    memcpy(octets, mark->messages[i], length);
    member = number + i;
    for (unsigned step = 0; step < mark->n; step++) {
        const struct place *place = place_of(s, member -= mark->m);
        unsigned shorter = place->length < length ? place->length : length;   /* 0 for unknown and blank */
        for (unsigned o = 0; o < shorter; o++) octets[o] ^= place->octets[o];
    }
    fill(unknown, REPAIRED, octets, length);
    return 1;
}

static int repair_once(struct session *s)
{
    for (uint32_t d = 0; d < AFTER; d++) {
        struct mark *mark = mark_of(s, s->base + d);
        for (unsigned i = 0; i < mark->m; i++)
            if (mark->lengths[i] && repair(s, s->base + d, mark, i)) return 1;
    }
    return 0;
}

static int offer(struct session *s, const uint8_t *octets, size_t length, unsigned *place)
{
    struct datagram d;
    int refusal = read_datagram(octets, length, &d, place);
    if (refusal) return refusal;
    unsigned distance = (d.number - s->base) & 0xFFFF;
    if (distance > 32767) return LATE;
    if (distance >= AFTER) return AHEAD;
    struct mark *mark = mark_of(s, d.number);
    if (mark->accepted) return REPEATED;
    mark->accepted = 1;
    fill(place_of(s, d.number), RECEIVED, d.packet.octets, d.packet.length);
    for (unsigned i = 0; i < d.count; i++) {
        if (!d.parity) {
            fill(place_of(s, d.number - 1 - i), SPARE, d.items[i].octets, d.items[i].length);
        } else {
            mark->lengths[i] = (uint16_t)d.items[i].length;
            memcpy(mark->messages[i], d.items[i].octets, d.items[i].length);
        }
    }
    if (d.parity) {
        mark->n = (uint8_t)d.n;
        mark->m = (uint8_t)d.count;
    }
    while (repair_once(s)) { }
    return 0;
}

static void advance(struct session *s)
{
    struct mark *mark = mark_of(s, s->base);
    struct place *entering = place_of(s, s->base + AFTER);
    mark->accepted = mark->n = mark->m = 0;
    entering->state = UNKNOWN;
    entering->length = 0;
    s->base++;
}

static char out[1 << 16];
static size_t out_used;

static void flush_out(void)
{
    if (fwrite(out, 1, out_used, stdout) != out_used) exit(1);
    out_used = 0;
}

static char digit_pairs[256][2];
static uint8_t digit_values[256];

static void put_octet(unsigned octet)
{
    memcpy(out + out_used, digit_pairs[octet], 2);
    out_used += 2;
}

/* One result line: one octet, then a number if there is one, then octets. */
static void put_line(unsigned first, int has_number, unsigned number, const uint8_t *octets, unsigned length)
{
    if (out_used + 8 + 2 * PACKET_LIMIT > sizeof out) flush_out();
    put_octet(first);
    if (has_number) {
        put_octet(number >> 8 & 0xFF);
        put_octet(number & 0xFF);
    }
    for (unsigned o = 0; o < length; o++) put_octet(octets[o]);
    out[out_used++] = '\n';
}

static void put_refusal(int number, unsigned place)
{
    const uint8_t octets[] = { (uint8_t)number, (uint8_t)(place >> 8), (uint8_t)place };
    put_line(0xFF, 0, 0, octets, sizeof octets);
}

static void release(struct session *s)
{
    while (s->base < NUMBERS_LIMIT) {
        const struct place *place = place_of(s, s->base);
        if (place->state == UNKNOWN) return;
        put_line(place->state - RECEIVED, 1, s->base, place->octets, place->length);
        advance(s);
    }
}

static int take_datagram(struct session *s, const char *line, size_t length, unsigned *place)
{
    uint8_t octets[LINE_LIMIT / 2];
    if (length > LINE_LIMIT) return OVERLONG;
    if (length % 2) return NO_DIGITS;
    for (size_t o = 0; o < length / 2; o++) {
        unsigned high = digit_values[(uint8_t)line[2 * o]], low = digit_values[(uint8_t)line[2 * o + 1]];
        if ((high | low) > 15) return NO_DIGITS;
        octets[o] = (uint8_t)(high << 4 | low);
    }
    return offer(s, octets, length / 2, place);
}

static void take_line(struct session *s, const char *line, size_t length)
{
    if (length) {
        unsigned place = 0;   /* where the refusal is not met in reading order */
        int refusal = take_datagram(s, line, length, &place);
        if (refusal) put_refusal(refusal, place);
    } else if (s->base == NUMBERS_LIMIT) {
        put_refusal(LIMIT, 0);
    } else {
        put_line(3, 1, s->base, NULL, 0);
        advance(s);
    }
    release(s);
}

/* Lines from large blocks; of a line over the limit only so much is kept that it is still over. */
static void take_all(struct session *s)
{
    static char block[1 << 16], kept[LINE_LIMIT + 1];
    size_t kept_length = 0, got;
    while ((got = fread(block, 1, sizeof block, stdin)) > 0) {
        const char *at = block, *end = block + got;
        while (at < end) {
            const char *feed = memchr(at, '\n', (size_t)(end - at));
            size_t length = (size_t)((feed ? feed : end) - at);
            if (feed && kept_length == 0) {
                take_line(s, at, length);
            } else {
                size_t room = sizeof kept - kept_length, copied = length < room ? length : room;
                memcpy(kept + kept_length, at, copied);
                kept_length += copied;
                if (feed) {
                    take_line(s, kept, kept_length);
                    kept_length = 0;
                }
            }
            at += length + (feed != NULL);
        }
    }
    if (kept_length) take_line(s, kept, kept_length);
}

int main(void)
{
    static struct session session;
    const char *digits = "0123456789ABCDEF";
    memset(digit_values, 0xFF, sizeof digit_values);
    for (unsigned value = 0; value < 16; value++) {
        digit_values[(uint8_t)digits[value]] = (uint8_t)value;
        if (value > 9) digit_values[(uint8_t)digits[value] + 32] = (uint8_t)value;
    }
    for (unsigned octet = 0; octet < 256; octet++) {
        digit_pairs[octet][0] = digits[octet >> 4];
        digit_pairs[octet][1] = digits[octet & 15];
    }
    for (unsigned number = AFTER; number < VIEW; number++) session.places[number].state = BLANK;
    take_all(&session);
    flush_out();
    return 0;
}
