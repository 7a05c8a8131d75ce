/* A thousand sheets through a bad line. The sending session sends real fax packets, varied by seed, over a line that loses, holds back,
   repeats and damages datagrams, and the receiving session receives them, all through the C interface. Every number that leaves is compared
   with what was sent and what arrived, and every answer to a datagram with what the line did to it.
   thousand SHEETS SEED [WRONG] < PACKETS, a packet a line in hexadecimal. The last line is 'N booked wrongly', the status 1 if N is not 0.
   WRONG is for the self-test, a mistake that must be found: octet, swapped, lost, unmended, kept, refused, passed or unchecked. */
#include "bad_line.h"

#include <stdio.h>
#include <stdlib.h>
#include <time.h>

enum { CORPUS = 4096, RING = 256, UNKNOWN = TBX_LOST };

typedef struct { size_t size; uint8_t octets[TBX_PACKET_LIMIT]; } packet;

/* A packet that was sent: its settings, whether its own datagram arrived, how it was first filled, and by which datagram. */
typedef struct { packet is; bool parity, came; unsigned count, n; int kind; unsigned long filler; } sent_packet;

static packet corpus[CORPUS];
static size_t corpus_count;
static tbx_session session;
static tbx_sender sender;
static sent_packet ring[RING];
static unsigned long now, sent, booked, burst; /* in this call: ticks, packets sent, numbers that left; datagrams still to be lost */
static unsigned long patience; /* how many ticks a number is waited for: in some sheets longer than the window lasts (refusal 8) */
static unsigned long numbers, kinds[4], refusals[32], dropped, wrong;
static const char *mistake = "";

static void must(bool right) { if (!right) wrong++; }

static bool mistaken(const char *name, unsigned every) { return !strcmp(mistake, name) && !chance(every); }

/* Whether a number that left is the next one, and has the kind, note and octets that follow from what was sent and what arrived. */
static bool right(const tbx_number *left, const uint8_t *out)
{
    const sent_packet *s = &ring[booked % RING];
    size_t size = left->size, same = size < s->is.size ? size : s->is.size;
    bool repaired = left->kind == TBX_REPAIRED;
    if (left->number != booked % 65536) return false;
    if (left->kind != s->kind || left->note != s->filler % 65536) return false;
    if (left->kind == TBX_LOST) return !size;
    if (memcmp(out, s->is.octets, same)) return false;
    for (size_t i = same; i < size; i++)
        if (out[i] || !repaired) return false; /* only a repaired packet may go on, with zeros (rule 11.8) */
    return size >= s->is.size;
}

/* Calls the library's release, or makes the mistake. */
static int release_one(bool skip, uint8_t *out, tbx_number *left)
{
    static struct { bool full; tbx_number left; uint8_t out[TBX_PACKET_LIMIT]; } kept;
    if (kept.full) {
        kept.full = false, *left = kept.left;
        memcpy(out, kept.out, left->size);
        return 0;
    }
    if (!skip && mistaken("kept", 400)) return TBX_BASE_UNKNOWN;
    int why = tbx_release(&session, skip, out, TBX_PACKET_LIMIT, left);
    if (why) return why;
    if (left->kind != TBX_LOST && mistaken("octet", 400)) out[chance((unsigned)left->size)] ^= (uint8_t)(1 + chance(255));
    if (left->kind != TBX_LOST && mistaken("lost", 400)) left->kind = TBX_LOST, left->size = 0, left->note = 0;
    if (left->kind != TBX_LOST && mistaken("swapped", 400)) {
        kept.left = *left;
        memcpy(kept.out, out, left->size);
        kept.full = !tbx_release(&session, false, out, TBX_PACKET_LIMIT, left);
        if (!kept.full) *left = kept.left;
    }
    return 0;
}

/* Releases what is known, and skips an unknown number that was sent more than `patience` ticks ago. */
static void release(void)
{
    uint8_t out[TBX_PACKET_LIMIT];
    tbx_number left;
    while (booked < sent) {
        bool skip = now > booked + patience;
        int why = release_one(skip, out, &left);
        must(why ? why == TBX_BASE_UNKNOWN && !skip && ring[booked % RING].kind == UNKNOWN : right(&left, out));
        if (why) return;
        kinds[left.kind & 3]++, numbers++, booked++;
    }
}

/* The answer that a datagram must get (rules 2.1, 2.2, 2.6 to 2.9). */
static int expected(const datagram *d)
{
    static const int of_damage[DAMAGES] = { [CUT] = TBX_ENDS_EARLY, [BEHIND] = TBX_LEFT_OVER, [TOO_LONG] = TBX_TOO_LONG };
    if (d->damage) return of_damage[d->damage];
    if (d->number < booked) return TBX_LATE;
    if (d->number - booked >= TBX_HEARD) return TBX_TOO_FAR;
    return ring[d->number % RING].came ? TBX_REPEATED : 0;
}

static void fill(unsigned long number, int kind, unsigned long filler)
{
    sent_packet *s = &ring[number % RING];
    if (s->kind == UNKNOWN) s->kind = kind, s->filler = filler;
}

/* Repairs as this datagram arrives: as long as a message that arrived has exactly one unknown member, that member is filled (rules 11.1 to
   11.4). */
static void mend(unsigned long arrived)
{
    for (unsigned long number = booked; number < booked + TBX_HEARD && number < sent; number++) {
        const sent_packet *s = &ring[number % RING];
        for (unsigned i = 0; s->came && s->parity && i < s->count; i++) {
            unsigned long unknown = 0, which = 0;
            for (unsigned long back = s->count - i; back <= s->n * s->count - i && back <= number; back += s->count)
                if (ring[(number - back) % RING].kind == UNKNOWN) unknown++, which = number - back;
            if (unknown != 1) continue;
            fill(which, TBX_REPAIRED, arrived);
            mend(arrived);
            return;
        }
    }
}

/* A datagram arrives: it is dropped, as a kernel does, if its checksum is wrong, and otherwise offered. */
static void arrive(datagram *d)
{
    size_t place = 0;
    sent_packet *s = &ring[d->number % RING];
    bool holds = checksum(d->octets, d->size) == d->checksum || mistaken("unchecked", 1);
    must(holds == (d->damage != ALTERED));
    if (!holds) { dropped++; return; }
    int owed = expected(d);
    if (!owed && s->parity && mistaken("unmended", 4)) /* its messages are cut off */
        d->size = 5 + (s->is.size > 127) + s->is.size, d->octets[d->size - 2] = d->octets[d->size - 1] = 0;
    int why = mistaken("refused", 400) ? TBX_LATE : tbx_offer(&session, d->octets, d->size, &place);
    if (owed && mistaken("passed", 4)) why = 0;
    must(why == owed && (why != TBX_LEFT_OVER || place == d->whole));
    if (why) { refusals[why & 31]++; return; }
    s->came = true;
    fill(d->number, TBX_RECEIVED, d->number);
    for (unsigned j = 1; !s->parity && j <= s->count && j <= d->number; j++) fill(d->number - j, TBX_SPARE, d->number);
    mend(d->number);
}

/* A tick passes: the datagrams that are due arrive, the newest first, and numbers leave. */
static void tick(void)
{
    now++;
    for (size_t i = line_count; i-- > 0;)
        if (line[i].due < now) {
            arrive(&line[i]);
            line[i] = line[--line_count];
            release();
        }
    release();
}

static void send_packet(const packet *p, bool parity, unsigned count, unsigned n)
{
    uint8_t octets[TBX_DATAGRAM_LIMIT];
    size_t size;
    ring[sent % RING] = (sent_packet){ .is = *p, .parity = parity, .count = count, .n = n, .kind = UNKNOWN };
    must(!(parity ? tbx_send_parity(&sender, p->octets, p->size, n, count, octets, sizeof octets, &size)
                  : tbx_send_spares(&sender, p->octets, p->size, count, octets, sizeof octets, &size)));
    if (!burst && !chance(25)) burst = 1 + chance(chance(12) ? 4 : 40);
    if (burst) burst--;
    else {
        fly(octets, size, sent, now);
        if (!chance(40)) fly(octets, size, sent, now);
    }
    sent++;
}

/* Sends a sheet: the corpus from some packet on, with one octet of each varied, and with settings of its own. */
static void send_sheet(void)
{
    size_t from = chance((unsigned)corpus_count), count = 200 + chance(600);
    bool parity = chance(2);
    unsigned items = parity ? 1 + chance(4) : chance(9), n = 1 + chance(8);
    patience = chance(8) ? 24 : TBX_HEARD + 16;
    for (size_t i = 0; i < count; i++) {
        packet p = corpus[(from + i) % corpus_count];
        if (p.size > 8) p.octets[8 + chance((unsigned)p.size - 8)] ^= (uint8_t)chance(256);
        send_packet(&p, parity, items, n);
        tick();
    }
}

static void begin_call(void)
{
    memset(&session, 0xA5, sizeof session), memset(&sender, 0xA5, sizeof sender);
    tbx_fresh(&session), tbx_sender_fresh(&sender);
    now = sent = booked = burst = 0;
}

/* Within RING ticks everything on the line arrives, and what is still unknown is skipped; then the counts must equal how many numbers left
   in this call as each kind (rule 9.11). */
static void end_call(const unsigned long before[4])
{
    for (int ticks = 0; ticks < RING && (line_count || booked < sent); ticks++) tick();
    tbx_head c = tbx_counts(&session);
    const unsigned long counts[4] = { c.received, c.spare, c.repaired, c.lost };
    for (int kind = 0; kind < 4; kind++) must(counts[kind] == kinds[kind] - before[kind]);
    must(c.base == sent % 65536 && tbx_in_ranges(&session) && sender.sent == sent && tbx_sender_in_ranges(&sender));
}

static void read_corpus(void)
{
    static char text[2 * TBX_PACKET_LIMIT + 8];
    while (corpus_count < CORPUS && fgets(text, sizeof text, stdin)) {
        packet *p = &corpus[corpus_count];
        unsigned octet;
        for (p->size = 0; p->size < TBX_PACKET_LIMIT && sscanf(text + 2 * p->size, "%2x", &octet) == 1; p->size++)
            p->octets[p->size] = (uint8_t)octet;
        if (p->size) corpus_count++;
    }
}

static void progress(unsigned done, unsigned sheets)
{
    static const char bar[] = "########################################........................................";
    fprintf(stderr, "\r[%.40s] %u of %u sheets%s", bar + 40 - 40ul * done / (sheets ? sheets : 1), done, sheets, done < sheets ? "" : "\n");
}

static void report(unsigned sheets, double seconds)
{
    unsigned long refused = 0, hurt = damaged[CUT] + damaged[BEHIND] + damaged[TOO_LONG] + damaged[ALTERED];
    for (int why = 1; why < 32; why++) refused += refusals[why];
    printf("sheets  packets received   spare repaired    lost refused damaged seconds\n");
    printf("%6u %8lu %8lu %7lu %8lu %7lu %7lu %7lu %7.1f\n", sheets, numbers, kinds[0], kinds[1], kinds[2], kinds[3], refused,
           hurt, seconds);
    printf("refused: repeated %lu, late %lu, too far %lu, cut short %lu, octets behind the end %lu, too long %lu\n", refusals[TBX_REPEATED],
           refusals[TBX_LATE], refusals[TBX_TOO_FAR], refusals[TBX_ENDS_EARLY], refusals[TBX_LEFT_OVER], refusals[TBX_TOO_LONG]);
    printf("altered, and dropped for the checksum: %lu of %lu\n", dropped, damaged[ALTERED]);
    printf("%lu booked wrongly\n", wrong);
}

int main(int arguments, char **argument)
{
    unsigned sheets = arguments > 1 ? (unsigned)atoi(argument[1]) : 1000;
    state = 0x9E3779B97F4A7C15u ^ (arguments > 2 ? strtoull(argument[2], NULL, 10) : 1);
    if (arguments > 3) mistake = argument[3];
    clock_t begun = clock();
    read_corpus();
    if (!corpus_count) { fputs("thousand: no packets on standard input\n", stderr); return 2; }
    for (unsigned done = 0; done < sheets;) {
        unsigned long before[4];
        unsigned last = done + 1 + chance(chance(2) ? 4 : 300);
        memcpy(before, kinds, sizeof before);
        begin_call();
        for (; done < sheets && done < last; done++) progress(done, sheets), send_sheet();
        end_call(before);
    }
    progress(sheets, sheets);
    report(sheets, (double)(clock() - begun) / CLOCKS_PER_SEC);
    return wrong != 0;
}
