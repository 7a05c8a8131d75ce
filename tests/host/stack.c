/* How much stack each call needs, measured: the call runs on a stack of its own, which is painted before. Each must need less than the
   header promises. The last line is 'N passed, 0 failed'; the status is 1 if one needs as much or more. */
#include "tubarexi.h"

#include <stdio.h>
#include <string.h>
#include <ucontext.h>

enum { STACK = 400000, PAINT = 0xA5, USUAL = 4000, SOLVE = 75000, READ = 205000 };

static uint8_t stack[STACK];
static ucontext_t here, there;
static tbx_session session, other;
static tbx_sender sender;
static tbx_joiner joiner;
static uint8_t datagram[TBX_DATAGRAM_LIMIT], out[TBX_DATAGRAM_LIMIT], longest[TBX_PACKET_LIMIT], packet[TBX_PACKET_LIMIT];
static char text[TBX_IMAGE_LIMIT];
static size_t size, packet_size, image_size, place;
static tbx_number left;
static tbx_packet found;
static tbx_frame frame;
static uint8_t types[TBX_FIELDS];
static uint16_t lengths[TBX_FIELDS];
static int answer;

/* The calls, each with as much to do as there can be. */
static void nothing(void) {}
static void fresh(void) { tbx_fresh(&other); }
static void in_ranges(void) { answer = !tbx_in_ranges(&session); }
static void offer(void) { answer = tbx_offer(&session, datagram, size, &place); }
static void offer_unchecked(void) { answer = tbx_offer_unchecked(&session, datagram, size, &place); }
static void release(void) { answer = tbx_release(&session, true, out, sizeof out, &left); }
static void release_unchecked(void) { answer = tbx_release_unchecked(&session, true, out, sizeof out, &left); }
static void solve(void) { answer = tbx_solve(&session); }
static void solve_unchecked(void) { answer = tbx_solve_unchecked(&session); }
static void image_write(void) { answer = tbx_image_write(&session, text, sizeof text, &image_size); }
static void image_read(void) { answer = tbx_image_read(&other, text, image_size); }
static void sender_fresh(void) { tbx_sender_fresh(&sender); }
static void sender_in_ranges(void) { answer = !tbx_sender_in_ranges(&sender); }
static void send_spares(void) { answer = tbx_send_spares(&sender, longest, sizeof longest, 8, out, sizeof out, &size); }
static void send_parity(void) { answer = tbx_send_parity(&sender, longest, sizeof longest, 8, 4, datagram, sizeof datagram, &size); }
static void packet_read(void) { answer = tbx_packet_read(packet, packet_size, TBX_EDITION_2002, true, &found); }
static void packet_write(void)
{
    answer = tbx_packet_write(TBX_EDITION_2002, TBX_DATA, TBX_V33_14400, types, lengths, TBX_FIELDS, longest, 8 * TBX_FIELDS, packet,
                              sizeof packet, &packet_size);
}
static void joiner_fresh(void) { tbx_joiner_fresh(&joiner); }
static void joiner_field(void) { answer = tbx_joiner_field(&joiner, TBX_HDLC_DATA, longest, 9, out, sizeof out, &frame); }
static void joiner_end(void) { answer = tbx_joiner_field(&joiner, TBX_HDLC_FCS_OK, NULL, 0, out, sizeof out, &frame); }
static void joiner_lost(void) { answer = tbx_joiner_lost(&joiner, &frame); }

static const struct row { const char *name; void (*call)(void); unsigned limit; } rows[] = {
    { "fresh", fresh, USUAL }, { "in_ranges", in_ranges, USUAL }, { "offer", offer, USUAL },
    { "offer_unchecked", offer_unchecked, USUAL }, { "release", release, USUAL }, { "release_unchecked", release_unchecked, USUAL },
    { "solve", solve, SOLVE }, { "solve_unchecked", solve_unchecked, SOLVE }, { "image_write", image_write, USUAL },
    { "image_read", image_read, READ }, { "sender_fresh", sender_fresh, USUAL }, { "sender_in_ranges", sender_in_ranges, USUAL },
    { "send_spares", send_spares, USUAL }, { "send_parity", send_parity, USUAL }, { "packet_write", packet_write, USUAL },
    { "packet_read", packet_read, USUAL }, { "joiner_fresh", joiner_fresh, USUAL }, { "joiner_field", joiner_field, USUAL },
    { "joiner_field, an end", joiner_end, USUAL }, { "joiner_lost", joiner_lost, USUAL },
};

/* How many octets of a painted stack a call touches. */
static unsigned used(void (*call)(void))
{
    unsigned untouched = 0;
    memset(stack, PAINT, sizeof stack);
    getcontext(&there);
    there.uc_stack.ss_sp = stack, there.uc_stack.ss_size = sizeof stack, there.uc_link = &here;
    makecontext(&there, call, 0);
    swapcontext(&here, &there);
    while (stack[untouched] == PAINT) untouched++;
    return STACK - untouched;
}

/* A session with losses, and a datagram that repairs some of them. */
static void prepare(void)
{
    answer = 0;
    tbx_fresh(&session), tbx_sender_fresh(&sender);
    for (int i = 0; i < 28; i++) {
        send_parity();
        if (i % 5 != 3 && i % 5 != 4) offer();
    }
    for (int i = 0; i < 3; i++) release();
    send_parity();
}

int main(void)
{
    int wrong = 0, passed = 0;
    for (size_t i = 0; i < sizeof longest; i++) longest[i] = (uint8_t)(i * 11 + 1);
    for (int i = 0; i < TBX_FIELDS; i++) types[i] = TBX_CM_MESSAGE, lengths[i] = 8;
    prepare();
    image_write(), packet_write(), joiner_fresh(); /* also so that the C library's functions are found before they are measured */
    unsigned bare = used(nothing);
    for (const struct row *row = rows; row < rows + sizeof rows / sizeof *rows; row++) {
        prepare();
        row->call();
        prepare();
        unsigned octets = used(row->call) - bare;
        bool right = octets < row->limit && !answer;
        printf("%-20s %6u of %u%s\n", row->name, octets, row->limit, answer ? ", and refused" : right ? "" : ", too much");
        if (right) passed++;
        else wrong++;
    }
    printf("%d passed, %d failed\n", passed, wrong);
    return wrong != 0;
}
