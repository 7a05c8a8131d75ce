/* The policy of examples/policy.h: a scene for each of its rules (docs/HOST.md), in a time of its own. The last line is 'N passed, 0
   failed'; the status is 1 at the first difference. With a seed, `policy SEED`, it sends 1,000 packets over a bad line, and prints how many
   were missed. */
#include "policy.h"

#include <stdio.h>
#include <stdlib.h>

enum { PATIENCE = 200, TICK = 30, NONE = -1 };

static policy line;
static tbx_sender sender;
static policy_datagram made;
static long now;
static int passed;
static unsigned left_count, refused, out_of_order;
static uint16_t next_number;

static void expect(const char *what, long found, long owed)
{
    if (found != owed) {
        printf("differs: %s is %ld, and should be %ld\n%d passed, 1 failed\n", what, found, owed, passed);
        exit(1);
    }
    passed++;
}

/* A number left: numbers follow each other. */
static void left(void *host, const tbx_number *number, const uint8_t *packet)
{
    (void)host, (void)packet;
    out_of_order += number->number != next_number;
    next_number = (uint16_t)(number->number + 1);
    left_count++;
}

static void restarted(void *host) { next_number = ((policy *)host)->session.head.base; }

static void begin_scene(long patience)
{
    policy_fresh(&line, patience, left, restarted, &line);
    tbx_sender_fresh(&sender);
    now = 1000;
    left_count = refused = out_of_order = next_number = 0;
}

/* A packet has four octets, which count the packets that were made. */
static const uint8_t *packet_made(void)
{
    static uint8_t packet[4];
    static uint32_t count;
    count++;
    for (int i = 0; i < 4; i++) packet[i] = (uint8_t)(count >> (24 - 8 * i));
    return packet;
}

/* Makes the sender's next datagram: with n and m, or without m with k spares. */
static const policy_datagram *make(unsigned k, unsigned n, unsigned m)
{
    const uint8_t *packet = packet_made();
    int why = m ? tbx_send_parity(&sender, packet, 4, n, m, made.octets, sizeof made.octets, &made.size)
                : tbx_send_spares(&sender, packet, 4, k, made.octets, sizeof made.octets, &made.size);
    expect("send", why, 0);
    return &made;
}

/* Makes a datagram of any number, without spares. */
static const policy_datagram *make_at(unsigned number)
{
    const uint8_t head[] = { (uint8_t)(number >> 8), (uint8_t)number, 4 };
    memcpy(made.octets, head, 3), memcpy(made.octets + 3, packet_made(), 4);
    made.octets[7] = made.octets[8] = 0, made.size = 9;
    return &made;
}

static int offer(const policy_datagram *d)
{
    int why = policy_offer(&line, d->octets, d->size, now);
    refused += why != 0;
    return why;
}

static void wait(long time) { now += time, policy_look(&line, now); }

/* Offers the datagrams of numbers in a row, one at each tick. */
static void offer_row(unsigned from, unsigned to)
{
    for (unsigned number = from; number < to; number++) offer(make_at(number)), wait(TICK);
}

/* What left, by kind, in how many sessions, and the base. */
static void expect_counts(const char *scene, long received, long repaired, long lost, long restarts, long base)
{
    char what[100];
    const struct { const char *name; long found, owed; } rows[] = {
        { "received", line.counts[TBX_RECEIVED], received }, { "repaired", line.counts[TBX_REPAIRED], repaired },
        { "lost", line.counts[TBX_LOST], lost }, { "restarts", line.restarts, restarts },
        { "out of order", out_of_order, 0 }, { "the base", line.session.head.base, base },
    };
    for (size_t i = 0; i < sizeof rows / sizeof *rows; i++) {
        snprintf(what, sizeof what, "%s: %s", scene, rows[i].name);
        if (rows[i].owed != NONE) expect(what, rows[i].found, rows[i].owed);
    }
}

static void patience(void) /* P1 */
{
    begin_scene(PATIENCE);
    expect("nothing is due", policy_due(&line), LONG_MAX);
    offer_row(0, 5);
    offer(make_at(6));
    expect("number 5 is due", policy_due(&line), now + PATIENCE);
    wait(PATIENCE - 10), offer(make_at(7)), wait(9);
    expect_counts("patience, before", 5, 0, 0, 0, 5);
    wait(1);
    expect_counts("patience, at its end", 7, 0, 1, 0, 8);
    offer(make_at(9));
    expect("number 8 is due", policy_due(&line), now + PATIENCE);
    wait(10), offer(make_at(8));
    expect_counts("patience, it came", 9, 0, 1, 0, 10);
    expect("nothing is due again", policy_due(&line), LONG_MAX);
}

/* Numbers 10, 12 and 14 are lost. No message misses one alone, and all messages together give all three. */
static void offer_unsolved(void)
{
    for (unsigned number = 0; number < 17; number++) {
        unsigned n = number == 13 ? 3 : number == 15 ? 8 : number == 16 ? 4 : 0;
        const policy_datagram *d = make(0, n, n > 0);
        if (number != 10 && number != 12 && number != 14) offer(d);
    }
}

static void solve_first(void) /* P2 */
{
    begin_scene(PATIENCE);
    offer_unsolved();
    expect_counts("solve, before", 10, 0, 0, 0, 10);
    wait(PATIENCE);
    expect_counts("solve, as patience ends", 14, 3, 0, 0, 17);

    begin_scene(PATIENCE);
    offer_unsolved();
    policy_end(&line, 17);
    expect_counts("solve, at the end", 14, 3, 0, 0, 17);

    begin_scene(PATIENCE);
    offer_unsolved();
    offer(make_at(51));
    expect_counts("solve, as room is made", 14, 3, 3, 0, 20);
}

static void room(void) /* P3 */
{
    begin_scene(PATIENCE);
    offer_row(0, 10);
    offer(make_at(50));
    expect_counts("room, for one past the window", 10, 0, 9, 0, 19);
    offer_row(51, 60);
    wait(PATIENCE);
    expect_counts("room, after it", 20, 0, 40, 0, 60);
    offer(make_at(60 + TBX_HEARD + POLICY_NEAR - 1));
    expect("the furthest that is near", refused, 0);
    expect("one further", offer(make_at(policy_base(&line) + TBX_HEARD + POLICY_NEAR)), TBX_TOO_FAR);
    expect_counts("room, the furthest", NONE, 0, 40 + POLICY_NEAR, 0, 60 + POLICY_NEAR);
}

static void strays(void) /* P4: what agrees with nothing moves nothing */
{
    begin_scene(PATIENCE);
    for (unsigned number = 0; number < 300; number++) {
        offer_row(number, number + 1);
        offer(make_at(30000 + number)), offer(make_at(30000 + number + 1)); /* two that agree, and the call's own behind them */
    }
    expect_counts("strays between others", 300, 0, 0, 0, 300);
    for (unsigned i = 0; i < 100; i++) offer(make_at(1000 + i * 7919 % 30000));
    expect_counts("strays in a row", 300, 0, 0, 0, 300);
    offer(make_at(20000)), offer(make_at(20001)), offer(&made), offer(&made);
    expect_counts("a stray that is repeated", 300, 0, 0, 0, 300);
    expect("every stray is refused", refused, 600 + 100 + 4);
    offer_row(300, 310);
    expect_counts("the call after them", 310, 0, 0, 0, 310);
}

static void held_back(void) /* P4: what the network held back is no peer that began again */
{
    policy_datagram late[5];
    begin_scene(PATIENCE);
    offer_row(0, 10);
    for (unsigned i = 0; i < 5; i++) late[i] = *make_at(10 + i);
    offer_row(15, 17);
    wait(PATIENCE);
    for (unsigned i = 0; i < 5; i++) offer(&late[i]);
    offer_row(17, 30);
    expect_counts("held back", 25, 0, 5, 0, 30);
}

static void restart(unsigned before, unsigned first) /* P4: a peer that begins again, at 0 or elsewhere */
{
    begin_scene(PATIENCE);
    offer_row(0, before);
    offer(make_at(before + 1)), offer(make_at(before + 2)); /* they wait */
    offer_row(first, first + 100);
    expect_counts("begun again", (long)before + 2 + 100, 0, 1, 1, first + 100);
    offer_row(first + 100, first + 200);
    expect_counts("begun again, later", (long)before + 2 + 200, 0, 1, 1, first + 200);
}

static void restart_doubled(void) /* P4: the network repeats each datagram */
{
    begin_scene(PATIENCE);
    offer_row(0, 500);
    for (unsigned number = 0; number < 100; number++) offer(make_at(number)), offer(&made), wait(TICK);
    expect_counts("begun again, each twice", 600, 0, 0, 1, 100);
}

static void million(void) /* P5 */
{
    tbx_number gone;
    uint16_t base;
    for (int waits = 0; waits < 2; waits++) {
        begin_scene(PATIENCE);
        for (unsigned i = 0; i < TBX_NUMBERS - 1500; i++) tbx_release_unchecked(&line.session, true, NULL, 0, &gone);
        base = next_number = policy_base(&line), line.newest = (uint16_t)(base - 1);
        if (!waits) offer_row(base, base + 3000u);
        else for (unsigned i = 0; i < 3000; i += 2) { /* there is always a number that waits for one before it */
            offer(make_at(base + i + 3u)), offer(make_at(base + i)), wait(TICK);
        }
        wait(PATIENCE);
        if (waits) expect_counts("the millionth, with a number that waits", 2999, 0, 3, 0, (uint16_t)(base + 3002));
        else expect_counts("the millionth", 3000, 0, 0, 0, (uint16_t)(base + 3000));
    }
}

static void repeat(void) /* P6 */
{
    static policy_last last;
    const policy_datagram *d = make_at(7);
    expect("nothing was sent", policy_again(&last, 5000), false);
    policy_sent(&last, d->octets, d->size, 1000, 100);
    expect("not due", policy_again(&last, 1099), false);
    expect("due", policy_again(&last, 1100), true);
    expect("the same datagram", last.datagram.size == d->size && !memcmp(last.datagram.octets, d->octets, d->size), true);
    expect("not due again", policy_again(&last, 1199), false);
    expect("due again", policy_again(&last, 1200), true);
    expect("not a third time", policy_again(&last, 9000), false);
    policy_sent(&last, d->octets, d->size, 9000, 100);
    policy_sent(&last, d->octets, d->size, 9050, 100);
    expect("the next was sent", policy_again(&last, 9100), false);
    begin_scene(PATIENCE);
    offer_row(0, 3);
    expect("a repeat is harmless", offer(&made), TBX_LATE);
}

/* xorshift64*: on every machine the same seed gives the same losses. */
static uint64_t state = 0x9E3779B97F4A7C15u;

static unsigned chance(unsigned below)
{
    state ^= state >> 12, state ^= state << 25, state ^= state >> 27;
    return (unsigned)((state * 2685821657736338717u >> 33) % below);
}

/* 1,000 packets, one each 20 ms, with n = 6 and m = 3 and a patience of 900 ms. One in 8 times the line begins to lose, up to 4 datagrams
   in a row; the last datagram arrives. */
static void bad_line(void)
{
    unsigned burst = 0, dropped = 0;
    begin_scene(900);
    for (unsigned number = 0; number < 1000; number++) {
        const policy_datagram *d = make(0, 6, 3);
        if (!burst && !chance(8)) burst = 1 + chance(4);
        if (burst && number < 999) burst--, dropped++;
        else offer(d);
        wait(20);
    }
    policy_end(&line, 1000);
    printf("%u %u %u\n", dropped, 1000 - left_count + line.counts[TBX_LOST], refused);
}

int main(int arguments, char **argument)
{
    if (arguments > 1) {
        state ^= strtoull(argument[1], NULL, 10);
        bad_line();
        return 0;
    }
    patience();
    solve_first();
    room();
    strays();
    held_back();
    restart(500, 0);
    restart(50, 0);
    restart(500, 40000);
    restart(5000, 3000);
    restart(3, 200);
    restart_doubled();
    million();
    repeat();
    printf("%d passed, 0 failed\n", passed);
    return 0;
}
