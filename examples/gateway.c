/* A small gateway: two ends on this machine, each with a UDP socket, a sending session, a receiving session and a joiner. Each end sends a
   page of HDLC frames, half a frame in a packet, a packet at every tick. The switches say how many datagrams are lost or held back, whether
   the ends begin again in the middle, and whether the receiving sessions move to another adapter. What leaves each receiving session is
   printed, with the frames that it makes. It ends by itself. When to give a number up and when to begin again is policy.h's. */
#include "policy.h"

#include <arpa/inet.h>
#include <errno.h>
#include <poll.h>
#include <stdio.h>
#include <stdlib.h>
#include <sys/socket.h>
#include <time.h>
#include <unistd.h>

typedef struct {
    const char *name;
    int socket;
    struct sockaddr_in address;
    tbx_sender sender;
    policy receiver;
    tbx_joiner joiner;
    policy_last last;          /* what is sent again at the end of a turn */
    policy_datagram held_back;
    unsigned sent, dropped, reordered, refused, frames;
} end;

static end ends[2] = { { .name = "east" }, { .name = "west" } };
static unsigned packets = 40, spares = 2, n, m, loss = 10, reorder = 10, again_at, moved_at;
static long patience = 60, tick = 5;

static long now(void)
{
    struct timespec t;
    clock_gettime(CLOCK_MONOTONIC, &t);
    return t.tv_sec * 1000L + t.tv_nsec / 1000000L;
}

static void fail(const char *what) { perror(what), exit(1); }

/* Puts a datagram on the line, unless the line loses it or holds it back behind the next one. */
static void to_line(end *e, const policy_datagram *d)
{
    if ((unsigned)rand() % 100 < loss) { e->dropped++; return; }
    if (!e->held_back.size && (unsigned)rand() % 100 < reorder) { e->held_back = *d, e->reordered++; return; }
    if (send(e->socket, d->octets, d->size, MSG_DONTWAIT) < 0) perror("gateway: send");
    if (e->held_back.size && send(e->socket, e->held_back.octets, e->held_back.size, MSG_DONTWAIT) < 0) perror("gateway: send");
    e->held_back.size = 0;
}

/* Sends the next packet: V.21 data with half of a frame, whose octets are a text. The second half ends the frame. */
static void send_next(end *e)
{
    static const uint8_t types[] = { TBX_HDLC_DATA, TBX_HDLC_FCS_OK };
    char text[100];
    int whole = snprintf(text, sizeof text, "line %u of the page from the %s", e->sent / 2, e->name), half = whole / 2;
    bool second = e->sent % 2;
    uint16_t lengths[2] = { (uint16_t)(second ? whole - half : half), 0 };
    uint8_t packet[TBX_PACKET_LIMIT];
    size_t size;
    policy_datagram d;
    if (again_at && e->sent == again_at) tbx_sender_fresh(&e->sender); /* its numbers begin at 0 again */
    int why = tbx_packet_write(TBX_EDITION_1998, TBX_DATA, TBX_V21, types, lengths, second ? 2 : 1,
                               (const uint8_t *)text + (second ? half : 0), lengths[0], packet, sizeof packet, &size);
    if (!why) why = m ? tbx_send_parity(&e->sender, packet, size, n, m, d.octets, sizeof d.octets, &d.size)
                      : tbx_send_spares(&e->sender, packet, size, spares, d.octets, sizeof d.octets, &d.size);
    if (why) fprintf(stderr, "gateway: send refused: %s\n", tbx_refusal_text(why)), exit(1);
    e->sent++;
    policy_sent(&e->last, d.octets, d.size, now(), 2 * tick + 1);
    to_line(e, &d);
}

/* Feeds a number that left to the joiner, and prints the frames that it ends. A packet that does not read is like a lost one. */
static void join(end *e, const tbx_number *left, const uint8_t *packet)
{
    uint8_t out[TBX_FRAME_LIMIT];
    tbx_packet read;
    tbx_frame frame;
    if (left->kind == TBX_LOST || tbx_packet_read(packet, left->size, TBX_EDITION_1998, left->kind == TBX_REPAIRED, &read)) {
        tbx_joiner_lost(&e->joiner, &frame);
        return;
    }
    for (size_t i = 0; i < read.count; i++) {
        const tbx_field *f = &read.fields[i];
        int why = tbx_joiner_field(&e->joiner, f->type, packet + f->start, f->size, out, sizeof out, &frame);
        if (why) printf("%s: a field refused: %s\n", e->name, tbx_refusal_text(why));
        else if (frame.kind == TBX_GOOD_FRAME) e->frames++, printf("%s: frame '%.*s'\n", e->name, (int)frame.size, (const char *)out);
    }
}

static void left(void *host, const tbx_number *number, const uint8_t *packet)
{
    static const char *const kinds[] = { "received", "spare", "repaired", "lost" };
    end *e = host;
    printf("%s: packet %3u %s\n", e->name, number->number, kinds[number->kind]);
    join(e, number, packet);
}

static void restarted(void *host)
{
    end *e = host;
    printf("%s: the peer began again\n", e->name);
    tbx_joiner_fresh(&e->joiner);
}

/* Takes a datagram from the socket, if there is one; it may be any octets. The buffer has one octet more than a datagram may have: one that
   is too long is refused, and not cut to fit. */
static bool take(end *e)
{
    uint8_t octets[TBX_DATAGRAM_LIMIT + 1];
    ssize_t got = recv(e->socket, octets, sizeof octets, MSG_DONTWAIT);
    if (got < 0) { if (errno != EAGAIN) perror("gateway: recv"); return false; }
    int why = policy_offer(&e->receiver, octets, (size_t)got, now());
    if (why) e->refused++;
    if (why && why != TBX_REPEATED && why != TBX_LATE) printf("%s: a datagram refused: %s\n", e->name, tbx_refusal_text(why));
    return true;
}

/* Moves the receiving session to another adapter: its image goes there as text, and there the session continues in other memory. */
static void move(end *e)
{
    static char image[TBX_IMAGE_LIMIT];
    size_t size;
    int why = tbx_image_write(&e->receiver.session, image, sizeof image, &size);
    memset(&e->receiver.session, 0xA5, sizeof e->receiver.session);
    if (!why) why = tbx_image_read(&e->receiver.session, image, size);
    if (why) fprintf(stderr, "gateway: image refused: %s\n", tbx_refusal_text(why)), exit(1);
    printf("%s: the session moved, as an image of %zu characters\n", e->name, size);
}

static void usage(int status)
{
    fputs("usage: gateway [-n PACKETS] [-k SPARES, 0 to 8 | -p N,M, 1 to 8 and 1 to 4] [-l LOSS%] [-r REORDER%] [-w PATIENCE ms]\n"
          "               [-t TICK ms] [-s SEED] [-b PACKET, at which the ends begin again] [-i PACKET, at which the sessions move]\n",
          status ? stderr : stdout);
    exit(status);
}

/* A number from `least` to `most` and nothing behind it but `after`; where it ends. */
static unsigned number(char **text, long least, long most, char after)
{
    char *last;
    errno = 0;
    long value = strtol(*text, &last, 10);
    if (last == *text || errno || value < least || value > most || *last != after) usage(2);
    *text = last + 1;
    return (unsigned)value;
}

static void read_switches(int arguments, char **argument)
{
    int c;
    if (arguments > 1 && !strcmp(argument[1], "--help")) usage(0);
    while ((c = getopt(arguments, argument, "hn:k:p:l:r:w:t:s:b:i:")) != -1) {
        if (c == 'n') packets = number(&optarg, 1, 30000, 0);
        else if (c == 'k') spares = number(&optarg, 0, 8, 0);
        else if (c == 'p') n = number(&optarg, 1, 8, ','), m = number(&optarg, 1, 4, 0);
        else if (c == 'l') loss = number(&optarg, 0, 100, 0);
        else if (c == 'r') reorder = number(&optarg, 0, 100, 0);
        else if (c == 'w') patience = number(&optarg, 1, 60000, 0);
        else if (c == 't') tick = number(&optarg, 1, 1000, 0);
        else if (c == 's') srand(number(&optarg, 0, INT_MAX, 0));
        else if (c == 'b') again_at = number(&optarg, 1, 30000, 0);
        else if (c == 'i') moved_at = number(&optarg, 1, 30000, 0);
        else usage(c == 'h' ? 0 : 2);
    }
    if (optind < arguments) usage(2);
}

static void open_end(end *e)
{
    socklen_t size = sizeof e->address;
    e->address.sin_family = AF_INET;
    e->address.sin_addr.s_addr = htonl(INADDR_LOOPBACK);
    e->socket = socket(AF_INET, SOCK_DGRAM, 0);
    if (e->socket < 0 || bind(e->socket, (struct sockaddr *)&e->address, size) ||
        getsockname(e->socket, (struct sockaddr *)&e->address, &size)) fail("gateway: a UDP socket");
    tbx_sender_fresh(&e->sender);
    tbx_joiner_fresh(&e->joiner);
    policy_fresh(&e->receiver, patience, left, restarted, e);
}

/* One tick of an end: the next packet, or, when the page is sent, its last datagram again. */
static void at_tick(end *e)
{
    if (e->sent < packets) send_next(e);
    else if (policy_again(&e->last, now())) to_line(e, &e->last.datagram);
    if (moved_at && e->sent == moved_at) move(e), moved_at = e == &ends[1] ? 0 : moved_at;
}

int main(int arguments, char **argument)
{
    read_switches(arguments, argument);
    for (int i = 0; i < 2; i++) open_end(&ends[i]);
    for (int i = 0; i < 2; i++)
        if (connect(ends[i].socket, (struct sockaddr *)&ends[1 - i].address, sizeof ends[i].address)) fail("gateway: connect");
    long next = now(), over = LONG_MAX;
    while (now() < over) {
        struct pollfd polled[2] = { { ends[0].socket, POLLIN, 0 }, { ends[1].socket, POLLIN, 0 } };
        long until = next;
        for (int i = 0; i < 2; i++) if (policy_due(&ends[i].receiver) < until) until = policy_due(&ends[i].receiver);
        long wait = until - now();
        if (poll(polled, 2, wait > 0 ? (int)wait : 0) < 0 && errno != EINTR) fail("gateway: poll");
        for (int i = 0; i < 2; i++) {
            while (take(&ends[i])) {} /* all that waits, before the time is looked at: what is missing may be among it */
            policy_look(&ends[i].receiver, now());
        }
        if (now() < next) continue;
        next += tick;
        for (int i = 0; i < 2; i++) at_tick(&ends[i]);
        if (over == LONG_MAX && ends[0].sent == packets && ends[1].sent == packets) over = now() + 2 * patience + 10 * tick;
    }
    for (int i = 0; i < 2; i++) { /* the page is over: what is missing at its end leaves as lost */
        const uint32_t *c = ends[i].receiver.counts;
        policy_end(&ends[i].receiver, (uint16_t)(again_at < packets ? packets - again_at : packets));
        printf("%s: received %u, spare %u, repaired %u, lost %u, refused %u; frames %u; sent %u, of them dropped %u, held back %u\n",
               ends[i].name, c[TBX_RECEIVED], c[TBX_SPARE], c[TBX_REPAIRED], c[TBX_LOST], ends[i].refused, ends[i].frames, ends[i].sent,
               ends[i].dropped, ends[i].reordered);
    }
    return 0;
}
