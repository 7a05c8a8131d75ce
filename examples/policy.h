/* A policy for a host: when to solve, when to give up a number, when to make room, when to begin a fresh session, what to send again.
   docs/HOST.md has the rules P1 to P6, with their reasons and what they are worth. Take this file and change it: it is no part of the
   library. It is tested (tests/host/policy.c), and not proved.

       static policy line;                                     a receiver; `left` and `restarted` are yours
       policy_fresh(&line, 200, left, restarted, host);        patience of 200 ms
       policy_offer(&line, datagram, size, now);               for each datagram that came
       policy_look(&line, now);                                at policy_due(&line) or before, when nothing waits in the socket
       policy_end(&line, (uint16_t)(line.newest + 1));         when the call is over

   Times are in ms, by any clock that never goes back. */
#ifndef TUBAREXI_POLICY_H
#define TUBAREXI_POLICY_H

#include "tubarexi.h"

#include <limits.h>
#include <string.h>

enum {
    POLICY_NEAR = 64,     /* P3: room is made at once for a number that is less than this past the window */
    POLICY_AGREE = 3,     /* P4: so many strangers in a row are a peer that began again */
    POLICY_STEP = 8,      /* P4: a stranger follows another if its number is at most this much higher */
    POLICY_STRANGERS = 8, /* P4: strangers that are kept, to be offered to the fresh session */
    POLICY_REPEATS = 2    /* P6: how many times the last datagram of a turn is sent again */
};

typedef struct policy_datagram { size_t size; uint8_t octets[TBX_DATAGRAM_LIMIT]; } policy_datagram;

/* A receiver. `left` gets every number that leaves, in order, also a lost one; `restarted` is called when the peer began again, and then
   the next number to leave may be any. Between calls you may read `session`, `counts` (the numbers that left, by kind, in all sessions),
   `restarts` and `newest` (the last number that is known to be sent, from its own datagram or a later one). */
typedef struct policy {
    tbx_session session;
    uint32_t counts[4], restarts;
    uint16_t newest;
    long patience;
    void (*left)(void *host, const tbx_number *left, const uint8_t *packet);
    void (*restarted)(void *host);
    void *host;
    long heard[TBX_HEARD]; /* when a number that has not left became known to be sent */
    bool solved;           /* no datagram was accepted since the last solve */
    size_t strangers;
    uint16_t last_strange; /* the number of the last stranger */
    long since;            /* when the first stranger came */
    policy_datagram stranger[POLICY_STRANGERS];
} policy;

static inline uint16_t policy_base(const policy *p) { return p->session.head.base; }

/* Whether a number that is known to be sent has not left. */
static inline bool policy_behind(const policy *p) { return (uint16_t)(p->newest - policy_base(p)) < TBX_HEARD; }

/* Begins a fresh session at any number: what is before it is skipped, and not counted. */
static inline void policy_begin_at(policy *p, uint16_t number)
{
    tbx_number left;
    tbx_fresh(&p->session);
    while (policy_base(p) != number) tbx_release_unchecked(&p->session, true, NULL, 0, &left);
    p->newest = (uint16_t)(number - 1);
    p->solved = true;
}

static inline void policy_fresh(policy *p, long patience, void (*left)(void *, const tbx_number *, const uint8_t *),
                                void (*restarted)(void *), void *host)
{
    memset(p, 0, sizeof *p);
    p->patience = patience, p->left = left, p->restarted = restarted, p->host = host;
    policy_begin_at(p, 0);
}

/* Releases the number at the base, if it is known or may be skipped; returns whether it left. P5: when TBX_NUMBERS have passed, a fresh
   session continues at the same number. */
static inline bool policy_release(policy *p, bool skip)
{
    uint8_t packet[TBX_PACKET_LIMIT];
    tbx_number left;
    int why = tbx_release_unchecked(&p->session, skip, packet, sizeof packet, &left);
    if (why == TBX_ALL_PASSED) {
        policy_begin_at(p, policy_base(p));
        why = tbx_release_unchecked(&p->session, skip, packet, sizeof packet, &left);
    }
    if (why) return false;
    p->counts[left.kind]++;
    p->left(p->host, &left, packet);
    return true;
}

/* Releases every number up to the first unknown one. */
static inline void policy_release_known(policy *p) { while (policy_release(p, false)) {} }

/* P2: before a number is given up. Refusal 23 (a damaged or dishonest message) changes nothing, and the host continues without. */
static inline void policy_solve(policy *p)
{
    if (!p->solved) tbx_solve_unchecked(&p->session);
    p->solved = true;
}

/* The call is over, or the peer began again: every number below `next` leaves, if it is unknown as lost. */
static inline void policy_end(policy *p, uint16_t next)
{
    policy_solve(p);
    while ((uint16_t)(next - policy_base(p) - 1) < 32767 && policy_release(p, true)) {}
}

static inline int policy_offer(policy *p, const uint8_t *octets, size_t size, long now);

/* P4: the strangers agree. What is left of the old session leaves, and a fresh one takes them all. A number below TBX_HEARD is that of a
   peer that begins at 0. */
static inline void policy_restart(policy *p, long now)
{
    size_t count = p->strangers;
    uint16_t first = (uint16_t)(p->stranger[0].octets[0] << 8 | p->stranger[0].octets[1]);
    policy_end(p, (uint16_t)(policy_behind(p) ? p->newest + 1 : policy_base(p)));
    policy_begin_at(p, first < TBX_HEARD ? 0 : first);
    p->strangers = 0, p->restarts++;
    p->restarted(p->host);
    for (size_t i = 0; i < count; i++) policy_offer(p, p->stranger[i].octets, p->stranger[i].size, now);
}

/* P4: a datagram too far ahead, or late. It moves nothing, unless it follows others and nothing was accepted between them. Late ones that
   are not far back may have been held back by the network: they must also keep coming for longer than the patience. */
static inline int policy_strange(policy *p, int why, uint16_t number, const uint8_t *octets, size_t size, long now)
{
    bool near = why == TBX_LATE && (uint16_t)(policy_base(p) - number) <= TBX_HEARD + POLICY_NEAR;
    if (p->strangers && number == p->last_strange) return why;
    if ((uint16_t)(number - p->last_strange - 1) >= POLICY_STEP) p->strangers = 0;
    if (!p->strangers) p->since = now;
    if (p->strangers == POLICY_STRANGERS) memmove(p->stranger, p->stranger + 1, --p->strangers * sizeof *p->stranger);
    memcpy(p->stranger[p->strangers].octets, octets, size);
    p->stranger[p->strangers++].size = size, p->last_strange = number;
    if (p->strangers < POLICY_AGREE || (near && now - p->since < p->patience)) return why;
    policy_restart(p, now);
    return 0;
}

/* A datagram came; it may be any octets. Returns 0 or the refusal. */
static inline int policy_offer(policy *p, const uint8_t *octets, size_t size, long now)
{
    int why = tbx_offer_unchecked(&p->session, octets, size, NULL);
    uint16_t number = (uint16_t)(size < 2 ? 0 : octets[0] << 8 | octets[1]);
    if (why == TBX_TOO_FAR && (uint16_t)(number - policy_base(p)) < TBX_HEARD + POLICY_NEAR) { /* P3 */
        policy_solve(p);
        while ((uint16_t)(number - policy_base(p)) >= TBX_HEARD && policy_release(p, true)) {}
        why = tbx_offer_unchecked(&p->session, octets, size, NULL);
    }
    if (why == TBX_TOO_FAR || why == TBX_LATE) return policy_strange(p, why, number, octets, size, now);
    if (why) return why;
    p->strangers = 0, p->solved = false;
    if (!policy_behind(p)) p->newest = (uint16_t)(policy_base(p) - 1);
    while ((uint16_t)(number - p->newest - 1) < TBX_HEARD) p->heard[++p->newest % TBX_HEARD] = now;
    policy_release_known(p);
    return 0;
}

/* P1: when the number at the base is given up; LONG_MAX if nothing waits. */
static inline long policy_due(const policy *p)
{
    return policy_behind(p) ? p->heard[policy_base(p) % TBX_HEARD] + p->patience : LONG_MAX;
}

/* P1 and P2: what was waited for too long leaves as lost, unless solving brings it back, and the known numbers behind it leave. */
static inline void policy_look(policy *p, long now)
{
    while (now >= policy_due(p)) {
        policy_solve(p);
        if (!policy_release(p, true)) return;
        policy_release_known(p);
    }
}

/* P6: the sender's side. Keep the last datagram that was sent; while nothing else is sent, send it again when it is due. */
typedef struct policy_last { policy_datagram datagram; unsigned left; long due, gap; } policy_last;

static inline void policy_sent(policy_last *l, const uint8_t *octets, size_t size, long now, long gap)
{
    memcpy(l->datagram.octets, octets, size);
    l->datagram.size = size, l->left = POLICY_REPEATS, l->gap = gap, l->due = now + gap;
}

/* Whether the last datagram is to be sent again now. */
static inline bool policy_again(policy_last *l, long now)
{
    if (!l->left || now < l->due) return false;
    l->left--, l->due = now + l->gap;
    return true;
}
#endif
