/* Calls on sessions over the C interface, to be compared with the independent program. Of the lines of `calls` (section 25 of
   docs/RULES.md) it takes those of the receiving session: fresh (10), offer (11), release (12), counts (14), many skips (16), write an
   image (18), read an image (19), solve (1A); and of the sending session: fresh (20), send (21), many sends (22). By default it uses the
   checked calls, with an argument the unchecked ones, where there are such. */
#include "call_lines.h"

enum { ROOM_LIMIT = 120000, SHORT_ROOM_LIMIT = 2600 };

static tbx_session session;
static tbx_sender sender;
static bool checked = true;
static uint8_t out[ROOM_LIMIT];

/* Writes the answer of a call that writes, and the whole buffer (rule 25.4). */
static void wrote(int why, size_t count, int width, size_t room)
{
    if (answered(why, 0)) put(count, width);
    put_octets(out, room);
}

static bool fresh(bool sends)
{
    if (at != size) return false;
    if (sends) memset(&sender, FILLING, sizeof sender), tbx_sender_fresh(&sender);
    else memset(&session, FILLING, sizeof session), tbx_fresh(&session);
    return answered(0, 0);
}

static bool offer(void)
{
    size_t place = 0, count = size - at;
    int why = (checked ? tbx_offer : tbx_offer_unchecked)(&session, octets(count), count, &place);
    answered(why, place);
    return true;
}

static bool release(void)
{
    tbx_number left;
    unsigned long skip = number(1);
    size_t room = number(2);
    if (at != size || skip > 1 || room > SHORT_ROOM_LIMIT) return false;
    int why = (checked ? tbx_release : tbx_release_unchecked)(&session, skip, out, room, &left);
    if (answered(why, left.place)) put(left.kind, 1), put(left.number, 2), put(left.note, 2), put(left.size, 2);
    put_octets(out, room);
    return true;
}

static bool counts(void)
{
    tbx_head c = tbx_counts(&session);
    if (at != size) return false;
    answered(0, 0), put(c.received, 4), put(c.spare, 4), put(c.repaired, 4), put(c.lost, 4);
    return true;
}

static bool give_up(void)
{
    unsigned long times = number(4);
    tbx_number left;
    if (at != size) return false;
    for (tbx_fresh(&session); times && !tbx_release_unchecked(&session, true, out, 0, &left); times--) {}
    return answered(0, 0);
}

static bool image_write(void)
{
    size_t written, room = number(4);
    if (at != size || room > ROOM_LIMIT) return false;
    int why = tbx_image_write(&session, (char *)out, room, &written);
    wrote(why, written, 4, room);
    return true;
}

static bool image_read(void)
{
    size_t count = size - at;
    answered(tbx_image_read(&session, (const char *)octets(count), count), 0);
    return true;
}

static bool solve(void)
{
    if (at != size) return false;
    answered((checked ? tbx_solve : tbx_solve_unchecked)(&session), 0);
    return true;
}

/* packet, kind, a, b, room */
static bool send(void)
{
    size_t count = number(2), written;
    const uint8_t *packet = octets(count);
    unsigned long kind = number(1), a = number(1), b = number(1);
    size_t room = number(2);
    bool parity = kind == 0x80;
    if (at != size || room > SHORT_ROOM_LIMIT || kind & 0x7F || (!parity && b)) return false;
    unsigned first = (unsigned)a, second = (unsigned)b;
    int why = parity ? (checked ? tbx_send_parity : tbx_send_parity_unchecked)(&sender, packet, count, first, second, out, room, &written)
                     : (checked ? tbx_send_spares : tbx_send_spares_unchecked)(&sender, packet, count, first, out, room, &written);
    wrote(why, written, 2, room);
    return true;
}

static bool send_on(void)
{
    static const uint8_t packet[] = {6};
    unsigned long times = number(4);
    size_t written;
    if (at != size) return false;
    for (tbx_sender_fresh(&sender); times && !tbx_send_spares_unchecked(&sender, packet, 1, 0, out, sizeof out, &written); times--) {}
    return answered(0, 0);
}

/* Makes one call; returns whether the line is one. */
static bool answer(void)
{
    memset(out, FILLING, sizeof out);
    switch (number(1)) {
    case 0x10: return fresh(false);
    case 0x11: return offer();
    case 0x12: return release();
    case 0x14: return counts();
    case 0x16: return give_up();
    case 0x18: return image_write();
    case 0x19: return image_read();
    case 0x1A: return solve();
    case 0x20: return fresh(true);
    case 0x21: return send();
    case 0x22: return send_on();
    default: return false;
    }
}

int main(int arguments, char **argument)
{
    (void)argument;
    checked = arguments < 2;
    tbx_fresh(&session);
    tbx_sender_fresh(&sender);
    answer_lines(answer);
    return 0;
}
