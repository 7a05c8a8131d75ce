/* Sessions whose memory is overwritten, over the C interface, in the lines of the calls program (section 25 of docs/RULES.md): 10, 11, 12,
   14, 15, 16, 17, 20, 21, 22 and 23, with the checked calls. The lines must be whole calls: it does not look for lines that are no call.
   Before each offer, release and send it makes the same call on a session with a number that no session has, which must be refused with 17
   and unchanged (rules 24.3 and 24.9). */
#include "call_lines.h"

/* The places of the parts in the table of a session. */
enum { NOTES = 2 * TBX_KEPT, MARKS = 3 * TBX_KEPT, NS = MARKS + TBX_HEARD, MS = NS + TBX_HEARD, MESSAGES = MS + TBX_HEARD };

static tbx_session session;
static tbx_sender sender;
static uint8_t lent[2600];

static bool same_head(tbx_head a, tbx_head b)
{
    return a.base == b.base && a.received == b.received && a.spare == b.spare && a.repaired == b.repaired && a.lost == b.lost;
}

/* A state, a mark, n or m outside the ranges (rules 13.8 and 13.11), of values that the table can hold. */
static void refuse_no_session(bool skip, size_t room)
{
    static tbx_session broken;
    static const unsigned places[] = { 0, MARKS, NS, MS }, least[] = { 5, 2, 9, 5 };
    static unsigned turn;
    unsigned which = turn % 4, slot = places[which] + turn / 4 % TBX_HEARD, value = least[which] + turn * 257 % 65500;
    size_t place = 1;
    tbx_number left;
    turn++;
    broken = session;
    broken.table[slot] = (uint16_t)value;
    bool taken = tbx_in_ranges(&broken) || tbx_offer(&broken, line + 1, size - 1, &place) != TBX_OUTSIDE_RANGES || place ||
                 tbx_release(&broken, skip, lent, room, &left) != TBX_OUTSIDE_RANGES || left.kind || left.number || left.size;
    taken = taken || broken.table[slot] != value || !same_head(broken.head, session.head);
    broken.table[slot] = session.table[slot];
    if (taken || memcmp(broken.table, session.table, sizeof session.table) || lent[0] != FILLING ||
        memcmp(broken.octets, session.octets, sizeof session.octets) || memcmp(broken.messages, session.messages, sizeof session.messages))
        printf("no session, and taken: ");
}

/* A history with a length outside the ranges (rule 15.13). */
static void refuse_no_sender(const uint8_t *packet, size_t count, bool parity, unsigned items, unsigned n, size_t room)
{
    static tbx_sender broken;
    static unsigned turn;
    unsigned slot = turn % TBX_HISTORY, value = TBX_PACKET_LIMIT + 1 + turn * 257 % 65000;
    size_t written = 1;
    turn++;
    broken = sender;
    broken.sizes[slot] = (uint16_t)value;
    int why = parity ? tbx_send_parity(&broken, packet, count, n, items, lent, room, &written)
                     : tbx_send_spares(&broken, packet, count, items, lent, room, &written);
    bool left = broken.sent == sender.sent && broken.sizes[slot] == value && !memcmp(broken.octets, sender.octets, sizeof sender.octets);
    if (why != TBX_OUTSIDE_RANGES || written || !left || tbx_sender_in_ranges(&broken) || lent[0] != FILLING)
        printf("no sender, and taken: ");
}

static void offer(void)
{
    size_t place;
    refuse_no_session(true, sizeof lent);
    int why = tbx_offer(&session, line + 1, size - 1, &place);
    answered(why, place);
}

static void release(void)
{
    bool skip = number(1);
    size_t room = number(2);
    tbx_number left;
    refuse_no_session(skip, room);
    int why = tbx_release(&session, skip, lent, room, &left);
    if (answered(why, left.place)) put(left.kind, 1), put(left.number, 2), put(left.note, 2), put(left.size, 2);
    put_octets(lent, room);
}

static void send(void)
{
    size_t count = number(2);
    const uint8_t *packet = octets(count);
    unsigned kind = (unsigned)number(1), a = (unsigned)number(1), b = (unsigned)number(1);
    size_t room = number(2), written;
    bool parity = kind == 0x80;
    unsigned items = parity ? b : a;
    refuse_no_sender(packet, count, parity, items, a, room);
    int why = parity ? tbx_send_parity(&sender, packet, count, a, b, lent, room, &written)
                     : tbx_send_spares(&sender, packet, count, a, lent, room, &written);
    if (answered(why, 0)) put(written, 2);
    put_octets(lent, room);
}

/* A packet or message: its length unchanged, and that many octets, or all that there are if these are fewer (rule 25.43). */
static void put_sized(unsigned length, const uint8_t *octets)
{
    put(length, 2);
    put_octets(octets, length < TBX_PACKET_LIMIT ? length : TBX_PACKET_LIMIT);
}

static void view(void)
{
    const uint16_t *t = session.table;
    put(0, 1), put(session.head.base, 2);
    for (unsigned i = 0; i < TBX_KEPT; i++) {
        unsigned slot = (session.head.base + TBX_HEARD + i) % TBX_KEPT;
        put(t[slot], 1), put(t[NOTES + slot], 2);
        put_sized(t[TBX_KEPT + slot], session.octets + slot * TBX_PACKET_LIMIT);
    }
    for (unsigned i = 0; i < TBX_HEARD; i++) {
        unsigned slot = (session.head.base + i) % TBX_HEARD;
        put(t[MARKS + slot], 1), put(t[NS + slot], 1), put(t[MS + slot], 1);
        for (unsigned j = slot * TBX_MESSAGES; j < slot * TBX_MESSAGES + t[MS + slot] && j < (slot + 1) * TBX_MESSAGES; j++)
            put_sized(t[MESSAGES + j], session.messages + j * TBX_PACKET_LIMIT);
    }
}

/* Sets a field of the receiving session, as a caller could (rule 25.22). */
static void overwrite(void)
{
    unsigned field = (unsigned)number(1), which = (unsigned)number(2), message = (unsigned)number(1), octet = (unsigned)number(2);
    uint32_t value = (uint32_t)number(4);
    unsigned kept = which % TBX_KEPT, heard = which % TBX_HEARD, j = heard * TBX_MESSAGES + message;
    uint32_t *counts[] = { &session.head.received, &session.head.spare, &session.head.repaired, &session.head.lost };
    const unsigned places[] = { kept, TBX_KEPT + kept, 0, MARKS + heard, NS + heard, MS + heard, MESSAGES + j, 0, NOTES + kept };
    if (field == 0) session.head.base = (uint16_t)value;
    else if (field <= 4) *counts[field - 1] = value;
    else if (field == 0x07) session.octets[kept * TBX_PACKET_LIMIT + octet] = (uint8_t)value;
    else if (field == 0x0C) session.messages[j * TBX_PACKET_LIMIT + octet] = (uint8_t)value;
    else session.table[places[field - 5]] = (uint16_t)value;
    put(0, 1);
}

static void overwrite_sender(void)
{
    unsigned field = (unsigned)number(1), slot = (unsigned)number(2) % TBX_HISTORY, octet = (unsigned)number(2);
    uint32_t value = (uint32_t)number(4);
    if (field == 0) sender.sent = value;
    else if (field == 1) sender.sizes[slot] = (uint16_t)value;
    else sender.octets[slot * TBX_PACKET_LIMIT + octet] = (uint8_t)value;
    put(0, 1);
}

/* `times` skips, or sends of the packet 06, from a fresh session on, up to the first that is refused (rules 25.21 and 25.28). */
static void again_and_again(bool sends)
{
    static const uint8_t packet[] = { 6 };
    unsigned long times = number(4);
    tbx_number left;
    size_t written;
    if (sends) tbx_sender_fresh(&sender);
    else tbx_fresh(&session);
    if (times > TBX_NUMBERS) times = TBX_NUMBERS;
    while (times-- > 0)
        if (sends ? tbx_send_spares_unchecked(&sender, packet, 1, 0, lent, sizeof lent, &written)
                  : tbx_release_unchecked(&session, true, lent, sizeof lent, &left)) break;
    put(0, 1);
}

static bool answer(void)
{
    tbx_head c = tbx_counts(&session);
    unsigned call = (unsigned)number(1);
    memset(lent, FILLING, sizeof lent);
    if (call == 0x10) tbx_fresh(&session), put(0, 1);
    else if (call == 0x11) offer();
    else if (call == 0x12) release();
    else if (call == 0x14) put(0, 1), put(c.received, 4), put(c.spare, 4), put(c.repaired, 4), put(c.lost, 4);
    else if (call == 0x15) view();
    else if (call == 0x16) again_and_again(false);
    else if (call == 0x17) overwrite();
    else if (call == 0x20) tbx_sender_fresh(&sender), put(0, 1);
    else if (call == 0x21) send();
    else if (call == 0x22) again_and_again(true);
    else if (call == 0x23) overwrite_sender();
    return true;
}

int main(void)
{
    memset(&session, FILLING, sizeof session), memset(&sender, FILLING, sizeof sender);
    tbx_fresh(&session), tbx_sender_fresh(&sender);
    answer_lines(answer);
    return 0;
}
