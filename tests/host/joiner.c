/* The calls on the joiner over the C interface, to be compared with `calls`: its lines 30 to 34 (rules 25.30 to 25.34). Before each call it
   makes the same call on a joiner whose `tainted` is neither 0 nor 1, which must be refused with 17 and unchanged (rule 24.6). */
#include "call_lines.h"

enum { ROOM_LIMIT = 2600 };

static tbx_joiner joiner;

/* A joiner whose `tainted` is neither 0 nor 1 must be refused and unchanged (rule 24.6). */
static void refuse_no_flag(bool lost, uint8_t type, const uint8_t *data, size_t count)
{
    tbx_joiner other = joiner, kept;
    uint8_t out[TBX_FRAME_LIMIT], old[TBX_FRAME_LIMIT];
    tbx_frame frame;
    other.tainted = (uint8_t)(2 + (other.size + type) % 254);
    kept = other;
    memset(out, FILLING, sizeof out), memset(old, FILLING, sizeof old);
    int why = lost ? tbx_joiner_lost(&other, &frame) : tbx_joiner_field(&other, type, data, count, out, sizeof out, &frame);
    if (why != TBX_OUTSIDE_RANGES || frame.kind || frame.size || memcmp(&other, &kept, sizeof kept) || memcmp(out, old, sizeof old))
        printf("tainted %u taken\n", kept.tainted);
}

static bool fresh(void)
{
    if (at != size) return false;
    memset(&joiner, FILLING, sizeof joiner);
    tbx_joiner_fresh(&joiner);
    answered(0, 0);
    return true;
}

static bool field(void)
{
    static uint8_t out[ROOM_LIMIT];
    tbx_frame frame;
    uint8_t type = (uint8_t)number(1);
    size_t count = number(2);
    const uint8_t *data = octets(count);
    size_t room = number(2);
    if (at != size || room > ROOM_LIMIT) return false;
    memset(out, FILLING, sizeof out);
    refuse_no_flag(false, type, data, count);
    if (answered(tbx_joiner_field(&joiner, type, data, count, room ? out : NULL, room, &frame), 0)) put(frame.kind, 1), put(frame.size, 2);
    put_octets(out, room);
    return true;
}

static bool lost(void)
{
    tbx_frame frame;
    if (at != size) return false;
    refuse_no_flag(true, 0, NULL, 0);
    int why = tbx_joiner_lost(&joiner, &frame);
    answered(why, 0);
    if (frame.refusal != why || frame.kind || frame.size) printf(" and a frame");
    return true;
}

static bool show(void)
{
    if (at != size) return false;
    answered(0, 0), put(joiner.tainted, 1), put(joiner.size, 2);
    put_octets(joiner.frame, joiner.size < TBX_FRAME_LIMIT ? joiner.size : TBX_FRAME_LIMIT);
    return true;
}

static bool overwrite(void)
{
    unsigned long what = number(1), octet = number(2), value = number(2);
    if (at != size) return false;
    if (what == 0 && value <= 1) joiner.tainted = (uint8_t)value;
    else if (what == 1) joiner.size = (uint16_t)value;
    else if (what == 2 && octet < TBX_FRAME_LIMIT && value <= 255) joiner.frame[octet] = (uint8_t)value;
    else return false;
    answered(0, 0);
    return true;
}

static bool answer(void)
{
    switch (number(1)) {
    case 0x30: return fresh();
    case 0x31: return field();
    case 0x32: return lost();
    case 0x33: return show();
    case 0x34: return overwrite();
    default: return false;
    }
}

int main(void)
{
    tbx_joiner_fresh(&joiner);
    answer_lines(answer);
    return 0;
}
