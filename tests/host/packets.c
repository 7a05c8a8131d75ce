/* Packets over the C interface, to be compared with `calls`: its lines 05 (read a packet) and 06 (write one) (rules 25.12 and 25.13). */
#include "call_lines.h"

enum { ROOM_LIMIT = 2600, LISTED = 255 };

static bool read_packet(void)
{
    uint8_t edition = (uint8_t)number(1);
    unsigned long ending = number(1);
    tbx_packet found;
    if (at > size || ending > 1) return false;
    size_t count = size - at;
    const uint8_t *packet = octets(count);
    int why = tbx_packet_read(packet, count, edition, ending == 1, &found);
    if (!answered(why, found.place)) return true;
    put(found.kind, 1), put(found.value, 1), put(found.count, 1);
    for (size_t i = 0; i < found.count; i++) {
        put(found.fields[i].type, 1), put(found.fields[i].size, 2);
        put_octets(packet + found.fields[i].start, found.fields[i].size);
    }
    return true;
}

/* Uses the header's call if there are as many lengths as types, otherwise the proved function, which takes both counts. */
static bool write_packet(void)
{
    static uint16_t lengths[LISTED];
    uint8_t out[ROOM_LIMIT];
    uint8_t edition = (uint8_t)number(1), kind = (uint8_t)number(1), value = (uint8_t)number(1);
    size_t type_count = number(1);
    const uint8_t *types = octets(type_count);
    size_t length_count = number(1);
    for (size_t i = 0; i < length_count; i++) lengths[i] = (uint16_t)number(2);
    size_t data_size = number(2);
    const uint8_t *data = octets(data_size);
    size_t room = number(2);
    tbx_core_wrote wrote = {0, 0, 0};
    if (at != size || room > ROOM_LIMIT) return false;
    memset(out, FILLING, sizeof out);
    if (type_count == length_count)
        wrote.refusal =
            (uint8_t)tbx_packet_write(edition, kind, value, types, lengths, type_count, data, data_size, out, room, &wrote.size);
    else
        wrote = tbx_core_packet_write(edition, kind, value, types, type_count, lengths, length_count, data, data_size, out, room);
    /* to `calls` a line with another kind is no call; here it must be refused (rules 24.5 and 25.5) */
    if (kind > 1 && wrote.refusal == TBX_WRONG_SETTINGS && out[0] == FILLING) return false;
    if (answered(wrote.refusal, wrote.place)) put(wrote.size, 2);
    put_octets(out, room);
    return true;
}

static bool answer(void)
{
    unsigned long call = number(1);
    return call == 0x05 ? read_packet() : call == 0x06 && write_packet();
}

int main(void)
{
    answer_lines(answer);
    return 0;
}
