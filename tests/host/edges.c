/* The header's names and edges: each name against octets of the rules, choices that no octet holds, NULL where it is allowed, and what is
   written with a refusal (rules 6.28 to 6.30, 7.2, 7.13, 15.9, 16.2 to 16.4, 24.1, 24.2, 24.5, 24.8 to 24.10, 24.17, 24.19 and 24.20). The
   last line is 'N passed, 0 failed'; the status is 1 at the first difference. `edges names` prints the names of refusals, indicators, data kinds and
   field types, a line each. */
#include "tubarexi.h"

#include <stdio.h>
#include <stdlib.h>
#include <string.h>

static tbx_session session;
static tbx_sender sender, broken;
static tbx_joiner joiner;
static uint8_t out[TBX_DATAGRAM_LIMIT];
static char text[TBX_IMAGE_LIMIT];
static size_t written, place;
static tbx_packet found;
static tbx_frame frame;
static tbx_number left;
static const uint8_t packet[] = { 6 };
static int passed;

static void expect(const char *what, long answer, long owed)
{
    if (answer != owed) {
        printf("differs: %s is %ld, and should be %ld\n%d passed, 1 failed\n", what, answer, owed, passed);
        exit(1);
    }
    passed++;
}

/* A refusal, after which `written` must be 0. */
static void refused(const char *what, int answer, int owed)
{
    expect(what, answer, owed);
    expect("octets written with a refusal", (long)written, 0);
    written = 99;
}

static int read(enum tbx_edition edition, const char *octets, size_t size)
{
    return tbx_packet_read((const uint8_t *)octets, size, edition, false, &found);
}

static void packets(void)
{
    expect("an indicator", read(TBX_EDITION_1998, "\x06", 1), 0);
    expect("its kind", found.kind, TBX_INDICATOR);
    expect("its kind's number", TBX_INDICATOR, 0);
    expect("its value", found.value, TBX_V21_PREAMBLE);
    expect("a data packet of 06/98", read(TBX_EDITION_1998, "\xC0\x01\x10", 3), 0);
    expect("its kind", found.kind, TBX_DATA);
    expect("its value", found.value, TBX_V21);
    expect("its field's type", found.fields[0].type, TBX_HDLC_SIG_END);
    expect("the same of 2002", read(TBX_EDITION_2002, "\xC0\x01\x10", 3), 0);
    expect("its field's type", found.fields[0].type, TBX_HDLC_FCS_OK);
    expect("an added indicator", read(TBX_EDITION_2002, "\x20\x00", 2), 0);
    expect("its value", found.value, TBX_V8_ANSAM);
    expect("an added indicator in 06/98", read(TBX_EDITION_1998, "\x20\x00", 2), TBX_NOT_ASSIGNED);
    expect("the number of 06/98", TBX_EDITION_1998, 0);
    memset(&found, 0xA5, sizeof found);
    expect("no edition 2", read((enum tbx_edition)2, "\x06", 1), TBX_WRONG_SETTINGS);
    expect("what is read with a refusal", found.refusal, TBX_WRONG_SETTINGS);
    expect("and all else", !found.kind && !found.value && !found.place && !found.count && !found.fields[0].type, true);
    expect("no edition 256", read((enum tbx_edition)256, "\x06", 1), TBX_WRONG_SETTINGS);
    expect("no edition -1", read((enum tbx_edition)-1, "\x06", 1), TBX_WRONG_SETTINGS);
}

static int write(enum tbx_edition edition, enum tbx_packet_kind kind, unsigned value, size_t room)
{
    return tbx_packet_write(edition, kind, value, NULL, NULL, 0, NULL, 0, out, room, &written);
}

static void packets_written(void)
{
    expect("an indicator written", write(TBX_EDITION_1998, TBX_INDICATOR, TBX_CED, sizeof out), 0);
    expect("its octet", written == 1 && out[0] == 0x04, true);
    expect("a data packet written", write(TBX_EDITION_1998, TBX_DATA, TBX_V27_2400, sizeof out), 0);
    expect("its octet", written == 1 && out[0] == 0x42, true);
    expect("an added indicator written", write(TBX_EDITION_2002, TBX_INDICATOR, TBX_V8_ANSAM, sizeof out), 0);
    expect("its octets", written == 2 && out[0] == 0x20 && out[1] == 0x00, true);
    refused("no room", write(TBX_EDITION_1998, TBX_INDICATOR, TBX_CED, 0), TBX_NO_ROOM);
    refused("edition 256", write((enum tbx_edition)256, TBX_INDICATOR, 0, 9), TBX_WRONG_SETTINGS);
    refused("kind 256", write(TBX_EDITION_1998, (enum tbx_packet_kind)256, 0, 9), TBX_WRONG_SETTINGS);
    refused("value 256", write(TBX_EDITION_1998, TBX_INDICATOR, 256, 9), TBX_NOT_ASSIGNED);
    refused("value 256 in 2002", write(TBX_EDITION_2002, TBX_DATA, 256, 9), TBX_NOT_ASSIGNED);
    expect("NULL for what is written",
           tbx_packet_write(TBX_EDITION_1998, TBX_INDICATOR, TBX_CNG, NULL, NULL, 0, NULL, 0, out, sizeof out, NULL), 0);
}

static void sends(void)
{
    static const unsigned wide[] = { 9, 255, 256, 257, 258, 65536, 65538, 4294967295u };
    memset(&broken, 0xA5, sizeof broken);
    tbx_sender_fresh(&sender);
    expect("NULL with spares", tbx_send_spares(&sender, packet, 1, 0, out, sizeof out, NULL), 0);
    expect("NULL with parity", tbx_send_parity(&sender, packet, 1, 1, 1, out, sizeof out, NULL), 0);
    expect("NULL with spares, unchecked", tbx_send_spares_unchecked(&sender, packet, 1, 0, out, sizeof out, NULL), 0);
    expect("NULL with parity, unchecked", tbx_send_parity_unchecked(&sender, packet, 1, 1, 1, out, sizeof out, NULL), 0);
    expect("the packets sent", sender.sent, 4);
    for (size_t i = 0; i < sizeof wide / sizeof *wide; i++) {
        refused("k", tbx_send_spares(&sender, packet, 1, wide[i], out, sizeof out, &written), TBX_WRONG_SETTINGS);
        refused("n", tbx_send_parity(&sender, packet, 1, wide[i], 1, out, sizeof out, &written), TBX_WRONG_SETTINGS);
        refused("m", tbx_send_parity(&sender, packet, 1, 1, wide[i], out, sizeof out, &written), TBX_WRONG_SETTINGS);
        refused("k, unchecked", tbx_send_spares_unchecked(&sender, packet, 1, wide[i], out, sizeof out, &written), TBX_WRONG_SETTINGS);
        refused("n, unchecked", tbx_send_parity_unchecked(&sender, packet, 1, wide[i], 1, out, sizeof out, &written), TBX_WRONG_SETTINGS);
        refused("m, unchecked", tbx_send_parity_unchecked(&sender, packet, 1, 1, wide[i], out, sizeof out, &written), TBX_WRONG_SETTINGS);
        refused("k of no sender", tbx_send_spares(&broken, packet, 1, wide[i], out, sizeof out, &written), TBX_OUTSIDE_RANGES);
        refused("k before the packet", tbx_send_spares(&sender, packet, 0, wide[i], out, sizeof out, &written), TBX_WRONG_SETTINGS);
    }
    refused("n = 3, m = 5", tbx_send_parity(&sender, packet, 1, 3, 5, out, sizeof out, &written), TBX_WRONG_SETTINGS);
    expect("n = 5, m = 3", tbx_send_parity(&sender, packet, 1, 5, 3, out, sizeof out, &written), 0);
    expect("its n and m", out[6] == 5 && out[7] == 3, true);
    expect("n = 5, m = 3, unchecked", tbx_send_parity_unchecked(&sender, packet, 1, 5, 3, out, sizeof out, &written), 0);
    expect("its n and m", out[6] == 5 && out[7] == 3, true);
    refused("a packet of no octets", tbx_send_spares(&sender, packet, 0, 1, out, sizeof out, &written), TBX_OUTSIDE_SIZES);
    refused("a datagram in no room", tbx_send_parity(&sender, packet, 1, 1, 1, out, 3, &written), TBX_NO_ROOM);
}

/* Number 0 arrives, 1 comes as the spare of 2, 3 by the parity of 4, and 5 is lost. */
static void kinds(void)
{
    static const uint8_t first[] = { 0, 0, 1, 6, 0, 0 }, third[] = { 0, 2, 1, 6, 0, 1, 1, 6 };
    static const uint8_t fifth[] = { 0, 4, 1, 6, 0x80, 1, 1, 1, 1, 6 };
    tbx_fresh(&session);
    expect("datagram 0", tbx_offer(&session, first, sizeof first, &place), 0);
    expect("datagram 2", tbx_offer(&session, third, sizeof third, NULL), 0);
    expect("datagram 4", tbx_offer(&session, fifth, sizeof fifth, NULL), 0);
    expect("datagram 4 again", tbx_offer(&session, fifth, sizeof fifth, NULL), TBX_REPEATED);
    expect("datagram 4 cut", tbx_offer(&session, fifth, 9, &place), TBX_ENDS_EARLY);
    expect("its place", (long)place, 9);
    expect("the place of a datagram that is taken or repeated", (tbx_offer(&session, fifth, sizeof fifth, &place), (long)place), 0);
    static const int owed[] = { TBX_RECEIVED, TBX_SPARE, TBX_RECEIVED, TBX_REPAIRED, TBX_RECEIVED, TBX_LOST };
    static const int numbers[] = { 0, 1, 0, 2, 0, 3 };
    for (int i = 0; i < 6; i++) {
        memset(&left, 0xA5, sizeof left);
        if (i == 5) expect("number 5 without skip", tbx_release(&session, false, out, sizeof out, &left), TBX_BASE_UNKNOWN);
        if (i == 5) expect("what is written with a refusal", !left.kind && !left.number && !left.note && !left.place && !left.size, true);
        expect("a release", tbx_release(&session, true, out, sizeof out, &left), 0);
        expect("its kind", left.kind, owed[i]);
        expect("its kind's number", left.kind, numbers[i]);
    }
    expect("NULL for an image's size", tbx_image_write(&session, text, sizeof text, NULL), 0);
    refused("an image in no room", tbx_image_write(&session, text, 9, &written), TBX_NO_ROOM);
}

/* A refusal changes no octet of the memory, also none that no field has (rule 24.9). */
static void unchanged(const char *what, int answer, int owed, const void *after, const void *before, size_t size)
{
    expect(what, answer, owed);
    expect("octets changed by a refusal", memcmp(after, before, size), 0);
}

static void refusals(void)
{
    static const uint8_t first[] = { 0, 0, 1, 6, 0, 0 }, third[] = { 0, 2, 1, 6, 0, 0 };
    static tbx_session painted, kept;
    static tbx_joiner joiner_kept;
    static tbx_sender sender_kept;
    tbx_fresh(&painted);
    tbx_offer(&painted, third, sizeof third, NULL);
    memset((uint8_t *)&painted + offsetof(tbx_head, base) + 2, 0xA5, 2); /* behind the base */
    memcpy(&kept, &painted, sizeof kept);
    unchanged("unknown", tbx_release(&painted, false, out, sizeof out, &left), TBX_BASE_UNKNOWN, &painted, &kept, sizeof kept);
    unchanged("unknown, unchecked", tbx_release_unchecked(&painted, false, out, sizeof out, &left), TBX_BASE_UNKNOWN, &painted, &kept,
              sizeof kept);
    unchanged("no datagram", tbx_offer(&painted, first, 5, NULL), TBX_ENDS_EARLY, &painted, &kept, sizeof kept);
    unchanged("repeated", tbx_offer_unchecked(&painted, third, sizeof third, NULL), TBX_REPEATED, &painted, &kept, sizeof kept);
    unchanged("no image", tbx_image_read(&painted, "02", 2), TBX_BAD_IMAGE, &painted, &kept, sizeof kept);
    tbx_joiner_fresh(&joiner);
    memset((uint8_t *)&joiner + 1, 0xA5, 1);
    memcpy(&joiner_kept, &joiner, sizeof joiner);
    unchanged("no type", tbx_joiner_field(&joiner, (enum tbx_field_type)12, packet, 1, out, sizeof out, &frame), TBX_NOT_ASSIGNED, &joiner,
              &joiner_kept, sizeof joiner);
    memcpy(&sender_kept, &sender, sizeof sender);
    unchanged("no k", tbx_send_spares(&sender, packet, 1, 9, out, sizeof out, NULL), TBX_WRONG_SETTINGS, &sender, &sender_kept,
              sizeof sender);
}

static void frames(void)
{
    tbx_joiner_fresh(&joiner);
    expect("data", tbx_joiner_field(&joiner, TBX_HDLC_DATA, packet, 1, out, sizeof out, &frame), 0);
    expect("no frame", frame.kind, TBX_NO_FRAME);
    expect("a good end", tbx_joiner_field(&joiner, TBX_HDLC_FCS_OK, NULL, 0, out, sizeof out, &frame), 0);
    expect("a good frame", frame.kind == TBX_GOOD_FRAME && frame.kind == 1 && frame.size == 1, true);
    expect("a bad end", tbx_joiner_field(&joiner, TBX_HDLC_FCS_BAD, NULL, 0, out, sizeof out, &frame), 0);
    expect("a bad frame", frame.kind == TBX_BAD_FRAME && frame.kind == 2 && frame.size == 0, true);
    expect("no frame's number", TBX_NO_FRAME, 0);
    for (unsigned type = 12; type < 1000; type += 61) { /* 256 is among them */
        memset(&frame, 0xA5, sizeof frame);
        expect("a type", tbx_joiner_field(&joiner, (enum tbx_field_type)type, packet, 1, out, sizeof out, &frame), TBX_NOT_ASSIGNED);
        expect("the frame with a refusal", frame.refusal == TBX_NOT_ASSIGNED && !frame.kind && !frame.size, true);
    }
}

static void names(void)
{
    for (int i = -1; i < 26; i++) printf("refusal %d %s\n", i, tbx_refusal_text(i));
    for (unsigned i = 0; i < 25; i++) printf("indicator %u %s\n", i, tbx_indicator_text(i));
    for (unsigned i = 0; i < 17; i++) printf("data %u %s\n", i, tbx_data_kind_text(i));
    for (unsigned i = 0; i < 14; i++) printf("type %u %s\n", i, tbx_field_type_text(i));
}

int main(int arguments, char **argument)
{
    char version[30];
    (void)argument;
    if (arguments > 1) { names(); return 0; }
    snprintf(version, sizeof version, "%d.%d.%d", TBX_VERSION_MAJOR, TBX_VERSION_MINOR, TBX_VERSION_PATCH);
    expect("the version in words", strcmp(version, TBX_VERSION), 0);
    expect("the library's version", tbx_version(), TBX_VERSION_NUMBER);
    packets();
    packets_written();
    sends();
    kinds();
    refusals();
    frames();
    printf("%d passed, 0 failed\n", passed);
    return 0;
}
