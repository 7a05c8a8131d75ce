/* A session as full as possible: its image has TBX_IMAGE_LIMIT characters, a buffer of one fewer is too short, and the image reads back as
   the same session; a refusal changes nothing (rules 20.11, 20.18 to 20.20, 24.9, 24.12 and 24.13). The last line is 'N passed, 0 failed';
   the status is 1 at the first difference. */
#include "tubarexi.h"

#include <stdio.h>
#include <stdlib.h>
#include <string.h>

static tbx_session session, other, before;
static char text[TBX_IMAGE_LIMIT + 1], kept[sizeof text];
static int passed;

static void expect(const char *what, bool right)
{
    if (!right) {
        printf("differs: %s\n%d passed, 1 failed\n", what, passed);
        exit(1);
    }
    passed++;
}

static bool same(const tbx_session *a, const tbx_session *b)
{
    return a->head.base == b->head.base && a->head.received == b->head.received && a->head.spare == b->head.spare &&
           a->head.repaired == b->head.repaired && a->head.lost == b->head.lost && !memcmp(a->table, b->table, sizeof a->table) &&
           !memcmp(a->octets, b->octets, sizeof a->octets) && !memcmp(a->messages, b->messages, sizeof a->messages);
}

/* Writes octets of the greatest length, behind their length. */
static uint8_t *put_item(uint8_t *to, int seed)
{
    *to++ = 0x80 | TBX_PACKET_LIMIT >> 8;
    *to++ = TBX_PACKET_LIMIT & 0xFF;
    for (int i = 0; i < TBX_PACKET_LIMIT; i++) *to++ = (uint8_t)(seed * 7 + i * 11 + 1);
    return to;
}

/* Offers a datagram with the longest packet and all messages, each over one packet. */
static void offer(int number)
{
    uint8_t datagram[TBX_DATAGRAM_LIMIT], *to = datagram;
    *to++ = (uint8_t)(number >> 8), *to++ = (uint8_t)number;
    to = put_item(to, number);
    *to++ = 0x80, *to++ = 1, *to++ = 1, *to++ = TBX_MESSAGES;
    for (int i = 0; i < TBX_MESSAGES; i++) to = put_item(to, number + i + 1);
    expect("a datagram", tbx_offer(&session, datagram, (size_t)(to - datagram), NULL) == 0);
}

/* A text that is no image of a session is refused with `why`, and the session is unchanged (rule 20.18). */
static void refused(const char *what, size_t size, int why)
{
    expect(what, tbx_image_read(&other, text, size) == why && same(&other, &before));
}

int main(void)
{
    size_t written = 1;
    tbx_number left;
    tbx_fresh(&session);
    expect("nothing to solve", tbx_solve(&session) == 0);
    for (int i = 0; i < TBX_HEARD; i++) offer(i);
    for (int i = 0; i < TBX_HEARD; i++) expect("a release", tbx_release(&session, false, (uint8_t *)text, sizeof text, &left) == 0);
    for (int i = TBX_HEARD; i < TBX_KEPT; i++) offer(i);
    before = session;
    expect("messages that do not fit", tbx_solve(&session) == TBX_NO_SOLUTION && same(&session, &before));
    expect("the same, unchecked", tbx_solve_unchecked(&session) == TBX_NO_SOLUTION && same(&session, &before));

    memset(text, 0xA5, sizeof text);
    memcpy(kept, text, sizeof text);
    expect("one too few", tbx_image_write(&session, text, TBX_IMAGE_LIMIT - 1, &written) == TBX_NO_ROOM && written == 0);
    expect("a refusal that writes", !memcmp(text, kept, sizeof text));
    expect("room for every image", tbx_image_write(&session, text, sizeof text, &written) == 0 && written == TBX_IMAGE_LIMIT);
    expect("the rest of the buffer", text[TBX_IMAGE_LIMIT] == (char)0xA5 && text[TBX_IMAGE_LIMIT - 1] == '\n' && same(&session, &before));

    memset(&other, 0xA5, sizeof other);
    expect("no session written", tbx_image_write(&other, kept, sizeof kept, &written) == TBX_OUTSIDE_RANGES && written == 0);
    expect("no session solved", tbx_solve(&other) == TBX_OUTSIDE_RANGES);
    before = other;
    refused("one character too few", TBX_IMAGE_LIMIT - 1, TBX_BAD_IMAGE);
    refused("one too many", TBX_IMAGE_LIMIT + 1, TBX_BAD_IMAGE);
    refused("no text", 0, TBX_BAD_IMAGE);
    text[1] = '3';
    refused("edition 03", TBX_IMAGE_LIMIT, TBX_OTHER_EDITION);
    text[1] = '1';
    refused("edition 01, over its limit", TBX_IMAGE_LIMIT, TBX_BAD_IMAGE);
    text[1] = '2', text[13]++;
    refused("a count more", TBX_IMAGE_LIMIT, TBX_OUTSIDE_RANGES);
    text[13]--;
    expect("read back", tbx_image_read(&other, text, TBX_IMAGE_LIMIT) == 0 && same(&other, &session));
    printf("%d passed, 0 failed\n", passed);
    return 0;
}
