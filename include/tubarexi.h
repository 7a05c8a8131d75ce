/* Tubarexi: T.38 UDPTL datagrams in, fax packets out, in order. Link with libtubarexi.a (x86-64, System V ABI).

   A receiver, where `line` is a UDP socket and `to_modem` is yours:

       static tbx_session s;
       uint8_t in[TBX_DATAGRAM_LIMIT + 1], out[TBX_PACKET_LIMIT];
       tbx_number left;
       ssize_t got;

       tbx_fresh(&s);
       while ((got = recv(line, in, sizeof in, 0)) >= 0) {
           tbx_offer(&s, in, (size_t)got, NULL);
           while (!tbx_release(&s, false, out, sizeof out, &left)) to_modem(out, left.size);
       }

   When a missing packet has been waited for long enough, tbx_solve(&s) may bring it back; if not, tbx_release(&s, true, ..) skips it, and
   left.kind is TBX_LOST. When to do that, and what to do with TBX_TOO_FAR, is a policy: examples/policy.h is one that you can take, and
   examples/gateway.c a whole program over it. The rules that comments cite are in docs/RULES.md; section 24 is about C programs.

   Memory. Sessions, senders and joiners are in the caller's memory. There is no heap and no global state, and the library calls nothing of
   the C library but memcpy and memset. A call needs less than 4,000 octets of stack, except for two that state what they need.

   Copy, move, save, share. A session, sender or joiner has no pointers in it. Between calls it may be copied, and then there are two, which
   go their own ways; it may be moved; it may be saved, and loaded by a program over the same version of the library; and its fields may be
   read. To another version, or as text, a receiving session goes as its image. Calls on different sessions, senders or joiners may run at
   the same time, on any threads. On one of them there is one call at a time, and what one thread did another must see (a lock does both).

   Answers. A call that can refuse returns 0 or the number of a refusal (enum tbx_refusal): the first that applies, in the order of its
   comment. A refusal changes no session, sender, joiner or buffer; only 18 taints its joiner. A call that writes to a buffer writes its
   front and leaves the rest unchanged. What a call has pointers for (place, left, written, packet, frame) it writes in every case; `place`
   and `written` may be NULL. The place is the octet at which the refused item begins if the call met it while reading, otherwise 0.

   Choices (an edition, a kind, a type, a value, k, n, m) are enums or `unsigned`, and any number may be passed: one that is not allowed is
   refused, however large it is.

   The caller must ensure that
   - pointers point to as much memory as their type or size says; with size 0 a pointer may be NULL;
   - what a call writes does not overlap anything else that it is given;
   - a session, sender or joiner is used by one call at a time;
   - an `_unchecked` call gets only memory that calls of this library alone wrote, beginning with a `_fresh` call or an image.

   The calls are inline functions over the proved functions, and libtubarexi.a has each of them also as a function of the same name, for
   other languages. */
#ifndef TUBAREXI_H
#define TUBAREXI_H

#if !defined __x86_64__ || defined __ILP32__ || defined _WIN32
#error "libtubarexi.a is built for x86-64 with the System V ABI, and this compiler builds for another target"
#endif

#include <stdbool.h>
#include <stddef.h>
#include <stdint.h>

/* The version of this header; tbx_version() is that of the library. */
#define TBX_VERSION "0.9.0"
#define TBX_VERSION_MAJOR 0
#define TBX_VERSION_MINOR 9
#define TBX_VERSION_PATCH 0
#define TBX_VERSION_NUMBER (TBX_VERSION_MAJOR * 1000000 + TBX_VERSION_MINOR * 1000 + TBX_VERSION_PATCH)

#ifndef TBX_CALL
#define TBX_CALL static inline
#endif

/* Sizes (section 1 and rule 24.13). */
enum {
    TBX_PACKET_LIMIT = 256,    /* octets of a packet: a buffer of this size is large enough for any release or packet */
    TBX_DATAGRAM_LIMIT = 2400, /* octets of a datagram: a buffer of this size is large enough for any send */
    TBX_FRAME_LIMIT = 300,     /* octets of a frame: a buffer of this size is large enough for any frame */
    TBX_FIELDS = 16,           /* fields of a packet */
    TBX_KEPT = 64,             /* numbers that a receiving session keeps */
    TBX_HEARD = 32,            /* of these, the numbers from the base on */
    TBX_MESSAGES = 4,          /* parity messages of a datagram */
    TBX_HISTORY = 32,          /* packets that a sending session keeps */
    TBX_NUMBERS = 1000000      /* numbers that may pass in a session */
};

/* Characters of the longest image: a buffer of this size is large enough for any image. A line has two characters for each octet, and a
   line feed. The first line has 19 octets: version, base, four counts. Each of the 64 others has 6 (state, accepted, note, n, m) and a
   packet behind two octets of length; from the base on it also has 4 messages, each behind two octets of length. */
enum {
    TBX_IMAGE_LIMIT = 2 * 19 + 1 + (TBX_KEPT - TBX_HEARD) * (2 * (6 + 2 + TBX_PACKET_LIMIT) + 1) +
                      TBX_HEARD * (2 * (6 + (1 + TBX_MESSAGES) * (2 + TBX_PACKET_LIMIT)) + 1)
};

/* The refusals: rule 2.1 is TBX_ENDS_EARLY, and so on. 11 is retired, and there is no 19. */
enum tbx_refusal {
    TBX_ENDS_EARLY = 1,      /* the input ends too early */
    TBX_TOO_LONG = 2,        /* a datagram over TBX_DATAGRAM_LIMIT */
    TBX_BAD_FORM = 3,        /* a length or count has a form that is not allowed */
    TBX_OUTSIDE_SIZES = 4,   /* a length, a count, n or m is outside the sizes */
    TBX_SPARE_BIT = 5,       /* a spare bit is set */
    TBX_LEFT_OVER = 6,       /* octets are left over behind the end */
    TBX_REPEATED = 7,        /* this number's datagram was accepted before: harmless */
    TBX_TOO_FAR = 8,         /* the number is TBX_HEARD or more ahead of the base: if it is not far ahead, solve, release with
                                skip until it is less, and offer it again; if it is far, wait for others to agree (examples/policy.h) */
    TBX_LATE = 9,            /* the number has left already: harmless */
    TBX_BASE_UNKNOWN = 10,   /* release without leave to skip: the number at the base is unknown */
    TBX_NOT_ASSIGNED = 12,   /* an extension, a value or a field type is not assigned in the edition */
    TBX_NO_ROOM = 13,        /* the caller's buffer is too short */
    TBX_WRONG_DATA = 14,     /* data where none may be, or none where it must be */
    TBX_WRONG_SETTINGS = 15, /* settings outside the sizes, no such edition or kind, or lengths that do not sum to the data */
    TBX_ALL_PASSED = 16,     /* TBX_NUMBERS have passed */
    TBX_OUTSIDE_RANGES = 17, /* no session, sender or joiner within its ranges is in the memory or the image */
    TBX_FRAME_TOO_LONG = 18, /* a frame would pass TBX_FRAME_LIMIT: the joiner is then tainted */
    TBX_BAD_IMAGE = 20,      /* of an image: a line is missing, extra or misshapen */
    TBX_OTHER_EDITION = 21,  /* of an image: a version other than 01 and 02 */
    TBX_TOO_MANY_LINES = 22, /* a trace has too many lines; no call here gives it */
    TBX_NO_SOLUTION = 23     /* no octets satisfy all parity messages */
};

/* A receiving session. `head` may be read between calls: the base, which is the next number to leave, and how many numbers left as each
   kind. */
typedef struct tbx_head { uint16_t base; uint32_t received, spare, repaired, lost; } tbx_head;
typedef struct tbx_session {
    tbx_head head;
    uint16_t table[3 * TBX_KEPT + 3 * TBX_HEARD + TBX_HEARD * TBX_MESSAGES];
    uint8_t octets[TBX_KEPT * TBX_PACKET_LIMIT];
    uint8_t messages[TBX_HEARD * TBX_MESSAGES * TBX_PACKET_LIMIT];
} tbx_session;

/* A number that left: its kind, the number, its note and how many octets its packet has. The note is the number of the datagram whose offer
   filled it (rule 9.5). Note 0 means: with TBX_RECEIVED and TBX_SPARE, datagram 0; with TBX_LOST, none; with TBX_REPAIRED, solved (rule
   14.3), and then it has TBX_PACKET_LIMIT octets, or repaired as datagram 0 was offered. With a refusal all is 0 but `refusal`. */
enum tbx_kind { TBX_RECEIVED = 0, TBX_SPARE = 1, TBX_REPAIRED = 2, TBX_LOST = 3 };
typedef struct tbx_number { uint8_t refusal, kind; uint16_t number, note; size_t place, size; } tbx_number;

/* A sending session: how many packets were sent, and the last TBX_HISTORY of them. */
typedef struct tbx_sender {
    uint32_t sent;
    uint16_t sizes[TBX_HISTORY];
    uint8_t octets[TBX_HISTORY * TBX_PACKET_LIMIT];
} tbx_sender;

/* The edition of T.38 in which a packet is read or written: that of 06/98, or that of 2002 with its added values (section 7). */
enum tbx_edition { TBX_EDITION_1998 = 0, TBX_EDITION_2002 = 1 };

/* What a packet reads as: its kind, its value (which indicator or which data kind, rules 6.29, 6.30, 7.14 and 7.15) and `count` fields; the
   fields behind these are zero. With a refusal all is 0 but `refusal` and `place`. A field has its type (rule 6.28), the octet of the
   packet at which its data begins, and how many octets its data has; without data both are 0. */
enum tbx_packet_kind { TBX_INDICATOR = 0, TBX_DATA = 1 };
typedef struct tbx_field { uint8_t type; size_t start, size; } tbx_field;
typedef struct tbx_packet { uint8_t refusal, kind, value; size_t place, count; tbx_field fields[TBX_FIELDS]; } tbx_packet;

/* The values of an indicator: to 15 in both editions, from TBX_V8_ANSAM on in that of 2002 alone (rules 6.29 and 7.14). */
enum tbx_indicator {
    TBX_NO_SIGNAL = 0, TBX_CNG = 1, TBX_CED = 2, TBX_V21_PREAMBLE = 3, TBX_V27_2400_TRAINING = 4, TBX_V27_4800_TRAINING = 5,
    TBX_V29_7200_TRAINING = 6, TBX_V29_9600_TRAINING = 7, TBX_V17_7200_SHORT_TRAINING = 8, TBX_V17_7200_LONG_TRAINING = 9,
    TBX_V17_9600_SHORT_TRAINING = 10, TBX_V17_9600_LONG_TRAINING = 11, TBX_V17_12000_SHORT_TRAINING = 12,
    TBX_V17_12000_LONG_TRAINING = 13, TBX_V17_14400_SHORT_TRAINING = 14, TBX_V17_14400_LONG_TRAINING = 15, TBX_V8_ANSAM = 16,
    TBX_V8_SIGNAL = 17, TBX_V34_CNTL_CHANNEL_1200 = 18, TBX_V34_PRI_CHANNEL = 19, TBX_V34_CC_RETRAIN = 20,
    TBX_V33_12000_TRAINING = 21, TBX_V33_14400_TRAINING = 22
};

/* The values of a data packet, its data kinds: to 8 in both editions, from TBX_V8 on in that of 2002 alone (rules 6.30 and 7.15). */
enum tbx_data_kind {
    TBX_V21 = 0, TBX_V27_2400 = 1, TBX_V27_4800 = 2, TBX_V29_7200 = 3, TBX_V29_9600 = 4, TBX_V17_7200 = 5, TBX_V17_9600 = 6,
    TBX_V17_12000 = 7, TBX_V17_14400 = 8, TBX_V8 = 9, TBX_V34_PRI_RATE = 10, TBX_V34_CC_1200 = 11, TBX_V34_PRI_CH = 12,
    TBX_V33_12000 = 13, TBX_V33_14400 = 14
};

/* The types of a field: to 7 in both editions, from TBX_CM_MESSAGE on in that of 2002 alone (rules 6.28 and 7.4). */
enum tbx_field_type {
    TBX_HDLC_DATA = 0, TBX_HDLC_SIG_END = 1, TBX_HDLC_FCS_OK = 2, TBX_HDLC_FCS_BAD = 3, TBX_HDLC_FCS_OK_SIG_END = 4,
    TBX_HDLC_FCS_BAD_SIG_END = 5, TBX_T4_NON_ECM_DATA = 6, TBX_T4_NON_ECM_SIG_END = 7, TBX_CM_MESSAGE = 8, TBX_JM_MESSAGE = 9,
    TBX_CI_MESSAGE = 10, TBX_V34RATE = 11
};

/* A joiner: whether it is tainted, 0 or 1, and its open frame, which has no octets while it is tainted; past `size` the octets are zero. */
typedef struct tbx_joiner { uint8_t tainted; uint16_t size; uint8_t frame[TBX_FRAME_LIMIT]; } tbx_joiner;

/* The frame that a field ended: its kind, and how many octets it has. With a refusal both are 0. */
enum tbx_frame_kind { TBX_NO_FRAME = 0, TBX_GOOD_FRAME = 1, TBX_BAD_FRAME = 2 };
typedef struct tbx_frame { uint8_t refusal, kind; size_t size; } tbx_frame;

/* ---- The proved functions. Programs need not call these: the calls below take one pointer in place of the parts. */

typedef struct tbx_core_answered { uint8_t refusal; size_t place; } tbx_core_answered;
typedef struct tbx_core_wrote { uint8_t refusal; size_t place, size; } tbx_core_wrote;
typedef struct tbx_core_after_release { tbx_head head; tbx_number left; } tbx_core_after_release;
typedef struct tbx_core_after_restore { tbx_head head; tbx_core_answered answer; } tbx_core_after_restore;
typedef struct tbx_core_after_send { uint32_t sent; tbx_core_wrote wrote; } tbx_core_after_send;
typedef struct tbx_core_joiner_head { uint8_t tainted; uint16_t size; } tbx_core_joiner_head;
typedef struct tbx_core_after_field { tbx_core_joiner_head head; tbx_frame frame; } tbx_core_after_field;

/* The layout that the library was built for: a type of no size, and so no compiling, if this compiler lays it out otherwise. */
#define TBX_ASSERT(name, holds) typedef char tbx_assert_##name[(holds) ? 1 : -1]
TBX_ASSERT(session, sizeof(tbx_head) == 20 && offsetof(tbx_head, received) == 4 && sizeof(tbx_session) == 50004 &&
           offsetof(tbx_session, table) == 20 && offsetof(tbx_session, octets) == 852 && offsetof(tbx_session, messages) == 17236);
TBX_ASSERT(sender, sizeof(tbx_sender) == 8260 && offsetof(tbx_sender, sizes) == 4 && offsetof(tbx_sender, octets) == 68);
TBX_ASSERT(joiner, sizeof(tbx_joiner) == 304 && offsetof(tbx_joiner, size) == 2 && offsetof(tbx_joiner, frame) == 4);
TBX_ASSERT(number, sizeof(tbx_number) == 24 && offsetof(tbx_number, kind) == 1 && offsetof(tbx_number, number) == 2 &&
           offsetof(tbx_number, note) == 4 && offsetof(tbx_number, place) == 8 && offsetof(tbx_number, size) == 16);
TBX_ASSERT(packet, sizeof(tbx_packet) == 408 && offsetof(tbx_packet, kind) == 1 && offsetof(tbx_packet, value) == 2 &&
           offsetof(tbx_packet, place) == 8 && offsetof(tbx_packet, count) == 16 && offsetof(tbx_packet, fields) == 24 &&
           sizeof(tbx_field) == 24 && offsetof(tbx_field, start) == 8 && offsetof(tbx_field, size) == 16);
TBX_ASSERT(frame, sizeof(tbx_frame) == 16 && offsetof(tbx_frame, kind) == 1 && offsetof(tbx_frame, size) == 8);
TBX_ASSERT(choices, sizeof(enum tbx_edition) == 4 && sizeof(enum tbx_packet_kind) == 4 && sizeof(enum tbx_field_type) == 4 &&
           TBX_IMAGE_LIMIT == 99943);

#ifdef __cplusplus
extern "C" {
#endif
tbx_head tbx_core_fresh(uint16_t *table, uint8_t *octets, uint8_t *messages);
bool tbx_core_in_ranges(tbx_head head, const uint16_t *table, const uint8_t *octets, const uint8_t *messages);
tbx_core_answered tbx_core_offer(tbx_head head, uint16_t *table, uint8_t *octets, uint8_t *messages,
                                 const uint8_t *datagram, size_t size);
tbx_core_answered tbx_core_offer_checked(tbx_head head, uint16_t *table, uint8_t *octets, uint8_t *messages,
                                         const uint8_t *datagram, size_t size);
tbx_core_after_release tbx_core_release(tbx_head head, uint16_t *table, uint8_t *octets, uint8_t *messages, bool skip,
                                        uint8_t *out, size_t room);
tbx_core_after_release tbx_core_release_checked(tbx_head head, uint16_t *table, uint8_t *octets, uint8_t *messages, bool skip,
                                                uint8_t *out, size_t room);
tbx_core_answered tbx_core_solve(tbx_head head, uint16_t *table, uint8_t *octets, const uint8_t *messages);
tbx_core_answered tbx_core_solve_checked(tbx_head head, uint16_t *table, uint8_t *octets, const uint8_t *messages);
tbx_core_wrote tbx_core_image_write(tbx_head head, const uint16_t *table, const uint8_t *octets, const uint8_t *messages,
                                    uint8_t *out, size_t room);
tbx_core_after_restore tbx_core_image_read(tbx_head head, uint16_t *table, uint8_t *octets, uint8_t *messages,
                                           const uint8_t *text, size_t size);
uint32_t tbx_core_sender_fresh(uint16_t *sizes, uint8_t *octets);
bool tbx_core_sender_in_ranges(uint32_t sent, const uint16_t *sizes, const uint8_t *octets);
tbx_core_after_send tbx_core_send(uint32_t sent, uint16_t *sizes, uint8_t *octets, const uint8_t *packet, size_t size,
                                  bool parity, uint8_t count, uint8_t n, uint8_t *out, size_t room);
tbx_core_after_send tbx_core_send_checked(uint32_t sent, uint16_t *sizes, uint8_t *octets, const uint8_t *packet, size_t size,
                                          bool parity, uint8_t count, uint8_t n, uint8_t *out, size_t room);
tbx_packet tbx_core_packet_read(const uint8_t *octets, size_t size, uint8_t edition, bool repaired);
tbx_core_wrote tbx_core_packet_write(uint8_t edition, uint8_t kind, uint8_t value, const uint8_t *types, size_t types_count,
                                     const uint16_t *lengths, size_t lengths_count, const uint8_t *data, size_t size, uint8_t *out,
                                     size_t room);
tbx_core_joiner_head tbx_core_joiner_fresh(uint8_t *frame);
tbx_core_after_field tbx_core_joiner_field(uint8_t tainted, uint16_t size, uint8_t *frame, uint8_t type, const uint8_t *data,
                                           size_t data_size, uint8_t *out, size_t room);
tbx_core_after_field tbx_core_joiner_lost(uint8_t tainted, uint16_t size, uint8_t *frame);

/* Does nothing. It is named after the sizes of session, sender, joiner and packet: a program over this header does not link with a library
   of another layout. */
void tbx_layout_50004_8260_304_408(void);

/* ---- Version and names */

/* The version of the library that is linked, as TBX_VERSION_NUMBER is that of the header. */
unsigned tbx_version(void);

/* The words for a refusal, and "no refusal" for any other number; Annex A's name of an indicator, of a data kind and of a field type, those
   of both editions, and "not assigned" for any other number. */
const char *tbx_refusal_text(int refusal);
const char *tbx_indicator_text(unsigned value);
const char *tbx_data_kind_text(unsigned value);
const char *tbx_field_type_text(unsigned type);

/* What follows is C, over the functions above. A choice that no octet holds is passed on as 255, which is refused like it. */
static inline uint8_t tbx_octet(unsigned choice) { return (uint8_t)(choice < 255 ? choice : 255); }
static inline int tbx_told(uint8_t refusal, size_t at, size_t *place) { if (place) *place = at; return refusal; }

/* ---- The receiving session (sections 9 to 14) */

/* Makes a fresh receiving session, whatever the memory held (rules 9.1 and 24.18). Refuses nothing. */
TBX_CALL void tbx_fresh(tbx_session *s)
{
    tbx_layout_50004_8260_304_408();
    s->head = tbx_core_fresh(s->table, s->octets, s->messages);
}

/* Whether the memory holds a session within its ranges (section 13), which the checked calls test first. Changes nothing. */
TBX_CALL bool tbx_in_ranges(const tbx_session *s) { return tbx_core_in_ranges(s->head, s->table, s->octets, s->messages); }

/* Offers a datagram as it came from the network; it may be any octets. Receive it into a buffer of TBX_DATAGRAM_LIMIT + 1 octets: one that
   is too long is then refused and not cut to fit. The session keeps its packet, spares and messages, and repairs what the messages allow.
   Refuses 17, 2, then what is wrong in reading order (1, 3, 4, 5, 6) with its place, then 8 or 9, then 7 (rule 10.5). */
TBX_CALL int tbx_offer(tbx_session *s, const uint8_t *datagram, size_t size, size_t *place)
{
    tbx_core_answered r = tbx_core_offer_checked(s->head, s->table, s->octets, s->messages, datagram, size);
    return tbx_told(r.refusal, r.place, place);
}

/* The same without the test for 17, which saves some 9,000 instructions: only for memory that this library alone wrote (rule 24.4). */
TBX_CALL int tbx_offer_unchecked(tbx_session *s, const uint8_t *datagram, size_t size, size_t *place)
{
    tbx_core_answered r = tbx_core_offer(s->head, s->table, s->octets, s->messages, datagram, size);
    return tbx_told(r.refusal, r.place, place);
}

/* Releases the number at the base: writes its packet to the front of `out`, and its kind, number, note and size to `left`. An unknown
   number leaves only with `skip`, and is then counted as lost, with no octets. A known number leaves alike with `skip` and without.
   Refuses 17, 16, 10 (unknown, and no `skip`), 13 (the packet is longer than `room`) (rule 12.9). */
TBX_CALL int tbx_release(tbx_session *s, bool skip, uint8_t *out, size_t room, tbx_number *left)
{
    tbx_core_after_release r = tbx_core_release_checked(s->head, s->table, s->octets, s->messages, skip, out, room);
    if (!r.left.refusal) s->head = r.head;
    *left = r.left;
    return r.left.refusal;
}

/* The same without the test for 17: only for memory that this library alone wrote. */
TBX_CALL int tbx_release_unchecked(tbx_session *s, bool skip, uint8_t *out, size_t room, tbx_number *left)
{
    tbx_core_after_release r = tbx_core_release(s->head, s->table, s->octets, s->messages, skip, out, room);
    if (!r.left.refusal) s->head = r.head;
    *left = r.left;
    return r.left.refusal;
}

/* How many numbers left as `received`, `spare`, `repaired` and `lost`, and the base, which is the next to leave. Changes nothing. */
TBX_CALL tbx_head tbx_counts(const tbx_session *s) { return s->head; }

/* Solves all held parity messages together, for losses that no single message mends. Fills an unknown number, as repaired, with
   TBX_PACKET_LIMIT octets and note 0, exactly if the messages and the known packets allow only one value for it. Base, counts and messages
   are unchanged. Refuses 17, then 23 (no octets satisfy all messages) (rule 14.7). Needs less than
   75,000 octets of stack. */
TBX_CALL int tbx_solve(tbx_session *s)
{
    return tbx_core_solve_checked(s->head, s->table, s->octets, s->messages).refusal;
}

/* The same without the test for 17: only for memory that this library alone wrote. */
TBX_CALL int tbx_solve_unchecked(tbx_session *s) { return tbx_core_solve(s->head, s->table, s->octets, s->messages).refusal; }

/* ---- Images: a receiving session as text, for another adapter to go on with (section 20) */

/* Writes the image of the session, lines of upper-case hexadecimal (version 02), to the front of `out`, `written` characters. One session
   has one image. The session is unchanged. Refuses 17, then 13 (the image is longer than `room`) (rule 20.19); `written` is then 0. There
   is no unchecked form, because the test is short compared with the writing. */
TBX_CALL int tbx_image_write(const tbx_session *s, char *out, size_t room, size_t *written)
{
    tbx_core_wrote r = tbx_core_image_write(s->head, s->table, s->octets, s->messages, (uint8_t *)out, room);
    return tbx_told(r.refusal, r.size, written);
}

/* Makes the session that a text is the image of, whatever the memory held: it equals the session that was written. Reads version 01 too,
   with packets and messages of up to 160 octets. Refuses 21 (the first two characters are digits 0 to 9 or A to F, and name another
   version), 20 (a line is missing, extra or misshapen), 17 (an image of a session outside its ranges) (rule 20.18). Needs less than
   205,000 octets of stack. */
TBX_CALL int tbx_image_read(tbx_session *s, const char *text, size_t size)
{
    tbx_layout_50004_8260_304_408();
    tbx_core_after_restore r = tbx_core_image_read(s->head, s->table, s->octets, s->messages, (const uint8_t *)text, size);
    if (!r.answer.refusal) s->head = r.head;
    return r.answer.refusal;
}

/* ---- The sending session (section 15) */

/* Makes a fresh sending session, whatever the memory held (rules 15.1 and 24.18). Refuses nothing. */
TBX_CALL void tbx_sender_fresh(tbx_sender *s)
{
    tbx_layout_50004_8260_304_408();
    s->sent = tbx_core_sender_fresh(s->sizes, s->octets);
}

/* Whether the memory holds a sending session within its ranges (rule 15.13). Changes nothing. */
TBX_CALL bool tbx_sender_in_ranges(const tbx_sender *s) { return tbx_core_sender_in_ranges(s->sent, s->sizes, s->octets); }

/* Sends a packet with k spares (0 to 8), or with all packets sent so far if these are fewer: writes its datagram to the front of `out`,
   `written` octets, and keeps the packet for later spares and messages. Refuses 17, 16, 15 (k), 4 (a packet of 0 or over TBX_PACKET_LIMIT
   octets), 13 (the datagram is longer than `room`) (rule 15.8); `written` is then 0. */
TBX_CALL int tbx_send_spares(tbx_sender *s, const uint8_t *packet, size_t size, unsigned k, uint8_t *out, size_t room,
                             size_t *written)
{
    tbx_core_after_send r = tbx_core_send_checked(s->sent, s->sizes, s->octets, packet, size, false, tbx_octet(k), 0, out, room);
    s->sent = r.sent;
    return tbx_told(r.wrote.refusal, r.wrote.size, written);
}

/* The same with parity: m messages (1 to 4) over n packets each (1 to 8). Refuses the same, with 15 for n or m. The two may follow each
   other in one session, and k, n and m may change at each send. */
TBX_CALL int tbx_send_parity(tbx_sender *s, const uint8_t *packet, size_t size, unsigned n, unsigned m, uint8_t *out, size_t room,
                             size_t *written)
{
    tbx_core_after_send r = tbx_core_send_checked(s->sent, s->sizes, s->octets, packet, size, true, tbx_octet(m), tbx_octet(n), out, room);
    s->sent = r.sent;
    return tbx_told(r.wrote.refusal, r.wrote.size, written);
}

/* The same without the test for 17: only for memory that this library alone wrote. */
TBX_CALL int tbx_send_spares_unchecked(tbx_sender *s, const uint8_t *packet, size_t size, unsigned k, uint8_t *out, size_t room,
                                       size_t *written)
{
    tbx_core_after_send r = tbx_core_send(s->sent, s->sizes, s->octets, packet, size, false, tbx_octet(k), 0, out, room);
    s->sent = r.sent;
    return tbx_told(r.wrote.refusal, r.wrote.size, written);
}

/* The same without the test for 17: only for memory that this library alone wrote. */
TBX_CALL int tbx_send_parity_unchecked(tbx_sender *s, const uint8_t *packet, size_t size, unsigned n, unsigned m, uint8_t *out, size_t room,
                                       size_t *written)
{
    tbx_core_after_send r = tbx_core_send(s->sent, s->sizes, s->octets, packet, size, true, tbx_octet(m), tbx_octet(n), out, room);
    s->sent = r.sent;
    return tbx_told(r.wrote.refusal, r.wrote.size, written);
}

/* ---- Packets: these calls need no session and keep nothing (sections 5 to 7) */

/* Reads a packet, which may be any octets, in an edition. Read a packet that left as TBX_REPAIRED with `repaired`: zeros may then follow
   its end (rule 6.12). Refuses 15 (another edition), 4 (over TBX_PACKET_LIMIT octets), then what is wrong in reading order (1, 3, 4, 5, 6,
   12, 14) with its place (rule 6.13). */
TBX_CALL int tbx_packet_read(const uint8_t *octets, size_t size, enum tbx_edition edition, bool repaired, tbx_packet *packet)
{
    tbx_layout_50004_8260_304_408();
    *packet = tbx_core_packet_read(octets, size, tbx_octet((unsigned)edition), repaired);
    return packet->refusal;
}

/* Writes a packet of this kind and value (enum tbx_indicator or enum tbx_data_kind) with `count` fields to the front of `out`, `written`
   octets. Field i has the type types[i] (enum tbx_field_type) and the next lengths[i] octets of `data`; with length 0 it has no data.
   Refuses, each over the whole packet, 15 (another edition or kind), 4 (over TBX_FIELDS fields), 15 (the lengths do not sum to `size`), 12
   (a value or a type that is not assigned), 14 (an indicator with fields; a field without the data that it must have, or with data that it
   must not have), 4 (a length or the packet over TBX_PACKET_LIMIT), 13 (the packet is longer than `room`) (rules 6.20 and 24.5); `written`
   is then 0. */
TBX_CALL int tbx_packet_write(enum tbx_edition edition, enum tbx_packet_kind kind, unsigned value, const uint8_t *types,
                              const uint16_t *lengths, size_t count, const uint8_t *data, size_t size, uint8_t *out, size_t room,
                              size_t *written)
{
    tbx_core_wrote r = tbx_core_packet_write(tbx_octet((unsigned)edition), tbx_octet((unsigned)kind), tbx_octet(value), types, count,
                                             lengths, count, data, size, out, room);
    return tbx_told(r.refusal, r.size, written);
}

/* ---- The joiner: whole HDLC frames from the fields of data packets and the numbers that were lost (sections 16 and 17). Its calls have no
   unchecked form: with the test for 17 a call takes some 300 instructions. */

/* Makes a fresh joiner, with an open frame of no octets, whatever the memory held (rules 16.1 and 24.18). Refuses nothing. */
TBX_CALL void tbx_joiner_fresh(tbx_joiner *j)
{
    tbx_layout_50004_8260_304_408();
    tbx_core_joiner_head r = tbx_core_joiner_fresh(j->frame);
    j->tainted = r.tainted;
    j->size = r.size;
}

/* Takes one field of a packet, in the packet's order: its type (0 to 11) and its data, with size 0 if it has none. Type 0 adds its data to
   the open frame. Types 2 and 4 end it as a good frame, types 3 and 5 as a bad one, which is written to the front of `out`. Type 1 and the
   types above 5 drop it. A good frame of no octets is dropped too. While the joiner is tainted it keeps and writes nothing; a field of
   types 1 to 5 ends the taint. Refuses 17, 12 (a type that is not assigned), 14 (data that must not be there, or none where it must), 18
   (the frame would pass TBX_FRAME_LIMIT), 13 (the frame is longer than `room`) (rule 16.14). After 18 the open frame is dropped and the
   joiner is tainted; after the others it is unchanged. */
TBX_CALL int tbx_joiner_field(tbx_joiner *j, enum tbx_field_type type, const uint8_t *data, size_t size, uint8_t *out, size_t room,
                              tbx_frame *frame)
{
    tbx_core_after_field r = tbx_core_joiner_field(j->tainted, j->size, j->frame, tbx_octet((unsigned)type), data, size, out, room);
    j->tainted = r.head.tainted;
    j->size = r.head.size;
    *frame = r.frame;
    return r.frame.refusal;
}

/* Takes one lost number, at its place between the packets: drops the open frame and taints the joiner (rule 16.8). Kind and size are 0, as
   no frame ends here. Refuses 17. */
TBX_CALL int tbx_joiner_lost(tbx_joiner *j, tbx_frame *frame)
{
    tbx_core_after_field r = tbx_core_joiner_lost(j->tainted, j->size, j->frame);
    j->tainted = r.head.tainted;
    j->size = r.head.size;
    *frame = r.frame;
    return r.frame.refusal;
}
#ifdef __cplusplus
}
#endif
#endif
