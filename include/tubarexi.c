/* The part of libtubarexi.a that is C: each call of tubarexi.h as a function that other languages can link with, the layout that the
   library was built for, its version, and names (rules 6.28 to 6.30, 7.4, 7.14, 7.15 and 24.16). It has no variables. */
#define TBX_CALL
#include "tubarexi.h"

void tbx_layout_50004_8260_304_408(void) {}

unsigned tbx_version(void) { return TBX_VERSION_NUMBER; }

/* The text at a place; the texts end with an empty one, and `none` is for the places behind. */
static const char *text_at(const char *texts, unsigned place, const char *none)
{
    for (; place && *texts; place--) {
        while (*texts) texts++;
        texts++;
    }
    return *texts ? texts : none;
}

const char *tbx_refusal_text(int refusal)
{
    static const char texts[] =
        "no refusal\0"
        "the input ends too early\0"
        "the datagram is too long\0"
        "a length or count has a form that is not allowed\0"
        "a length, a count, n or m is outside the sizes\0"
        "a spare bit is set\0"
        "octets are left over behind the end\0"
        "this number's datagram was accepted before\0"
        "the number is too far ahead of the base\0"
        "the number has left already\0"
        "the number at the base is unknown\0"
        "no refusal\0"
        "an extension, a value or a field type is not assigned in the edition\0"
        "the buffer is too short\0"
        "data where none may be, or none where it must be\0"
        "settings outside the sizes, no such edition or kind, or lengths that do not sum to the data\0"
        "1,000,000 numbers have passed\0"
        "a session, sender or joiner is outside its ranges\0"
        "the frame would be too long\0"
        "no refusal\0"
        "a line of the image is missing, extra or misshapen\0"
        "the image has another version\0"
        "the trace has too many lines\0"
        "no octets satisfy all parity messages\0";
    return refusal < 0 ? texts : text_at(texts, (unsigned)refusal, texts);
}

const char *tbx_indicator_text(unsigned value)
{
    static const char names[] =
        "no-signal\0" "cng\0" "ced\0" "v21-preamble\0" "v27-2400-training\0" "v27-4800-training\0" "v29-7200-training\0"
        "v29-9600-training\0" "v17-7200-short-training\0" "v17-7200-long-training\0" "v17-9600-short-training\0"
        "v17-9600-long-training\0" "v17-12000-short-training\0" "v17-12000-long-training\0" "v17-14400-short-training\0"
        "v17-14400-long-training\0" "v8-ansam\0" "v8-signal\0" "v34-cntl-channel-1200\0" "v34-pri-channel\0" "v34-CC-retrain\0"
        "v33-12000-training\0" "v33-14400-training\0";
    return text_at(names, value, "not assigned");
}

const char *tbx_data_kind_text(unsigned value)
{
    static const char names[] =
        "v21\0" "v27-2400\0" "v27-4800\0" "v29-7200\0" "v29-9600\0" "v17-7200\0" "v17-9600\0" "v17-12000\0" "v17-14400\0" "v8\0"
        "v34-pri-rate\0" "v34-CC-1200\0" "v34-pri-ch\0" "v33-12000\0" "v33-14400\0";
    return text_at(names, value, "not assigned");
}

const char *tbx_field_type_text(unsigned type)
{
    static const char names[] =
        "hdlc-data\0" "hdlc-sig-end\0" "hdlc-fcs-OK\0" "hdlc-fcs-BAD\0" "hdlc-fcs-OK-sig-end\0" "hdlc-fcs-BAD-sig-end\0"
        "t4-non-ecm-data\0" "t4-non-ecm-sig-end\0" "cm-message\0" "jm-message\0" "ci-message\0" "v34rate\0";
    return text_at(names, type, "not assigned");
}
