/* What the host itself sends: any frame of the managing node to a head tells it EA, and a StatusResponse under a head's
 * ID tells the box EN. Every call here answers with 0; what is lost is lost without a word. */
#include "pair.h"

/* A PReq, as each cycle has one. */
static struct frame preq(bool ea)
{
    struct frame f;
    want("PReq",
        powerlink_new_preq(box_mac, head_mac, HEAD, false, ea, true, 0, field, sizeof field, f.octets, sizeof f.octets,
            &f.len),
        POWERLINK_DONE);
    return f;
}

/* An SoA that asks the head who it is. */
static struct frame ident(bool ea, bool er)
{
    struct frame f;
    uint8_t octet;
    want("SoA",
        powerlink_new_soa(box_mac, POWERLINK_OPERATIONAL, ea, er, POWERLINK_IDENT_REQUEST, HEAD, 0x20, f.octets,
            sizeof f.octets, &f.len, &octet),
        POWERLINK_DONE);
    return f;
}

/* A PReq and an SoA with the flags of this moment. */
static struct frame preq_now(void)
{
    bool ea, er;
    want("flags", powerlink_collector_flags(box, HEAD, &ea, &er), POWERLINK_DONE);
    return preq(ea);
}

static struct frame ident_now(void)
{
    bool ea, er;
    want("flags", powerlink_collector_flags(box, HEAD, &ea, &er), POWERLINK_DONE);
    return ident(ea, er);
}

/* Entry 1 is booked and acknowledged; the answer with entry 2 is lost on the line. */
static void second_answer_is_lost(void)
{
    raise_entry(1);
    exchange();
    raise_entry(2);
    answer();
}

/* The head takes the host's frame for the acknowledgement of entry 2, which nobody has: its next answer has no entries. */
static void loses_2(const char *what, struct frame sent)
{
    head_reads(sent, POWERLINK_CLOSED);
    box_reads(answer(), POWERLINK_BOOKED);
    take(1);
    nothing_booked();
    printf("%s: entry 2 is lost\n", what);
}

/* The head keeps entry 2 and sends it again. */
static void keeps_2(const char *what, struct frame sent)
{
    head_reads(sent, POWERLINK_KEPT);
    exchange();
    take(1);
    take(2);
    nothing_booked();
    printf("%s: entries 1 and 2 are listed\n", what);
}

/* The PReq has the EA of the cycle in which it was built, and leaves in the next one. */
static void built_ahead(void)
{
    struct frame early;
    new_pair();
    early = preq_now();
    second_answer_is_lost();
    loses_2("PReq built a cycle ahead", early);
}

/* A StatusResponse that the host makes with the head's ID has an EN of its own, which the head's next batch repeats. */
static void status_of_the_host(void)
{
    uint8_t payload[POWERLINK_ANSWER_MAX], octet;
    size_t len;
    struct frame f;
    new_pair();
    want("a StatusResponse",
        powerlink_serialize_status(true, false, 0, 0, POWERLINK_OPERATIONAL, field, field, 0, payload, sizeof payload, &len,
            &octet),
        POWERLINK_DONE);
    want("ASnd",
        powerlink_new_asnd(services, head_mac, box_mac, ALL, HEAD, POWERLINK_STATUS_RESPONSE, payload, len, f.octets,
            sizeof f.octets, &f.len, &octet),
        POWERLINK_DONE);
    box_reads(f, POWERLINK_BOOKED);
    raise_entry(1);
    box_reads(answer(), POWERLINK_KNOWN);
    head_reads(request(), POWERLINK_CLOSED);
    nothing_booked();
    printf("StatusResponse that Answer did not write: entry 1 is lost\n");
}

/* Until the head is registered there is no EA to ask for, and 0 is right. */
static void before_registering(void)
{
    bool ea = true, er = true;
    new_head();
    want("a new box", powerlink_collector_new(box), POWERLINK_DONE);
    want("flags of node 7", powerlink_collector_flags(box, HEAD, &ea, &er), POWERLINK_NOT_REGISTERED);
    want("EA and ER stay", ea && er, true);
    raise_entry(1);
    answer();
    head_reads(preq(false), POWERLINK_KEPT);
    head_reads(ident(false, false), POWERLINK_KEPT);
    want("registering", powerlink_collector_register(box, HEAD), POWERLINK_DONE);
    exchange();
    take(1);
    nothing_booked();
    printf("EA 0 before the head is registered: entry 1 is listed\n");
}

int main(void)
{
    new_pair();
    second_answer_is_lost();
    loses_2("PReq with EA 0", preq(false));
    new_pair();
    second_answer_is_lost();
    loses_2("IdentRequest with EA 0", ident(false, false));
    new_pair();
    second_answer_is_lost();
    keeps_2("PReq with flags", preq_now());
    new_pair();
    second_answer_is_lost();
    keeps_2("IdentRequest with flags", ident_now());

    built_ahead();
    status_of_the_host();
    before_registering();
    return 0;
}
