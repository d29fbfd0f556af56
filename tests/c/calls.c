/* Each call of head and box, over a line that loses an answer and repeats a request: what the frames hold, what each call
 * answers, and that refused ones change nothing. The exit status is 1 if anything is not as EPSG DS 301, 6.5, has it. */
#include "pair.h"

/* What the line carries: the last answer and the last request. */
static struct frame answered, requested;

static uint8_t octet = 0xEE;

/* The payload of the last answer, from octet 18 on, as the box reads it: it has EN, and entries from `first` on. */
static void status_has(unsigned entries, uint16_t first, unsigned en)
{
    const uint8_t *payload = answered.octets + 18;
    size_t payload_len = answered.len - 18, offset = 14, next;
    uint64_t status[POWERLINK_STATUS_VALUES], entry[POWERLINK_ENTRY_VALUES];
    uint8_t read_field[POWERLINK_FIELD_LEN];
    unsigned i;

    want("reading the payload", powerlink_deserialize_status(payload, payload_len, status, read_field, &octet), POWERLINK_DONE);
    want("EN", status[POWERLINK_STATUS_EN], en);
    want("EC", status[POWERLINK_STATUS_EC], 0);
    want("pr", status[POWERLINK_STATUS_PR], 7);
    want("rs", status[POWERLINK_STATUS_RS], 7);
    want("state", status[POWERLINK_STATUS_STATE], POWERLINK_OPERATIONAL);
    want_octets("the error field", read_field, field, sizeof field);
    for (i = 0; i < entries; i++) {
        want("a step", powerlink_entry_step(payload, payload_len, offset, entry, &next), POWERLINK_DONE);
        want("the next offset", next, offset + 20);
        want("the entry's code", entry[POWERLINK_ENTRY_CODE], first + i);
        offset = next;
    }
    want("the last step", powerlink_entry_step(payload, payload_len, offset, entry, &next), POWERLINK_DONE);
    want("the end", next, 0);
}

/* The head answers with entries from `first` on and EN, which is the EN that its host is told. */
static void head_answers(unsigned entries, uint16_t first, unsigned en)
{
    uint64_t frame[POWERLINK_FRAME_VALUES];
    bool told;

    answered = answer();
    want("the answer's length", answered.len, entries == 0 ? 60 : 52 + 20 * entries);
    want("reading the answer", powerlink_deserialize_frame(services, answered.octets, answered.len, frame, &octet),
        POWERLINK_DONE);
    want("message type", frame[POWERLINK_MESSAGE_TYPE], POWERLINK_ASND);
    want("destination", frame[POWERLINK_DESTINATION], ALL);
    want("source", frame[POWERLINK_SOURCE], HEAD);
    want("service", frame[POWERLINK_ASND_SERVICE], POWERLINK_STATUS_RESPONSE);
    want("the payload's start", frame[POWERLINK_PAYLOAD_START], 18);
    status_has(entries, first, en);
    want("en", powerlink_reporter_en(head, &told), POWERLINK_DONE);
    want("the EN told", told, en);
    printf("head answers: EN %u, %u entries, %u octets\n", en, entries, (unsigned)answered.len);
}

static void box_hears(uint8_t outcome)
{
    box_reads(answered, outcome);
    printf("box reads: %s\n", outcome == POWERLINK_BOOKED ? "booked" : "known");
}

/* The box's request tells EA, which is the EA that its host is told. */
static void box_requests(unsigned ea)
{
    uint64_t frame[POWERLINK_FRAME_VALUES];
    bool told_ea, told_er = true;

    requested = request();
    want("the request's length", requested.len, POWERLINK_REQUEST_LEN);
    want("reading the request", powerlink_deserialize_frame(services, requested.octets, requested.len, frame, &octet),
        POWERLINK_DONE);
    want("message type", frame[POWERLINK_MESSAGE_TYPE], POWERLINK_SOA);
    want("source", frame[POWERLINK_SOURCE], MN);
    want("EA", frame[POWERLINK_SOA_EA], ea);
    want("ER", frame[POWERLINK_SOA_ER], 0);
    want("requested service", frame[POWERLINK_SOA_REQUESTED_SERVICE], POWERLINK_STATUS_REQUEST);
    want("target", frame[POWERLINK_SOA_TARGET], HEAD);
    want("EPL version", frame[POWERLINK_SOA_EPL_VERSION], 0x20);
    want("flags", powerlink_collector_flags(box, HEAD, &told_ea, &told_er), POWERLINK_DONE);
    want("the EA told", told_ea, ea);
    want("the ER told", told_er, 0);
    printf("box requests: EA %u\n", ea);
}

static void head_hears(uint8_t outcome)
{
    head_reads(requested, outcome);
    printf("head reads: %s\n", outcome == POWERLINK_CLOSED ? "closed" : "kept");
}

static uint8_t raise_as(bool status_entry, uint8_t mode, uint16_t profile)
{
    return powerlink_reporter_raise(head, status_entry, false, mode, profile, 1, 1, 1, 1);
}

/* Refused by what is asked of head and box. */
static void refused_by_the_exchange(void)
{
    uint64_t entry[POWERLINK_ENTRY_VALUES] = {1, 2, 3, 4, 5, 6, 7, 8}, before[POWERLINK_ENTRY_VALUES];
    uint8_t outcome = 0xEE;
    bool ea = true, er = true;

    memcpy(before, entry, sizeof entry);
    want("a new head 0", powerlink_reporter_new(head, 0), POWERLINK_ID_OUT_OF_RANGE);
    want("a new head 240", powerlink_reporter_new(head, MN), POWERLINK_ID_OUT_OF_RANGE);
    want("raising mode 0", raise_as(false, 0, 2), POWERLINK_ENTRY_INVALID);
    want("raising mode 4", raise_as(false, 4, 2), POWERLINK_ENTRY_INVALID);
    want("raising profile 4096", raise_as(false, 1, 4096), POWERLINK_ENTRY_INVALID);
    want("raising a status entry of mode 0", raise_as(true, 0, 2), POWERLINK_ENTRY_INVALID);
    want("raising a status entry", raise_as(true, 1, 2), POWERLINK_IS_STATUS_ENTRY);
    want("registering 0", powerlink_collector_register(box, 0), POWERLINK_ID_OUT_OF_RANGE);
    want("registering twice", powerlink_collector_register(box, HEAD), POWERLINK_ID_REGISTERED);
    want("taking of node 8", powerlink_collector_take(box, 8, entry), POWERLINK_NOT_REGISTERED);
    want_octets("the entry", (const uint8_t *)entry, (const uint8_t *)before, sizeof entry);
    want("flags of node 8", powerlink_collector_flags(box, 8, &ea, &er), POWERLINK_NOT_REGISTERED);
    want("flags of node 0", powerlink_collector_flags(box, 0, &ea, &er), POWERLINK_NOT_REGISTERED);
    want("EA and ER", ea && er, true);

    /* The box takes no request for an answer, and the head no answer for a request. */
    want("the box reading a request",
        powerlink_collector_read(box, services, requested.octets, requested.len, &outcome, &octet),
        POWERLINK_NOT_STATUS_RESPONSE);
    want("reading a cut frame", powerlink_reporter_read(head, services, requested.octets, 13, &outcome, &octet),
        POWERLINK_TOO_SHORT);
    want("the outcome", outcome, 0xEE);
    want("the head reading an answer",
        powerlink_reporter_read(head, services, answered.octets, answered.len, &outcome, &octet), POWERLINK_DONE);
    want("the outcome", outcome, POWERLINK_IGNORED);
    want("the octet", octet, 0xEE);
}

/* A number that names no mode is 8, after 1; octets that are no whole entries are 1, whatever the target and the state are. */
static void refused_entries(void)
{
    uint8_t target[POWERLINK_ENTRY_LEN * 4], before[sizeof target], entries[POWERLINK_ENTRY_LEN * 2] = {0};
    size_t written = 0xEE, len;

    memset(target, 0x55, sizeof target);
    memcpy(before, target, sizeof target);
    want("an entry of mode 4 and 19 octets",
        powerlink_serialize_entry(true, false, 4, 2, 1, 1, 1, 1, target, POWERLINK_ENTRY_LEN - 1, &written),
        POWERLINK_TOO_SHORT);
    want("an entry of mode 4",
        powerlink_serialize_entry(true, false, 4, 2, 1, 1, 1, 1, target, sizeof target, &written), POWERLINK_ENTRY_INVALID);
    want("an entry of mode 255",
        powerlink_serialize_entry(true, false, 255, 2, 1, 1, 1, 1, target, sizeof target, &written), POWERLINK_ENTRY_INVALID);
    for (len = 1; len < sizeof entries; len++) {
        if (len % POWERLINK_ENTRY_LEN == 0)
            continue;
        want("a cut entry",
            powerlink_serialize_status(true, false, 0, 0, POWERLINK_OPERATIONAL, field, entries, len, target, sizeof target,
                &written, &octet),
            POWERLINK_TOO_SHORT);
        want("a cut entry and state 1",
            powerlink_serialize_status(
                true, false, 0, 0, 1, field, entries, len, target, sizeof target, &written, &octet),
            POWERLINK_TOO_SHORT);
    }
    want("the length", written, 0xEE);
    want("the octet", octet, 0xEE);
    want_octets("the target", target, before, sizeof target);
}

/* Refused for the target or for a code: 11, then 1, then 5, 6 and 7. */
static void refused_by_writers(void)
{
    uint8_t small[POWERLINK_REQUEST_LEN - 1], before[sizeof small];
    size_t written = 0xEE;

    memset(small, 0x55, sizeof small);
    memcpy(before, small, sizeof small);
    want("requesting of node 8", powerlink_collector_request(box, 8, box_mac, 1, 0x20, small, sizeof small, &written, &octet),
        POWERLINK_NOT_REGISTERED);
    want("a short request", powerlink_collector_request(box, HEAD, box_mac, 1, 0x20, small, sizeof small, &written, &octet),
        POWERLINK_TOO_SHORT);
    want("a short answer",
        powerlink_reporter_answer(
            head, services, head_mac, box_mac, false, 0, 0, 1, field, small, sizeof small, &written, &octet),
        POWERLINK_TOO_SHORT);
    want("a section without its state",
        powerlink_serialize_pres(ALL, HEAD, 1, false, false, false, 0, 0, 0, 0, field, 0, small, 45, &written, &octet),
        POWERLINK_TOO_SHORT);
    want("the octet", octet, 0xEE);
    want("state 1",
        powerlink_serialize_pres(ALL, HEAD, 1, false, false, false, 0, 0, 0, 0, field, 0, small, 46, &written, &octet),
        POWERLINK_UNKNOWN_STATE);
    want("the octet", octet, 1);
    want("service 6", powerlink_serialize_asnd(services, ALL, HEAD, 6, field, 0, small, 46, &written, &octet),
        POWERLINK_UNKNOWN_SERVICE);
    want("the octet", octet, 6);
    want("requested service 9", powerlink_serialize_soa(ALL, MN, 0, false, false, 9, HEAD, 0, small, 46, &written, &octet),
        POWERLINK_UNKNOWN_REQUEST);
    want("the octet", octet, 9);
    octet = 0xEE;
    want("the length", written, 0xEE);
    want_octets("the target", small, before, sizeof small);
}

static void refusals(void)
{
    uint8_t head_before[POWERLINK_REPORTER_LEN], box_before[POWERLINK_COLLECTOR_LEN];

    memcpy(head_before, head, sizeof head);
    memcpy(box_before, box, sizeof box);
    refused_by_the_exchange();
    refused_entries();
    refused_by_writers();
    want_octets("the head", head, head_before, sizeof head);
    want_octets("the box", box, box_before, sizeof box);
    printf("refused calls change nothing\n");
}

/* Entries 1 to 5, and 6 while the first batch is open. */
static void a_bad_line(void)
{
    struct frame repeated;

    box_requests(0);
    head_hears(POWERLINK_KEPT);
    head_answers(4, 1, 1);
    printf("the line loses the answer\n");
    repeated = answered;

    box_requests(0);
    head_hears(POWERLINK_KEPT);
    raise_entry(6);
    printf("head %d raises a 6th entry\n", HEAD);
    head_answers(4, 1, 1);
    want_octets("the repeated answer", answered.octets, repeated.octets, repeated.len);
    box_hears(POWERLINK_BOOKED);
    printf("the line repeats the answer\n");
    box_hears(POWERLINK_KNOWN);
    refusals();

    box_requests(1);
    head_hears(POWERLINK_CLOSED);
    printf("the line repeats the request\n");
    head_hears(POWERLINK_KEPT);
    head_answers(2, 5, 0);
    box_hears(POWERLINK_BOOKED);
    box_requests(0);
    head_hears(POWERLINK_CLOSED);
    head_answers(0, 0, 0);
    box_hears(POWERLINK_KNOWN);
}

int main(void)
{
    uint16_t code;

    new_pair();
    for (code = 1; code <= 5; code++)
        raise_entry(code);
    printf("head %d raises 5 entries\n", HEAD);
    a_bad_line();
    for (code = 1; code <= 6; code++)
        take(code);
    nothing_booked();
    printf("6 entries are taken, in order, and no more\n");

    for (code = 1; code <= 16; code++)
        raise_entry(code);
    want("a 17th waiting entry", raise_as(false, POWERLINK_ERROR_ACTIVE, 2), POWERLINK_QUEUE_FULL);
    printf("a 17th waiting entry is refused\n");
    return 0;
}
