/* A head and a box for the C programs here, and each call on them as one step, held to its cause and its outcome. */
#ifndef PAIR_H
#define PAIR_H

#include "powerlink.h"
#include "want.h"

enum { HEAD = 7, MN = POWERLINK_MN_NODE, ALL = POWERLINK_BROADCAST_NODE };

static const uint8_t head_mac[POWERLINK_MAC_LEN] = {0x02, 0, 0, 0, 0, HEAD};
static const uint8_t box_mac[POWERLINK_MAC_LEN] = {0x02, 0, 0, 0, 0, MN};
static const uint8_t field[POWERLINK_FIELD_LEN] = {1, 2, 3, 4, 5, 6, 7, 8};

static uint8_t head[POWERLINK_REPORTER_LEN];
static uint8_t box[POWERLINK_COLLECTOR_LEN];

/* The table of both, unless a program loads another. */
static uint8_t services[POWERLINK_SERVICES_LEN] = POWERLINK_DS301_SERVICES;

/* A frame on the line. The longest is an answer with four entries. */
struct frame {
    uint8_t octets[POWERLINK_ANSWER_MAX];
    size_t len;
};

static inline void new_head(void)
{
    want("a new head", powerlink_reporter_new(head, HEAD), POWERLINK_DONE);
}

static inline void new_box(void)
{
    want("a new box", powerlink_collector_new(box), POWERLINK_DONE);
    want("registering", powerlink_collector_register(box, HEAD), POWERLINK_DONE);
}

static inline void new_pair(void)
{
    new_head();
    new_box();
}

/* Raises the entry with this code; its other fields follow from it. */
static inline void raise_entry(uint16_t code)
{
    want("Raise",
        powerlink_reporter_raise(head, false, true, POWERLINK_ERROR_ACTIVE, 2, code, code, code + 1u, code + 2u),
        POWERLINK_DONE);
}

static inline struct frame answer(void)
{
    struct frame f;
    uint8_t octet;
    want("Answer",
        powerlink_reporter_answer(head, services, head_mac, box_mac, false, 7, 9, POWERLINK_OPERATIONAL, field, f.octets,
            sizeof f.octets, &f.len, &octet),
        POWERLINK_DONE);
    return f;
}

static inline void box_reads(struct frame f, uint8_t outcome)
{
    uint8_t octet, is = 0xEE;
    want("the box's reading", powerlink_collector_read(box, services, f.octets, f.len, &is, &octet), POWERLINK_DONE);
    want("the box's outcome", is, outcome);
}

static inline struct frame request(void)
{
    struct frame f;
    uint8_t octet;
    want("request",
        powerlink_collector_request(box, HEAD, box_mac, POWERLINK_OPERATIONAL, 0x20, f.octets, sizeof f.octets, &f.len,
            &octet),
        POWERLINK_DONE);
    return f;
}

static inline void head_reads(struct frame f, uint8_t outcome)
{
    uint8_t octet, is = 0xEE;
    want("the head's reading", powerlink_reporter_read(head, services, f.octets, f.len, &is, &octet), POWERLINK_DONE);
    want("the head's outcome", is, outcome);
}

/* An answer that is booked, and the request that closes it. */
static inline void exchange(void)
{
    box_reads(answer(), POWERLINK_BOOKED);
    head_reads(request(), POWERLINK_CLOSED);
}

/* Takes the head's oldest entry out of the box, which must be the one with this code. */
static inline void take(uint16_t code)
{
    uint64_t v[POWERLINK_ENTRY_VALUES];
    want("Take", powerlink_collector_take(box, HEAD, v), POWERLINK_DONE);
    want("status entry", v[POWERLINK_ENTRY_STATUS_ENTRY], 0);
    want("send to queue", v[POWERLINK_ENTRY_SEND_TO_QUEUE], 1);
    want("mode", v[POWERLINK_ENTRY_MODE], POWERLINK_ERROR_ACTIVE);
    want("profile", v[POWERLINK_ENTRY_PROFILE], 2);
    want("code", v[POWERLINK_ENTRY_CODE], code);
    want("seconds", v[POWERLINK_ENTRY_SECONDS], code);
    want("nanoseconds", v[POWERLINK_ENTRY_NANOSECONDS], code + 1u);
    want("information", v[POWERLINK_ENTRY_INFORMATION], code + 2u);
}

static inline void nothing_booked(void)
{
    uint64_t v[POWERLINK_ENTRY_VALUES];
    want("a Take too many", powerlink_collector_take(box, HEAD, v), POWERLINK_NOTHING_BOOKED);
}

#endif
