/* A frame with any Ethernet header, as powerlink.h says: the section behind 14 octets, then the header in front. With the
 * header of each kind's `new` it is the same frame, octet by octet, refused at the same lengths of the target; a refusal
 * leaves the target. The exit status is 1 if not. */
#include "powerlink.h"
#include "want.h"

enum { ROOM = 128, FILL = 0x55 };

static const uint8_t from[POWERLINK_MAC_LEN] = {0x02, 0x10, 0x20, 0x30, 0x40, 0x50};
static const uint8_t to[POWERLINK_MAC_LEN] = {0x02, 0xA1, 0xB2, 0xC3, 0xD4, 0xE5};
static const uint8_t to_soc[POWERLINK_MAC_LEN] = POWERLINK_MULTICAST_SOC;
static const uint8_t to_pres[POWERLINK_MAC_LEN] = POWERLINK_MULTICAST_PRES;
static const uint8_t to_soa[POWERLINK_MAC_LEN] = POWERLINK_MULTICAST_SOA;
static const uint8_t services[POWERLINK_SERVICES_LEN] = POWERLINK_DS301_SERVICES;
static const uint8_t payload[40] = {1, 2, 3, 4, 5, 6, 7, 8, 9, 10};
static uint8_t octet = 0xEE;

/* The kinds, as `new` writes them, and where it sends them. */
static const uint8_t kinds[] = {POWERLINK_SOC, POWERLINK_PREQ, POWERLINK_PRES, POWERLINK_SOA, POWERLINK_ASND};

static const uint8_t *destination(uint8_t kind)
{
    switch (kind) {
    case POWERLINK_SOC:
        return to_soc;
    case POWERLINK_PRES:
        return to_pres;
    case POWERLINK_SOA:
        return to_soa;
    default:
        return to;
    }
}

static uint8_t whole(uint8_t kind, uint8_t *target, size_t len, size_t *written)
{
    switch (kind) {
    case POWERLINK_SOC:
        return powerlink_new_soc(from, true, false, 5, 6, 7, target, len, written);
    case POWERLINK_PREQ:
        return powerlink_new_preq(from, to, 7, true, false, true, 0x12, payload, sizeof payload, target, len, written);
    case POWERLINK_PRES:
        return powerlink_new_pres(from, 7, POWERLINK_OPERATIONAL, true, false, true, 6, 5, 0x12, payload, sizeof payload,
            target, len, written, &octet);
    case POWERLINK_SOA:
        return powerlink_new_soa(from, POWERLINK_OPERATIONAL, true, false, POWERLINK_STATUS_REQUEST, 7, 0x20, target, len,
            written, &octet);
    default:
        return powerlink_new_asnd(services, from, to, POWERLINK_BROADCAST_NODE, 7, POWERLINK_SDO, payload, sizeof payload,
            target, len, written, &octet);
    }
}

static uint8_t section(uint8_t kind, uint8_t *target, size_t len, size_t *written)
{
    switch (kind) {
    case POWERLINK_SOC:
        return powerlink_serialize_soc(POWERLINK_BROADCAST_NODE, POWERLINK_MN_NODE, true, false, 5, 6, 7, target, len, written);
    case POWERLINK_PREQ:
        return powerlink_serialize_preq(7, POWERLINK_MN_NODE, true, false, true, 0x12, sizeof payload, payload, sizeof payload,
            target, len, written);
    case POWERLINK_PRES:
        return powerlink_serialize_pres(POWERLINK_BROADCAST_NODE, 7, POWERLINK_OPERATIONAL, true, false, true, 6, 5, 0x12,
            sizeof payload, payload, sizeof payload, target, len, written, &octet);
    case POWERLINK_SOA:
        return powerlink_serialize_soa(POWERLINK_BROADCAST_NODE, POWERLINK_MN_NODE, POWERLINK_OPERATIONAL, true, false,
            POWERLINK_STATUS_REQUEST, 7, 0x20, target, len, written, &octet);
    default:
        return powerlink_serialize_asnd(services, POWERLINK_BROADCAST_NODE, 7, POWERLINK_SDO, payload, sizeof payload, target,
            len, written, &octet);
    }
}

/* The way that the header's comment shows. */
static uint8_t joined(
    uint8_t kind, const uint8_t *dest, uint16_t ether_type, uint8_t *target, size_t len, size_t *written)
{
    size_t behind, header;
    uint8_t cause;

    if (len < POWERLINK_ETH_LEN)
        return POWERLINK_TOO_SHORT;
    cause = section(kind, target + POWERLINK_ETH_LEN, len - POWERLINK_ETH_LEN, &behind);
    if (cause != POWERLINK_DONE)
        return cause;
    cause = powerlink_serialize_eth_header(dest, from, ether_type, target, POWERLINK_ETH_LEN, &header);
    *written = header + behind;
    return cause;
}

/* At one length of the target, both come to the same; the result says whether they write. */
static bool same(uint8_t kind, size_t len)
{
    uint8_t one[ROOM], other[ROOM], before[ROOM];
    size_t one_len = 0xEE, other_len = 0xEE;
    uint8_t cause;

    memset(one, FILL, sizeof one);
    memset(other, FILL, sizeof other);
    memset(before, FILL, sizeof before);
    cause = whole(kind, one, len, &one_len);
    want("the cause", joined(kind, destination(kind), POWERLINK_ETHER_TYPE, other, len, &other_len), cause);
    want("the length", other_len, one_len);
    want_octets("the target", other, one, sizeof one);
    if (cause != POWERLINK_DONE)
        want_octets("a refused target", other, before, sizeof before);
    return cause == POWERLINK_DONE;
}

/* With another header, only the header differs. */
static void another_header(uint8_t kind)
{
    uint8_t one[ROOM], other[ROOM], dest[POWERLINK_MAC_LEN], source[POWERLINK_MAC_LEN];
    size_t one_len, other_len;
    uint16_t ether_type;

    want("a whole frame", whole(kind, one, sizeof one, &one_len), POWERLINK_DONE);
    want("a frame with another header", joined(kind, payload, 0x0800, other, sizeof other, &other_len), POWERLINK_DONE);
    want("the length", other_len, one_len);
    want_octets("the section", other + POWERLINK_ETH_LEN, one + POWERLINK_ETH_LEN, one_len - POWERLINK_ETH_LEN);
    want("the header", powerlink_deserialize_eth_header(other, other_len, dest, source, &ether_type), POWERLINK_DONE);
    want_octets("the destination", dest, payload, sizeof dest);
    want_octets("the source", source, from, sizeof source);
    want("the EtherType", ether_type, 0x0800);
}

int main(void)
{
    size_t i, len, written;

    for (i = 0; i < sizeof kinds; i++) {
        written = 0;
        for (len = 0; len <= ROOM; len++)
            written += same(kinds[i], len);
        want("some target is too short, and some is not", written > 0 && written < ROOM, 1);
        another_header(kinds[i]);
    }
    printf("frames with any header: 5 kinds, targets of 0 to %d octets\n", ROOM);
    return 0;
}
