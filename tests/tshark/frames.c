/* frames FILE: writes frames of all kinds into FILE, a capture (classic pcap, Ethernet), and what our readers make of each on
 * standard output: one line per frame, `number kind name=value ...`. Every frame is made by our writers; where a line says
 * `turned`, bits were turned afterwards, most of which no writer sets. That the readers give what the writers were given is
 * tested here; what another program makes of the same octets is for compare.py. The exit status is 1 if a call surprises. */
#include "powerlink.h"

#include <stdio.h>
#include <stdlib.h>
#include <string.h>

enum { MN = 240, ALL = 255, ETH = 14, ASND_FRONT = 18, ENTRY = 20, FRONT = 14, STATUS_RESPONSE = 2, MAX = 1514 };

#define COUNT(a) (sizeof(a) / sizeof((a)[0]))

static const uint8_t mac_a[POWERLINK_MAC_LEN] = {0x02, 0x10, 0x20, 0x30, 0x40, 0x50};
static const uint8_t mac_b[POWERLINK_MAC_LEN] = {0x02, 0xA1, 0xB2, 0xC3, 0xD4, 0xE5};

#define STATES(X) \
    X(GS_OFF) X(GS_INITIALISING) X(GS_RESET_APPLICATION) X(GS_RESET_COMMUNICATION) X(GS_RESET_CONFIGURATION) X(NOT_ACTIVE) \
    X(PRE_OPERATIONAL_1) X(PRE_OPERATIONAL_2) X(READY_TO_OPERATE) X(OPERATIONAL) X(STOPPED) X(BASIC_ETHERNET)
#define CODE(name) POWERLINK_##name,
#define NAME(name) #name,

static const uint8_t states[] = {STATES(CODE)};
static const char *const state_names[] = {STATES(NAME)};
static const uint8_t services[] = {1, 2, 3, 4, 5, 0x0B, 0x0D, 0x0E, 0x0F, 0x10, 0x11, 0x12};
static const uint8_t table[POWERLINK_SERVICES_LEN] = POWERLINK_DS301_SERVICES; /* which holds these */
static const uint8_t requested[] = {0, 1, 2, 3, 0xFF};
static const uint8_t nodes[] = {0, 1, 2, 7, 100, 127, 128, 239, 240, 241, 253, 254, 255};
static const uint8_t versions[] = {0x00, 0x01, 0x0F, 0x10, 0x15, 0x20, 0x23, 0x7F, 0x80, 0xF0, 0xFF};
static const size_t sizes[] = {0, 1, 36, 100};
static const uint32_t times[][2] = {
    {0, 0}, {0, 1}, {1, 0}, {5, 6}, {0x01020304, 0x05060708}, {0x12345678, 999999999}, {0x7FFFFFFF, 256},
    {0x80000000, 65536}, {0xFFFFFFFF, 16777216}, {0xFFFFFFFF, 999999999},
    {1, 1000000000}, {2, 0x7FFFFFFF}, {3, 0x80000000}, {4, 0xFFFFFFFF}};
static const uint64_t longs[] = {
    0, 1, 0x0102030405060708, 0x00000000FFFFFFFF, 0xFFFFFFFF00000000, 0x7FFFFFFFFFFFFFFF, 0x8000000000000000,
    0xFFFFFFFFFFFFFFFF};

static FILE *capture;
static unsigned number;
static uint8_t frame[MAX];
static size_t frame_len;
static uint8_t octet;

static void want(const char *what, uint64_t is, uint64_t should)
{
    if (is != should) {
        fprintf(stderr, "frame %u: %s is %llu, not %llu\n", number + 1, what, (unsigned long long)is,
            (unsigned long long)should);
        exit(1);
    }
}

/* ---- The capture */

static void put(uint32_t value, unsigned octets)
{
    for (; octets > 0; octets--, value >>= 8) {
        if (putc((int)(value & 0xFF), capture) == EOF) {
            perror("the capture");
            exit(1);
        }
    }
}

static void put_capture_header(void)
{
    put(0xA1B2C3D4, 4);
    put(2, 2);
    put(4, 2);
    put(0, 4);
    put(0, 4);
    put(65535, 4);
    put(1, 4); /* Ethernet */
}

static void put_frame(void)
{
    size_t i;
    put(number / 1000, 4);
    put(number % 1000 * 1000, 4);
    put((uint32_t)frame_len, 4);
    put((uint32_t)frame_len, 4);
    for (i = 0; i < frame_len; i++)
        put(frame[i], 1);
}

/* ---- The lines */

static void say(const char *name, uint64_t value)
{
    printf(" %s=%llu", name, (unsigned long long)value);
}

/* The code of a state, and the name that the header gives it. */
static void say_state(uint64_t state)
{
    size_t i;
    for (i = 0; i < COUNT(states) && states[i] != state; i++)
        ;
    want("the state's place", i < COUNT(states), 1);
    say("state", state);
    printf(" state_name=%s", state_names[i]);
}

static void say_octets(const char *name, const uint8_t *octets, size_t len)
{
    size_t i;
    printf(" %s=", name);
    for (i = 0; i < len; i++)
        printf("%02x", octets[i]);
}

/* The StatusResponse from octet 4 of the section on, untrimmed, as the collector reads it. */
static void say_status(void)
{
    static const char *const names[POWERLINK_ENTRY_VALUES] = {
        "status_entry", "send_to_queue", "mode", "profile", "code", "seconds", "nanoseconds", "information"};
    const uint8_t *payload = frame + ASND_FRONT;
    size_t len = frame_len - ASND_FRONT, offset = FRONT, next, i;
    uint64_t v[POWERLINK_STATUS_VALUES], e[POWERLINK_ENTRY_VALUES];
    uint8_t field[POWERLINK_FIELD_LEN];
    char name[40];
    unsigned count = 0;

    want("reading a StatusResponse", powerlink_deserialize_status(payload, len, v, field, &octet), POWERLINK_DONE);
    say("en", v[POWERLINK_STATUS_EN]);
    say("ec", v[POWERLINK_STATUS_EC]);
    say("pr", v[POWERLINK_STATUS_PR]);
    say("rs", v[POWERLINK_STATUS_RS]);
    say_state(v[POWERLINK_STATUS_STATE]);
    say_octets("field", field, sizeof field);
    for (;; count++, offset = next) {
        want("the walk", powerlink_entry_step(payload, len, offset, e, &next), POWERLINK_DONE);
        if (next == 0)
            break;
        for (i = 0; i < POWERLINK_ENTRY_VALUES; i++) {
            sprintf(name, "entry%u.%s", count, names[i]);
            say(name, e[i]);
        }
    }
    say("entries", count);
}

/* Reads the frame, writes it into the capture and says its line. `v` receives what was read. */
static void emit(const char *remark, uint64_t *v)
{
    static const char *const kinds[] = {0, "soc", 0, "preq", "pres", "soa", "asnd"};
    static const char *const names[][5] = {
        {0}, {"mc", "ps", "seconds", "nanoseconds", "relative_time"}, {0}, {"ms", "ea", "rd", "pdo_version", "size"},
        {"ms", "en", "rd", "pdo_version", "size"}, {"ea", "er", "requested_service", "target", "epl_version"}, {"service"}};
    uint8_t to[POWERLINK_MAC_LEN], from[POWERLINK_MAC_LEN];
    uint16_t ether_type;
    uint64_t type;
    size_t i;
    bool status;

    want("reading", powerlink_deserialize_frame(table, frame, frame_len, v, &octet), POWERLINK_DONE);
    want("reading the Ethernet header", powerlink_deserialize_eth_header(frame, frame_len, to, from, &ether_type),
        POWERLINK_DONE);
    number++;
    put_frame();
    type = v[POWERLINK_MESSAGE_TYPE];
    status = type == POWERLINK_ASND && v[POWERLINK_ASND_SERVICE] == STATUS_RESPONSE;
    printf("%u %s%s", number, status ? "status" : kinds[type], remark);
    say_octets("eth_to", to, sizeof to);
    say_octets("eth_from", from, sizeof from);
    say("ether_type", ether_type);
    say("message_type", type);
    say("destination", v[POWERLINK_DESTINATION]);
    say("source", v[POWERLINK_SOURCE]);
    for (i = 0; i < COUNT(names[0]) && names[type][i] != 0; i++)
        say(names[type][i], v[5 + i]);
    if (type == POWERLINK_PRES) {
        say_state(v[POWERLINK_PRES_STATE]);
        say("pr", v[POWERLINK_PRES_PR]);
        say("rs", v[POWERLINK_PRES_RS]);
    }
    if (type == POWERLINK_SOA)
        say_state(v[POWERLINK_SOA_STATE]);
    if (status)
        say_status();
    else if (type != POWERLINK_SOC && type != POWERLINK_SOA)
        say_octets("payload", frame + v[POWERLINK_PAYLOAD_START], v[POWERLINK_PAYLOAD_LEN]);
    putchar('\n');
}

/* Says the frame, and holds what is read to what was written: node IDs and `n` values of its kind. */
static void said(unsigned type, unsigned destination, unsigned source, unsigned n, const uint64_t *values)
{
    uint64_t v[POWERLINK_FRAME_VALUES];
    unsigned i;
    emit("", v);
    want("message type", v[POWERLINK_MESSAGE_TYPE], type);
    want("destination", v[POWERLINK_DESTINATION], destination);
    want("source", v[POWERLINK_SOURCE], source);
    for (i = 0; i < n; i++)
        want("a value of the kind", v[5 + i], values[i]);
}

/* Turns these bits of the last frame, in the octet at `offset` of its section. */
static void turn(size_t offset, uint8_t bits)
{
    frame[ETH + offset] ^= bits;
}

static void emit_turned(void)
{
    uint64_t v[POWERLINK_FRAME_VALUES];
    emit(" turned=1", v);
}

/* ---- The kinds: whole frames by `new`, and sections behind a header, to and from any node */

static void header(const uint8_t *to)
{
    size_t len;
    want("the Ethernet header", powerlink_serialize_eth_header(to, mac_a, 0x88AB, frame, ETH, &len), POWERLINK_DONE);
    want("its length", len, ETH);
}

static void fresh(void)
{
    memset(frame, 0xEE, sizeof frame);
}

static void soc(bool mc, bool ps, uint32_t seconds, uint32_t nanoseconds, uint64_t relative)
{
    uint64_t values[] = {mc, ps, seconds, nanoseconds, relative};
    fresh();
    want("new_soc", powerlink_new_soc(mac_a, mc, ps, seconds, nanoseconds, relative, frame, sizeof frame, &frame_len), 0);
    said(POWERLINK_SOC, ALL, MN, 5, values);
}

static void soc_section(uint8_t destination, uint8_t source)
{
    uint64_t values[] = {0, 0, 3, 4, 5};
    fresh();
    header(mac_b);
    want("serialize_soc",
        powerlink_serialize_soc(destination, source, false, false, 3, 4, 5, frame + ETH, MAX - ETH, &frame_len), 0);
    frame_len += ETH;
    said(POWERLINK_SOC, destination, source, 5, values);
}

static uint8_t content[MAX];

static void fill(uint8_t first)
{
    size_t i;
    for (i = 0; i < sizeof content; i++)
        content[i] = (uint8_t)(first + 3 * i);
}

static void preq(uint8_t node, unsigned flags, uint8_t version, size_t len)
{
    bool ms = flags & 4, ea = flags & 2, rd = flags & 1;
    uint64_t values[] = {ms, ea, rd, version, len};
    fresh();
    want("new_preq",
        powerlink_new_preq(mac_a, mac_b, node, ms, ea, rd, version, content, len, frame, sizeof frame, &frame_len), 0);
    said(POWERLINK_PREQ, node, MN, 5, values);
}

static void preq_section(uint8_t destination, uint8_t source, uint16_t size, size_t len)
{
    uint64_t values[] = {0, 1, 1, 0x21, size};
    fresh();
    header(mac_b);
    want("serialize_preq",
        powerlink_serialize_preq(destination, source, false, true, true, 0x21, size, content, len, frame + ETH, MAX - ETH,
            &frame_len),
        0);
    frame_len += ETH;
    said(POWERLINK_PREQ, destination, source, 5, values);
}

static void pres(uint8_t node, uint8_t state, unsigned flags, uint8_t pr, uint8_t rs, uint8_t version, size_t len)
{
    bool ms = flags & 4, en = flags & 2, rd = flags & 1;
    uint64_t values[] = {ms, en, rd, version, len, state, pr, rs};
    fresh();
    want("new_pres",
        powerlink_new_pres(mac_a, node, state, ms, en, rd, pr, rs, version, content, len, frame, sizeof frame, &frame_len,
            &octet),
        0);
    said(POWERLINK_PRES, ALL, node, 8, values);
}

static void pres_section(uint8_t source, uint16_t size, size_t len)
{
    uint64_t values[] = {1, 0, 1, 0x12, size, POWERLINK_OPERATIONAL, 2, 5};
    fresh();
    header(mac_b);
    want("serialize_pres",
        powerlink_serialize_pres(ALL, source, POWERLINK_OPERATIONAL, true, false, true, 2, 5, 0x12, size, content, len,
            frame + ETH, MAX - ETH, &frame_len, &octet),
        0);
    frame_len += ETH;
    said(POWERLINK_PRES, ALL, source, 8, values);
}

static void soa(uint8_t state, unsigned flags, uint8_t service, uint8_t node, uint8_t version)
{
    bool ea = flags & 2, er = flags & 1;
    uint64_t values[] = {ea, er, service, node, version, state};
    fresh();
    want("new_soa",
        powerlink_new_soa(mac_a, state, ea, er, service, node, version, frame, sizeof frame, &frame_len, &octet), 0);
    said(POWERLINK_SOA, ALL, MN, 6, values);
}

static void soa_section(uint8_t destination, uint8_t source)
{
    uint64_t values[] = {1, 0, 2, 9, 0x20, POWERLINK_PRE_OPERATIONAL_2};
    fresh();
    header(mac_b);
    want("serialize_soa",
        powerlink_serialize_soa(destination, source, POWERLINK_PRE_OPERATIONAL_2, true, false, 2, 9, 0x20, frame + ETH,
            MAX - ETH, &frame_len, &octet),
        0);
    frame_len += ETH;
    said(POWERLINK_SOA, destination, source, 6, values);
}

static void asnd(uint8_t node, uint8_t source, uint8_t service, size_t len)
{
    uint64_t values[] = {service};
    fresh();
    want("new_asnd",
        powerlink_new_asnd(
            table, mac_a, mac_b, node, source, service, content, len, frame, sizeof frame, &frame_len, &octet),
        0);
    said(POWERLINK_ASND, node, source, 1, values);
}

static void asnd_section(uint8_t destination, uint8_t source, uint8_t service, size_t len)
{
    uint64_t values[] = {service};
    fresh();
    header(mac_b);
    want("serialize_asnd",
        powerlink_serialize_asnd(
            table, destination, source, service, content, len, frame + ETH, MAX - ETH, &frame_len, &octet),
        0);
    frame_len += ETH;
    said(POWERLINK_ASND, destination, source, 1, values);
}

/* A StatusResponse of node 7 with `count` entries; their modes are the digits of `modes` to the base of 4, the first the
 * lowest, and their other values follow from `mix`. */
static void status(bool en, bool ec, uint8_t pr, uint8_t rs, uint8_t state, const uint8_t *field, unsigned count,
    unsigned modes, unsigned mix)
{
    static const uint16_t numbers[] = {0, 1, 2, 0x0FFF, 0x0102, 0x0800, 0x00FF, 0x0F00};
    static const uint16_t codes[] = {0, 1, 0x1234, 0xFFFF, 0x00FF, 0xFF00, 0x8000, 0x8165};
    uint64_t values[] = {STATUS_RESPONSE}, v[POWERLINK_STATUS_VALUES], e[POWERLINK_ENTRY_VALUES];
    uint8_t entries[4 * ENTRY], payload[FRONT + 5 * ENTRY], read[POWERLINK_FIELD_LEN];
    size_t written, len;
    unsigned i;

    for (i = 0; i < count; i++, modes /= 4, mix += 5) {
        uint64_t given[POWERLINK_ENTRY_VALUES];
        given[POWERLINK_ENTRY_STATUS_ENTRY] = mix >> 1 & 1;
        given[POWERLINK_ENTRY_SEND_TO_QUEUE] = mix & 1;
        given[POWERLINK_ENTRY_MODE] = modes % 4;
        given[POWERLINK_ENTRY_PROFILE] = numbers[mix % COUNT(numbers)];
        given[POWERLINK_ENTRY_CODE] = codes[mix / 3 % COUNT(codes)];
        given[POWERLINK_ENTRY_SECONDS] = times[mix % COUNT(times)][0];
        given[POWERLINK_ENTRY_NANOSECONDS] = times[mix % COUNT(times)][1];
        given[POWERLINK_ENTRY_INFORMATION] = longs[mix / 2 % COUNT(longs)];
        want("serialize_entry",
            powerlink_serialize_entry(mix >> 1 & 1, mix & 1, (uint8_t)(modes % 4), numbers[mix % COUNT(numbers)],
                codes[mix / 3 % COUNT(codes)], times[mix % COUNT(times)][0], times[mix % COUNT(times)][1],
                longs[mix / 2 % COUNT(longs)], entries + ENTRY * i, ENTRY, &written),
            0);
        want("deserialize_entry", powerlink_deserialize_entry(entries + ENTRY * i, ENTRY, e), 0);
        want("what an entry is read as", memcmp(given, e, sizeof e) != 0, 0);
    }
    want("serialize_status",
        powerlink_serialize_status(en, ec, pr, rs, state, field, entries, ENTRY * count, payload, sizeof payload, &len,
            &octet),
        0);
    want("deserialize_status", powerlink_deserialize_status(payload, len, v, read, &octet), 0);
    want("EN", v[POWERLINK_STATUS_EN], en);
    want("EC", v[POWERLINK_STATUS_EC], ec);
    want("PR", v[POWERLINK_STATUS_PR], pr);
    want("RS", v[POWERLINK_STATUS_RS], rs);
    want("state", v[POWERLINK_STATUS_STATE], state);
    want("error field", memcmp(field, read, sizeof read) != 0, 0);
    fresh();
    want("new_asnd",
        powerlink_new_asnd(
            table, mac_a, mac_b, ALL, 7, STATUS_RESPONSE, payload, len, frame, sizeof frame, &frame_len, &octet),
        0);
    said(POWERLINK_ASND, ALL, 7, 1, values);
}

/* ---- What is made */

static void all_soc(void)
{
    unsigned flags, i, j;
    for (flags = 0; flags < 4; flags++)
        soc(flags >> 1, flags & 1, 7, 8, 9);
    for (i = 0; i < COUNT(times); i++)
        for (j = 0; j < COUNT(longs); j++)
            soc(i & 1, j & 1, times[i][0], times[i][1], longs[j]);
    for (i = 0; i < COUNT(nodes); i++)
        for (j = 0; j < COUNT(nodes); j += 3)
            soc_section(nodes[i], nodes[(i + j) % COUNT(nodes)]);
    soc(false, false, 1, 2, 3);
    turn(0, 0x80);
    emit_turned();
    turn(3, 0xFF);
    turn(4, 0x3F);
    turn(5, 0xFF);
    for (i = 22; i < 46; i++)
        turn(i, 0xFF);
    emit_turned();
}

static void all_preq(void)
{
    unsigned flags, i;
    for (flags = 0; flags < 8; flags++)
        for (i = 0; i < COUNT(sizes); i++) {
            fill((uint8_t)(flags + 1));
            preq((uint8_t)(flags + 1), flags, 0x20, sizes[i]);
        }
    for (i = 0; i < COUNT(versions); i++)
        preq(3, i % 8, versions[i], 2 + i);
    for (i = 0; i < COUNT(nodes); i++) {
        preq(nodes[i], 1, 0, 4);
        preq_section(nodes[i], nodes[(i + 5) % COUNT(nodes)], 10, 10);
    }
    preq(3, 0, 0, 255);
    preq(3, 0, 0, 256);
    preq(3, 0, 0, 1490);
    /* A size that is not the payload's length: less, or more but within the padding. */
    preq_section(5, MN, 0, 36);
    preq_section(5, MN, 35, 36);
    preq_section(5, MN, 36, 35);
    preq_section(5, MN, 36, 0);
    preq_section(5, MN, 99, 100);
    preq(6, 0, 0, 8);
    turn(0, 0x80);
    emit_turned();
    turn(3, 0xFF);
    turn(4, 0xDA);
    turn(5, 0xFF);
    turn(7, 0xFF);
    emit_turned();
}

static void all_pres(void)
{
    unsigned flags, i, j;
    for (i = 0; i < COUNT(states); i++)
        for (flags = 0; flags < 8; flags++) {
            fill((uint8_t)(0x80 + flags));
            pres((uint8_t)(i + 1), states[i], flags, 0, 0, 0x20, sizes[flags % COUNT(sizes)]);
        }
    for (i = 0; i < 8; i++)
        for (j = 0; j < 8; j++)
            pres(4, POWERLINK_OPERATIONAL, 1, (uint8_t)i, (uint8_t)j, 0, sizes[j % COUNT(sizes)]);
    for (i = 0; i < COUNT(states); i++) {
        pres(MN, states[i], 0, 0, 0, 0, 3);
        pres_section(MN, 3, 3);
    }
    for (i = 0; i < COUNT(versions); i++)
        pres(3, POWERLINK_OPERATIONAL, i % 8, 1, 2, versions[i], 2 + i);
    for (i = 0; i < COUNT(nodes); i++) {
        pres(nodes[i], POWERLINK_READY_TO_OPERATE, 1, 7, 0, 0, 4);
        pres_section(nodes[i], 10, 10);
    }
    pres(3, POWERLINK_OPERATIONAL, 0, 0, 0, 0, 255);
    pres(3, POWERLINK_OPERATIONAL, 0, 0, 0, 0, 256);
    pres(3, POWERLINK_OPERATIONAL, 0, 0, 0, 0, 1490);
    pres_section(5, 0, 36);
    pres_section(5, 35, 36);
    pres_section(5, 36, 35);
    pres_section(5, 36, 0);
    pres_section(5, 99, 100);
    pres(6, POWERLINK_OPERATIONAL, 0, 0, 0, 0, 8);
    turn(0, 0x80);
    emit_turned();
    turn(4, 0xCE);
    turn(5, 0xC0);
    turn(7, 0xFF);
    emit_turned();
}

static void all_soa(void)
{
    unsigned flags, i, j;
    for (i = 0; i < COUNT(states); i++)
        for (flags = 0; flags < 4; flags++)
            soa(states[i], flags, requested[(i + flags) % COUNT(requested)], 7, 0x20);
    for (i = 0; i < COUNT(requested); i++)
        for (j = 0; j < COUNT(nodes); j++)
            soa(POWERLINK_OPERATIONAL, j % 4, requested[i], nodes[j], 0x15);
    for (i = 0; i < COUNT(versions); i++)
        soa(POWERLINK_PRE_OPERATIONAL_1, i % 4, 1, 8, versions[i]);
    for (i = 0; i < COUNT(nodes); i++)
        for (j = 0; j < COUNT(nodes); j += 3)
            soa_section(nodes[i], nodes[(i + j) % COUNT(nodes)]);
    soa(POWERLINK_OPERATIONAL, 0, 2, 8, 0x20);
    turn(0, 0x80);
    emit_turned();
    turn(4, 0xF9);
    turn(5, 0xFF);
    for (i = 9; i < 46; i++)
        turn(i, 0xFF);
    emit_turned();
}

static void all_asnd(void)
{
    unsigned i, j;
    for (i = 0; i < COUNT(services); i++) {
        if (services[i] == STATUS_RESPONSE) /* all_status */
            continue;
        for (j = 0; j < COUNT(sizes); j++) {
            fill((uint8_t)(0x11 * i + 1));
            asnd((uint8_t)(i + 1), (uint8_t)(j + 1), services[i], sizes[j]);
        }
        fill(1);
        for (j = 40; j < 45; j++) /* around a section of 46 octets */
            asnd(2, 3, services[i], j);
        memset(content, 0, sizeof content);
        for (j = 40; j < 45; j++)
            asnd(2, 3, services[i], j);
        fill(1);
        for (j = 0; j < COUNT(nodes); j++)
            asnd_section(nodes[j], nodes[(j + i) % COUNT(nodes)], services[i], 12);
    }
    asnd(ALL, 3, 1, 158); /* as long as an IdentResponse */
    asnd(ALL, 4, 1, 200);
    asnd(4, 5, 0x0B, 6);
    turn(0, 0x80);
    emit_turned();
}

static void all_status(void)
{
    static const unsigned powers[] = {1, 4, 16, 64, 256};
    static const uint8_t some[POWERLINK_FIELD_LEN] = {0x81, 0x02, 0x13, 0x24, 0x35, 0x46, 0x57, 0x68};
    uint8_t field[POWERLINK_FIELD_LEN] = {0};
    unsigned i, j;

    for (i = 0; i < COUNT(states); i++)
        for (j = 0; j < 4; j++)
            status(j >> 1, j & 1, 0, 0, states[i], some, j, 0xE4 >> 2, i);
    for (i = 0; i < 8; i++)
        for (j = 0; j < 8; j++)
            status(i & 1, j & 1, (uint8_t)i, (uint8_t)j, POWERLINK_OPERATIONAL, some, 0, 0, 0);
    for (i = 0; i < 64; i++) {
        memset(field, 0, sizeof field);
        field[i / 8] = (uint8_t)(1u << i % 8);
        status(true, false, 1, 1, POWERLINK_OPERATIONAL, field, 0, 0, 0);
    }
    memset(field, 0xFF, sizeof field);
    status(false, true, 1, 1, POWERLINK_OPERATIONAL, field, 0, 0, 0);
    /* No entries to four, every order of modes: mode 0 ends the list for us. */
    for (i = 0; i <= 4; i++)
        for (j = 0; j < powers[i]; j++)
            status(j & 1, i & 1, 3, (uint8_t)i, POWERLINK_STOPPED, some, i, j, 7 * j + i);
    /* Four entries that count, every mix of their other values. */
    for (i = 0; i < 240; i++)
        status(i & 1, i & 2, 5, 4, POWERLINK_OPERATIONAL, some, 4, 0x55 * (1 + i % 3), i);
    /* Every first octet; the writers set bits 5 and 4 alone. */
    for (i = 0; i < 256; i++) {
        status(false, false, 2, 2, POWERLINK_OPERATIONAL, some, 1, 1, i);
        turn(4, (uint8_t)i);
        emit_turned();
    }
    /* The two highest bits of the second, and the reserved octets. */
    status(true, true, 6, 3, POWERLINK_OPERATIONAL, some, 2, 14, 9);
    turn(5, 0xC0);
    turn(7, 0xFF);
    turn(8, 0xFF);
    turn(9, 0xFF);
    emit_turned();
    /* StatusResponses of any payload: none, and one octet. */
    memset(content, 0, sizeof content);
    asnd(ALL, 9, STATUS_RESPONSE, 0);
    content[0] = 0x20;
    asnd(ALL, 9, STATUS_RESPONSE, 1);
    for (i = 0; i < COUNT(nodes); i++) {
        asnd(nodes[i], nodes[(i + 4) % COUNT(nodes)], STATUS_RESPONSE, 14);
        asnd_section(nodes[i], nodes[(i + 6) % COUNT(nodes)], STATUS_RESPONSE, 53); /* the end of an entry is missing */
    }
}

/* Answers of a reporter with no entry to four, and what a collector asks. */
static void all_signaling(void)
{
    static uint8_t reporter[POWERLINK_REPORTER_LEN], collector[POWERLINK_COLLECTOR_LEN];
    static const uint8_t field[POWERLINK_FIELD_LEN] = {1, 2, 3, 4, 5, 6, 7, 8};
    uint64_t v[POWERLINK_FRAME_VALUES];
    uint8_t outcome;
    unsigned i, j;

    want("a reporter", powerlink_reporter_new(reporter, 11), 0);
    want("a collector", powerlink_collector_new(collector), 0);
    want("registering", powerlink_collector_register(collector, 11), 0);
    for (i = 0; i <= 4; i++) {
        for (j = 0; j < i; j++)
            want("raise",
                powerlink_reporter_raise(reporter, false, j & 2, (uint8_t)(1 + j % 3), (uint16_t)(j + 1),
                    (uint16_t)(0x8000 + i), 100 + i, 200 + j, 300 + i),
                0);
        fresh();
        want("answer",
            powerlink_reporter_answer(reporter, table, mac_a, mac_b, i & 1, (uint8_t)i, (uint8_t)i, POWERLINK_OPERATIONAL,
                field, frame, sizeof frame, &frame_len, &octet),
            0);
        /* Bit 15, which a node of ours does not send, and one of another supplier does. */
        for (j = 1; j < i; j += 2)
            frame[ASND_FRONT + FRONT + j * ENTRY + 1] |= 0x80;
        emit("", v);
        want("the box's reading", powerlink_collector_read(collector, table, frame, frame_len, &outcome, &octet), 0);
        fresh();
        want("request",
            powerlink_collector_request(collector, 11, mac_b, POWERLINK_OPERATIONAL, 0x20, frame, sizeof frame, &frame_len,
                &octet),
            0);
        emit("", v);
        want("the head's reading", powerlink_reporter_read(reporter, table, frame, frame_len, &outcome, &octet), 0);
    }
}

int main(int argc, char **argv)
{
    if (argc != 2) {
        fprintf(stderr, "usage: frames FILE\n");
        return 1;
    }
    capture = fopen(argv[1], "wb");
    if (capture == 0) {
        perror(argv[1]);
        return 1;
    }
    put_capture_header();
    all_soc();
    all_preq();
    all_pres();
    all_soa();
    all_asnd();
    all_status();
    all_signaling();
    if (fclose(capture) != 0) {
        perror(argv[1]);
        return 1;
    }
    return 0;
}
