/* POWERLINK frames, error signaling (EPSG DS 301) and the journal of errors: the functions of the archive
 * libpowerlink.a, each proved to answer as its definitions say. The archive is for x86-64 (ELF, System V calling
 * convention) and calls nothing but `memset`, `memmove` and `memcpy`.
 *
 * Answers. Every function answers with the number of a cause, or 0 (POWERLINK_DONE). Its comment names the causes that
 * it has, in the order in which they are tested: where several apply, the first one is the answer.
 *
 * Refusals. Where the answer is not 0, nothing that the caller lent has changed: no target, state, value or length. One
 * exception: `octet`, where there is one, receives with causes 4 to 7 the octet that names nothing, and stays as it was
 * with every other answer, 0 among them.
 *
 * Memory. No function allocates, keeps a pointer, calls back, or has a state of its own: a state is octets that the
 * caller lends, and any octets are one; the same goes for a table of services. No input is undefined, but for what C
 * itself asks of the caller:
 *  - no pointer is null, also where its length is 0;
 *  - a pointer followed by a length, `buffer` and `buffer_len`, points to that many octets; an array parameter to as many
 *    elements as its declaration says; any other pointer to one object;
 *  - two buffers of which one is written do not overlap (`restrict`): neither target, state, values nor out-parameters with
 *    one another, nor any of them with what is read. Two that are only read may;
 *  - nobody else writes to any of them during the call, or reads what is written.
 *
 * C99 or newer, or C++. tests/header.py holds declarations, constants and the causes in the comments to the sources. */
#ifndef POWERLINK_H
#define POWERLINK_H

#include <stdbool.h>
#include <stddef.h>
#include <stdint.h>

/* C++ has neither `restrict` nor the smallest length of an array parameter; what they say holds there too. */
#ifdef __cplusplus
#define POWERLINK_RESTRICT
#define POWERLINK_ARRAY(n) n
extern "C" {
#else
#define POWERLINK_RESTRICT restrict
#define POWERLINK_ARRAY(n) restrict static n
#endif

/* ---- The version of this interface
 *
 * Each change of a function's parameters or of a state's length raises it. The two functions that make a state have it at
 * the end of the name that is linked; a function whose parameters have changed has there the version of its last change.
 * So a program that makes a state, or calls a function whose parameters are others in the archive, does not link with it.
 * (One that does neither, as one that goes on from saved octets, links with any archive: it has to be built with the
 * archive's own header.) A state that was saved is of one version only, unless it is said here.
 *
 * Version 2 has tables of services: powerlink_services_load and powerlink_services_contains are new; who reads or writes
 * an ASnd takes a table. It is the first parameter of powerlink_deserialize_frame, powerlink_serialize_asnd and
 * powerlink_new_asnd, and stands behind the state of powerlink_reporter_answer, powerlink_reporter_read and
 * powerlink_collector_read. With POWERLINK_DS301_SERVICES each of them answers as in version 1, but for what follows. The
 * octets of a state are as in version 1: what was saved there goes on here.
 *
 * Later in version 2, with no parameter and no length changed, so that a program built with version 2 before it links as it
 * is: powerlink_reporter_raise answers 23 for a status entry, one with bit 15 set, and powerlink_collector_read leaves such
 * entries out of the book. A program that knows the causes up to 22 has to expect 23, and one that raised its faults with
 * `status_entry` raises them without. A reporter's state that was saved before may hold status entries: they are sent, and
 * not booked. If they are to be listed, the reporter is emptied before the collector is changed: until its answers carry
 * no entry. Those in a saved book are taken as before. */
#define POWERLINK_VERSION 2
#define powerlink_reporter_new powerlink_reporter_new_v2
#define powerlink_collector_new powerlink_collector_new_v2
#define powerlink_deserialize_frame powerlink_deserialize_frame_v2
#define powerlink_serialize_asnd powerlink_serialize_asnd_v2
#define powerlink_new_asnd powerlink_new_asnd_v2
#define powerlink_reporter_answer powerlink_reporter_answer_v2
#define powerlink_reporter_read powerlink_reporter_read_v2
#define powerlink_collector_read powerlink_collector_read_v2

/* ---- Lengths in octets */

/* The states of a reporter and of a collector. */
#define POWERLINK_REPORTER_LEN 408
#define POWERLINK_COLLECTOR_LEN 5184

/* An Ethernet address, an Ethernet header, an error field, and an entry. */
#define POWERLINK_MAC_LEN 6
#define POWERLINK_ETH_LEN 14
#define POWERLINK_FIELD_LEN 8
#define POWERLINK_ENTRY_LEN 20

/* A table of services, an octet for each ID. */
#define POWERLINK_SERVICES_LEN 256

/* The longest answer of a reporter, and a collector's request. Both are lengths to write in: an answer of another
 * supplier's node may be longer, so that frames are received in a whole Ethernet frame's place. */
#define POWERLINK_ANSWER_MAX 132
#define POWERLINK_REQUEST_LEN 60

/* What a journal begins with, and a record of it. */
#define POWERLINK_JOURNAL_START_LEN 5
#define POWERLINK_RECORD_LEN 21

/* ---- Lengths in numbers: the values of a frame, of what every section begins with, of a StatusResponse's front, and
 * of an entry */
#define POWERLINK_FRAME_VALUES 16
#define POWERLINK_PL_VALUES 3
#define POWERLINK_STATUS_VALUES 5
#define POWERLINK_ENTRY_VALUES 8

/* ---- Addresses. The arrays are initializers: uint8_t soc[POWERLINK_MAC_LEN] = POWERLINK_MULTICAST_SOC; */

#define POWERLINK_ETHER_TYPE 0x88AB

#define POWERLINK_MULTICAST_SOC {0x01, 0x11, 0x1E, 0x00, 0x00, 0x01}
#define POWERLINK_MULTICAST_PRES {0x01, 0x11, 0x1E, 0x00, 0x00, 0x02}
#define POWERLINK_MULTICAST_SOA {0x01, 0x11, 0x1E, 0x00, 0x00, 0x03}
#define POWERLINK_MULTICAST_ASND {0x01, 0x11, 0x1E, 0x00, 0x00, 0x04}

/* Node IDs: the largest of a controlled node, whose smallest is 1; the managing node; all nodes. */
#define POWERLINK_MAX_CN_NODE 239
#define POWERLINK_MN_NODE 240
#define POWERLINK_BROADCAST_NODE 255

/* What a journal begins with, an initializer too: `PLB`, then version 1, low octet first. Records follow. */
#define POWERLINK_JOURNAL_START {0x50, 0x4C, 0x42, 0x01, 0x00}

/* The table of the twelve services that have a name below, an initializer too; with its length, C makes the rest of the
 * array 0: static const uint8_t services[POWERLINK_SERVICES_LEN] = POWERLINK_DS301_SERVICES; */
#define POWERLINK_DS301_SERVICES {0, 1, 1, 1, 1, 1, 0, 0, 0, 0, 0, 1, 0, 1, 1, 1, 1, 1, 1}

/* ---- Causes */
enum {
    POWERLINK_DONE = 0,
    POWERLINK_TOO_SHORT = 1,               /* input or target shorter than needed */
    POWERLINK_NOT_POWERLINK = 2,           /* the EtherType is not 88AB h */
    POWERLINK_INVALID_FRAME = 3,           /* the section is empty, or a PRes is not to node 255 */
    POWERLINK_UNKNOWN_MESSAGE = 4,         /* octet: the message type, without its highest bit when it is read */
    POWERLINK_UNKNOWN_STATE = 5,           /* octet: the NMT state */
    POWERLINK_UNKNOWN_SERVICE = 6,         /* octet: the service, which the table does not hold */
    POWERLINK_UNKNOWN_REQUEST = 7,         /* octet: the requested service */
    POWERLINK_ENTRY_INVALID = 8,           /* an entry to raise has mode 0 or above 3, or a profile above 4,095; one to write has a mode above 3 */
    POWERLINK_QUEUE_FULL = 9,              /* 16 entries are waiting */
    POWERLINK_NOT_STATUS_RESPONSE = 10,    /* the frame is another one */
    POWERLINK_NOT_REGISTERED = 11,
    POWERLINK_BOOK_FULL = 12,              /* fewer free places than entries of the batch with bit 15 clear */
    POWERLINK_ID_OUT_OF_RANGE = 13,        /* a controlled node's ID is 1 to 239 */
    POWERLINK_ID_REGISTERED = 14,
    POWERLINK_FOUR_REGISTERED = 15,
    POWERLINK_NOTHING_BOOKED = 16,
    POWERLINK_NOT_A_JOURNAL = 17,          /* a journal has under 5 octets; the program `journal`: or not its mark */
    POWERLINK_UNKNOWN_VERSION = 18,        /* a journal's version is not 1 */
    POWERLINK_RECORD_INVALID = 19,         /* a record has mode 0 or above 3, or an ID that is not 1 to 239 */
    POWERLINK_NOT_A_TABLE = 20,            /* a table of services has under 5 octets, or another mark or version */
    POWERLINK_NOT_ASCENDING = 21,          /* its IDs are not strictly ascending */
    POWERLINK_WITHOUT_STATUS_RESPONSE = 22, /* 2, StatusResponse, is not among them */
    POWERLINK_IS_STATUS_ENTRY = 23         /* an entry to raise has bit 15 set, `status_entry` */
};

/* ---- Codes */

/* Message types. */
enum {
    POWERLINK_SOC = 1,
    POWERLINK_PREQ = 3,
    POWERLINK_PRES = 4,
    POWERLINK_SOA = 5,
    POWERLINK_ASND = 6
};

/* NMT states. */
enum {
    POWERLINK_GS_OFF = 0x00,
    POWERLINK_GS_INITIALISING = 0x19,
    POWERLINK_GS_RESET_APPLICATION = 0x29,
    POWERLINK_GS_RESET_COMMUNICATION = 0x39,
    POWERLINK_GS_RESET_CONFIGURATION = 0x79,
    POWERLINK_NOT_ACTIVE = 0x1C,
    POWERLINK_PRE_OPERATIONAL_1 = 0x1D,
    POWERLINK_PRE_OPERATIONAL_2 = 0x5D,
    POWERLINK_READY_TO_OPERATE = 0x6D,
    POWERLINK_OPERATIONAL = 0xFD,
    POWERLINK_STOPPED = 0x4D,
    POWERLINK_BASIC_ETHERNET = 0x1E
};

/* The services of an ASnd that have a name here: those that powerlink-rs lists (EPSG DS 301, Appendix 3.3 and Table 138).
 * Any octet may be one: a table says which are known. */
enum {
    POWERLINK_IDENT_RESPONSE = 0x01,
    POWERLINK_STATUS_RESPONSE = 0x02,
    POWERLINK_NMT_REQUEST = 0x03,
    POWERLINK_NMT_COMMAND = 0x04,
    POWERLINK_SDO = 0x05,
    POWERLINK_NMT_PUBLISH_TIME = 0x0B,
    POWERLINK_NMT_PUBLISH_NMT_STATE = 0x0D,
    POWERLINK_NMT_PUBLISH_NODE_STATE = 0x0E,
    POWERLINK_NMT_PUBLISH_NODE_LIST = 0x0F,
    POWERLINK_NMT_PUBLISH_EMERG_NEW = 0x10,
    POWERLINK_NMT_PUBLISH_HEARTBEAT = 0x11,
    POWERLINK_NMT_PUBLISH_ACTIVE_NODES = 0x12
};

/* The services that an SoA requests: these five, whatever the table. */
enum {
    POWERLINK_NO_SERVICE = 0x00,
    POWERLINK_IDENT_REQUEST = 0x01,
    POWERLINK_STATUS_REQUEST = 0x02,
    POWERLINK_NMT_REQUEST_INVITE = 0x03,
    POWERLINK_UNSPECIFIED_INVITE = 0xFF
};

/* Priorities, pr. */
enum {
    POWERLINK_PRIO_LOW_1 = 0,
    POWERLINK_PRIO_LOW_2 = 1,
    POWERLINK_PRIO_LOW_3 = 2,
    POWERLINK_PRIO_GENERIC_REQUEST = 3,
    POWERLINK_PRIO_HIGH_1 = 4,
    POWERLINK_PRIO_HIGH_2 = 5,
    POWERLINK_PRIO_HIGH_3 = 6,
    POWERLINK_PRIO_NMT_REQUEST = 7
};

/* The modes of an entry. */
enum {
    POWERLINK_TERMINATOR = 0,
    POWERLINK_ERROR_ACTIVE = 1,
    POWERLINK_ERROR_CLEARED = 2,
    POWERLINK_EVENT_OCCURRED = 3
};

/* ---- Where values stand */

/* The values of a frame. Flags are 0 or 1, states and services their codes; those not named are 0. */
enum {
    POWERLINK_MESSAGE_TYPE = 0,
    POWERLINK_DESTINATION = 1,
    POWERLINK_SOURCE = 2,
    POWERLINK_PAYLOAD_START = 3, /* counted from the frame's first octet; 0 and 0 for SoC and SoA */
    POWERLINK_PAYLOAD_LEN = 4,

    POWERLINK_SOC_MC = 5,
    POWERLINK_SOC_PS = 6,
    POWERLINK_SOC_SECONDS = 7,
    POWERLINK_SOC_NANOSECONDS = 8,
    POWERLINK_SOC_RELATIVE_TIME = 9,

    POWERLINK_PREQ_MS = 5,
    POWERLINK_PREQ_EA = 6,
    POWERLINK_PREQ_RD = 7,
    POWERLINK_PREQ_PDO_VERSION = 8,
    POWERLINK_PREQ_PAYLOAD_SIZE = 9,

    POWERLINK_PRES_MS = 5,
    POWERLINK_PRES_EN = 6,
    POWERLINK_PRES_RD = 7,
    POWERLINK_PRES_PDO_VERSION = 8,
    POWERLINK_PRES_PAYLOAD_SIZE = 9,
    POWERLINK_PRES_STATE = 10,
    POWERLINK_PRES_PR = 11,
    POWERLINK_PRES_RS = 12,

    POWERLINK_SOA_EA = 5,
    POWERLINK_SOA_ER = 6,
    POWERLINK_SOA_REQUESTED_SERVICE = 7,
    POWERLINK_SOA_TARGET = 8,
    POWERLINK_SOA_EPL_VERSION = 9,
    POWERLINK_SOA_STATE = 10,

    POWERLINK_ASND_SERVICE = 5
};

/* The values of what every section begins with. */
enum {
    POWERLINK_PL_MESSAGE_TYPE = 0,
    POWERLINK_PL_DESTINATION = 1,
    POWERLINK_PL_SOURCE = 2
};

/* The values of a StatusResponse's front. */
enum {
    POWERLINK_STATUS_EN = 0,
    POWERLINK_STATUS_EC = 1,
    POWERLINK_STATUS_PR = 2,
    POWERLINK_STATUS_RS = 3,
    POWERLINK_STATUS_STATE = 4
};

/* The values of an entry. */
enum {
    POWERLINK_ENTRY_STATUS_ENTRY = 0,
    POWERLINK_ENTRY_SEND_TO_QUEUE = 1,
    POWERLINK_ENTRY_MODE = 2,
    POWERLINK_ENTRY_PROFILE = 3,
    POWERLINK_ENTRY_CODE = 4,
    POWERLINK_ENTRY_SECONDS = 5,
    POWERLINK_ENTRY_NANOSECONDS = 6,
    POWERLINK_ENTRY_INFORMATION = 7
};

/* ---- Outcomes */

/* Of powerlink_reporter_read. */
enum {
    POWERLINK_IGNORED = 0, /* no EA for this node */
    POWERLINK_KEPT = 1,    /* EA was read, and closes nothing */
    POWERLINK_CLOSED = 2   /* the open batch is acknowledged */
};

/* Of powerlink_collector_read. */
enum {
    POWERLINK_KNOWN = 0, /* EN equals EA: taken for a batch that was booked before, or none was sent */
    POWERLINK_BOOKED = 1 /* the batch is in the book, without its status entries, or has no others; EA is changed */
};

/* ---- Tables of services
 *
 * A table says which services of an ASnd are known: whoever reads or writes one takes it. It is octets that the caller
 * lends, one for each ID: any but 0 means that the table holds the service. StatusResponse, 2, is held whatever its octet
 * says, so that any octets are a table, and the error exchange runs under each of them; one that was never loaded, all
 * zeros, holds nothing else. Calls need not take the same table. Threads may share one as long as none loads it meanwhile.
 * The requested service of an SoA (7) has nothing to do with it. */

/* Loads a table from the octets of a file: `PLS`, the 16-bit version 1 with its low octet first, then the IDs that it is
 * to hold, an octet each, strictly ascending and with 2 among them. No ID is too small or too large: a line's end behind
 * them is one too. The octets of `services` become 1 for each of them and 0 else.
 * Tests: 20, 21, 22. Refused: nothing is written. */
uint8_t powerlink_services_load(
    const uint8_t *POWERLINK_RESTRICT file, size_t file_len,
    uint8_t services[POWERLINK_ARRAY(POWERLINK_SERVICES_LEN)]);

/* Tells whether a table holds the service `id`.
 * Refuses nothing: the answer is always 0. */
uint8_t powerlink_services_contains(
    const uint8_t services[POWERLINK_ARRAY(POWERLINK_SERVICES_LEN)], uint8_t id, bool *POWERLINK_RESTRICT held);

/* ---- Reading */

/* Reads a frame, from its Ethernet header on. A payload lies in `buffer`, at values[POWERLINK_PAYLOAD_START], and has
 * values[POWERLINK_PAYLOAD_LEN] octets; that of an ASnd whose section has exactly 46 octets has lost the zeros at its
 * end, so that the payload of a StatusResponse is better taken from octet 18 to the frame's end.
 * Tests: 1 (14 octets), 2, 3 (an empty section), 4, then those of the kind. SoC: 1 (22 octets of section). PReq: 1
 * (10), 1 (the payload). PRes: 1 (10), 3, 5, 1 (the payload). SoA: 1 (9), 5, 7. ASnd: 1 (4), 6 (by `services`).
 * Refused: nothing is written, but `octet` with 4 to 7. */
uint8_t powerlink_deserialize_frame(
    const uint8_t services[POWERLINK_ARRAY(POWERLINK_SERVICES_LEN)],
    const uint8_t *POWERLINK_RESTRICT buffer, size_t buffer_len,
    uint64_t values[POWERLINK_ARRAY(POWERLINK_FRAME_VALUES)], uint8_t *POWERLINK_RESTRICT octet);

/* Reads the 14 octets of an Ethernet header, whatever its EtherType, into the two addresses and `ether_type`.
 * Tests: 1. Refused: nothing is written. */
uint8_t powerlink_deserialize_eth_header(
    const uint8_t *POWERLINK_RESTRICT buffer, size_t buffer_len,
    uint8_t destination[POWERLINK_ARRAY(POWERLINK_MAC_LEN)], uint8_t source[POWERLINK_ARRAY(POWERLINK_MAC_LEN)],
    uint16_t *POWERLINK_RESTRICT ether_type);

/* Reads the 3 octets that every section begins with. The highest bit of the message type is left aside.
 * Tests: 1, 4. Refused: nothing is written, but `octet` with 4. */
uint8_t powerlink_deserialize_pl_header(
    const uint8_t *POWERLINK_RESTRICT buffer, size_t buffer_len,
    uint64_t values[POWERLINK_ARRAY(POWERLINK_PL_VALUES)], uint8_t *POWERLINK_RESTRICT octet);

/* Reads the 14 octets in front of the entries of a StatusResponse's payload: five values, and the 8 octets of the error
 * field.
 * Tests: 1, 5. Refused: nothing is written, but `octet` with 5. */
uint8_t powerlink_deserialize_status(
    const uint8_t *POWERLINK_RESTRICT payload, size_t payload_len,
    uint64_t values[POWERLINK_ARRAY(POWERLINK_STATUS_VALUES)], uint8_t field[POWERLINK_ARRAY(POWERLINK_FIELD_LEN)],
    uint8_t *POWERLINK_RESTRICT octet);

/* Reads the 8 octets of an error field.
 * Tests: 1. Refused: nothing is written. */
uint8_t powerlink_deserialize_error_field(
    const uint8_t *POWERLINK_RESTRICT buffer, size_t buffer_len,
    uint8_t field[POWERLINK_ARRAY(POWERLINK_FIELD_LEN)]);

/* Reads the 20 octets of an entry, a terminator (mode 0) too.
 * Tests: 1. Refused: nothing is written. */
uint8_t powerlink_deserialize_entry(
    const uint8_t *POWERLINK_RESTRICT buffer, size_t buffer_len,
    uint64_t values[POWERLINK_ARRAY(POWERLINK_ENTRY_VALUES)]);

/* Finds the entry of a StatusResponse's payload at `offset`, the first being at 14, and each other where `next` was told:
 * at any other offset the octets are taken for an entry all the same. Where there is one, `values`
 * receives it and `next` the offset after it. At the end of the list, which is a terminator or under 20 octets,
 * `values` stays as it was and `next` becomes 0. Refuses nothing: the answer is always 0. */
uint8_t powerlink_entry_step(
    const uint8_t *POWERLINK_RESTRICT payload, size_t payload_len, size_t offset,
    uint64_t values[POWERLINK_ARRAY(POWERLINK_ENTRY_VALUES)], size_t *POWERLINK_RESTRICT next);

/* ---- Writing
 *
 * `written` receives how many octets were written; those of the target behind them stay. `pr` counts modulo 8, and `rs`
 * above 7 is 7. Cause 1 is tested before codes: with the length that is needed where every code names something. */

/* ---- Writing sections: frames without their Ethernet header
 *
 * A section of under 46 octets is filled up with zeros. A frame with any Ethernet header is its section behind that
 * header. The section goes first, since it alone can be refused once there are 14 octets:
 *
 *     if (target_len < POWERLINK_ETH_LEN)
 *         return POWERLINK_TOO_SHORT;
 *     cause = powerlink_serialize_soc(.., target + POWERLINK_ETH_LEN, target_len - POWERLINK_ETH_LEN, &written);
 *     if (cause == POWERLINK_DONE)
 *         powerlink_serialize_eth_header(destination, source, ether_type, target, POWERLINK_ETH_LEN, &header);
 *
 * The frame then has header + written octets. */

/* Writes the section of a SoC: 46 octets.
 * Tests: 1. Refused: nothing is written. */
uint8_t powerlink_serialize_soc(
    uint8_t destination, uint8_t source, bool mc, bool ps,
    uint32_t seconds, uint32_t nanoseconds, uint64_t relative_time,
    uint8_t *POWERLINK_RESTRICT target, size_t target_len, size_t *POWERLINK_RESTRICT written);

/* Writes the section of a PReq: 10 octets and the payload, but at least 46. The payload size is written as given, equal
 * to the payload's length or not. From the managing node, `ea` is that of powerlink_collector_flags at the moment of
 * sending: any other may lose entries.
 * Tests: 1. Refused: nothing is written. */
uint8_t powerlink_serialize_preq(
    uint8_t destination, uint8_t source, bool ms, bool ea, bool rd,
    uint8_t pdo_version, uint16_t payload_size,
    const uint8_t *POWERLINK_RESTRICT payload, size_t payload_len,
    uint8_t *POWERLINK_RESTRICT target, size_t target_len, size_t *POWERLINK_RESTRICT written);

/* Writes the section of a PRes: 10 octets and the payload, but at least 46. Destination and payload size are written as
 * given.
 * Tests: 1, 5. Refused: nothing is written, but `octet` with 5. */
uint8_t powerlink_serialize_pres(
    uint8_t destination, uint8_t source, uint8_t state, bool ms, bool en, bool rd,
    uint8_t pr, uint8_t rs, uint8_t pdo_version, uint16_t payload_size,
    const uint8_t *POWERLINK_RESTRICT payload, size_t payload_len,
    uint8_t *POWERLINK_RESTRICT target, size_t target_len, size_t *POWERLINK_RESTRICT written,
    uint8_t *POWERLINK_RESTRICT octet);

/* Writes the section of an SoA: 46 octets. From the managing node, `ea` and `er` are those of powerlink_collector_flags for
 * the target, at the moment of sending: any other may lose entries.
 * Tests: 1, 5, 7. Refused: nothing is written, but `octet` with 5 and 7. */
uint8_t powerlink_serialize_soa(
    uint8_t destination, uint8_t source, uint8_t state, bool ea, bool er,
    uint8_t requested_service, uint8_t target_node, uint8_t epl_version,
    uint8_t *POWERLINK_RESTRICT target, size_t target_len, size_t *POWERLINK_RESTRICT written,
    uint8_t *POWERLINK_RESTRICT octet);

/* Writes the section of an ASnd: 4 octets and the payload, but at least 46. `services` has to hold the service: 6.
 * Tests: 1, 6. Refused: nothing is written, but `octet` with 6. */
uint8_t powerlink_serialize_asnd(
    const uint8_t services[POWERLINK_ARRAY(POWERLINK_SERVICES_LEN)],
    uint8_t destination, uint8_t source, uint8_t service,
    const uint8_t *POWERLINK_RESTRICT payload, size_t payload_len,
    uint8_t *POWERLINK_RESTRICT target, size_t target_len, size_t *POWERLINK_RESTRICT written,
    uint8_t *POWERLINK_RESTRICT octet);

/* ---- Writing parts */

/* Writes the 14 octets of an Ethernet header.
 * Tests: 1. Refused: nothing is written. */
uint8_t powerlink_serialize_eth_header(
    const uint8_t destination[POWERLINK_ARRAY(POWERLINK_MAC_LEN)],
    const uint8_t source[POWERLINK_ARRAY(POWERLINK_MAC_LEN)], uint16_t ether_type,
    uint8_t *POWERLINK_RESTRICT target, size_t target_len, size_t *POWERLINK_RESTRICT written);

/* Writes the 3 octets that every section begins with.
 * Tests: 1, 4. Refused: nothing is written, but `octet` with 4. */
uint8_t powerlink_serialize_pl_header(
    uint8_t message_type, uint8_t destination, uint8_t source,
    uint8_t *POWERLINK_RESTRICT target, size_t target_len, size_t *POWERLINK_RESTRICT written,
    uint8_t *POWERLINK_RESTRICT octet);

/* Writes the 20 octets of an entry, a terminator's too. 12 bits of the profile are written. A mode above 3 is no entry's: 8.
 * Tests: 1, 8. Refused: nothing is written. */
uint8_t powerlink_serialize_entry(
    bool status_entry, bool send_to_queue, uint8_t mode, uint16_t profile, uint16_t code,
    uint32_t seconds, uint32_t nanoseconds, uint64_t information,
    uint8_t *POWERLINK_RESTRICT target, size_t target_len, size_t *POWERLINK_RESTRICT written);

/* Writes the 8 octets of an error field.
 * Tests: 1. Refused: nothing is written. */
uint8_t powerlink_serialize_error_field(
    const uint8_t field[POWERLINK_ARRAY(POWERLINK_FIELD_LEN)],
    uint8_t *POWERLINK_RESTRICT target, size_t target_len, size_t *POWERLINK_RESTRICT written);

/* Writes the payload of a StatusResponse: 14 octets, the entries, and the 20 zeros that end the list. `entries` are the
 * octets of the entries, 20 each, as powerlink_serialize_entry writes them; a rest of 1 to 19 octets is an entry that is
 * too short: 1. An entry of mode 0 among them is written too, and who reads stops there: those behind it are not found.
 * Not for a node that has a reporter: an EN that its Answer did not write makes its next batch known, and lost.
 * Tests: 1, 5. Refused: nothing is written, but `octet` with 5. */
uint8_t powerlink_serialize_status(
    bool en, bool ec, uint8_t pr, uint8_t rs, uint8_t state,
    const uint8_t field[POWERLINK_ARRAY(POWERLINK_FIELD_LEN)],
    const uint8_t *POWERLINK_RESTRICT entries, size_t entries_len,
    uint8_t *POWERLINK_RESTRICT target, size_t target_len, size_t *POWERLINK_RESTRICT written,
    uint8_t *POWERLINK_RESTRICT octet);

/* ---- Writing whole frames
 *
 * With the Ethernet header in front, at least 60 octets. Where no destination address is taken, it is the kind's
 * multicast address. The payload size of PReq and PRes is the payload's length modulo 65,536. */

/* Writes a SoC, 60 octets: from node 240 to node 255 and POWERLINK_MULTICAST_SOC.
 * Tests: 1. Refused: nothing is written. */
uint8_t powerlink_new_soc(
    const uint8_t source_mac[POWERLINK_ARRAY(POWERLINK_MAC_LEN)], bool mc, bool ps,
    uint32_t seconds, uint32_t nanoseconds, uint64_t relative_time,
    uint8_t *POWERLINK_RESTRICT target, size_t target_len, size_t *POWERLINK_RESTRICT written);

/* Writes a PReq, 24 octets and the payload, but at least 60: from node 240 to `target_node`. `ea` is that of
 * powerlink_collector_flags at the moment of sending, or 0 where the node is not registered: any other may lose
 * entries.
 * Tests: 1. Refused: nothing is written. */
uint8_t powerlink_new_preq(
    const uint8_t source_mac[POWERLINK_ARRAY(POWERLINK_MAC_LEN)],
    const uint8_t dest_mac[POWERLINK_ARRAY(POWERLINK_MAC_LEN)],
    uint8_t target_node, bool ms, bool ea, bool rd, uint8_t pdo_version,
    const uint8_t *POWERLINK_RESTRICT payload, size_t payload_len,
    uint8_t *POWERLINK_RESTRICT target, size_t target_len, size_t *POWERLINK_RESTRICT written);

/* Writes a PRes, 24 octets and the payload, but at least 60: from `source` to node 255 and POWERLINK_MULTICAST_PRES.
 * `en` is that of powerlink_reporter_en.
 * Tests: 1, 5. Refused: nothing is written, but `octet` with 5. */
uint8_t powerlink_new_pres(
    const uint8_t source_mac[POWERLINK_ARRAY(POWERLINK_MAC_LEN)], uint8_t source, uint8_t state,
    bool ms, bool en, bool rd, uint8_t pr, uint8_t rs, uint8_t pdo_version,
    const uint8_t *POWERLINK_RESTRICT payload, size_t payload_len,
    uint8_t *POWERLINK_RESTRICT target, size_t target_len, size_t *POWERLINK_RESTRICT written,
    uint8_t *POWERLINK_RESTRICT octet);

/* Writes an SoA, 60 octets: from node 240 to node 255 and POWERLINK_MULTICAST_SOA; `target_node` is who may send.
 * `ea` and `er` are those of powerlink_collector_flags for it at the moment of sending, or 0 where it is not registered,
 * whatever service is requested: any other may lose entries.
 * Tests: 1, 5, 7. Refused: nothing is written, but `octet` with 5 and 7. */
uint8_t powerlink_new_soa(
    const uint8_t source_mac[POWERLINK_ARRAY(POWERLINK_MAC_LEN)], uint8_t state, bool ea, bool er,
    uint8_t requested_service, uint8_t target_node, uint8_t epl_version,
    uint8_t *POWERLINK_RESTRICT target, size_t target_len, size_t *POWERLINK_RESTRICT written,
    uint8_t *POWERLINK_RESTRICT octet);

/* Writes an ASnd, 18 octets and the payload, but at least 60: from `source` to `target_node`. `services` has to hold the
 * service: 6. Not for a StatusResponse of a node that has a reporter: that one is powerlink_reporter_answer's.
 * Tests: 1, 6. Refused: nothing is written, but `octet` with 6. */
uint8_t powerlink_new_asnd(
    const uint8_t services[POWERLINK_ARRAY(POWERLINK_SERVICES_LEN)],
    const uint8_t source_mac[POWERLINK_ARRAY(POWERLINK_MAC_LEN)],
    const uint8_t dest_mac[POWERLINK_ARRAY(POWERLINK_MAC_LEN)],
    uint8_t target_node, uint8_t source, uint8_t service,
    const uint8_t *POWERLINK_RESTRICT payload, size_t payload_len,
    uint8_t *POWERLINK_RESTRICT target, size_t target_len, size_t *POWERLINK_RESTRICT written,
    uint8_t *POWERLINK_RESTRICT octet);

/* ---- The error exchange: what it asks of a host
 *
 * Proved is that no entry is lost and none booked twice, of reporters and a collector that start fresh together and
 * each go on from their own last state, over a line that loses, delays and repeats frames but keeps their order: no
 * frame, late or repeated, arrives after a later frame of the same sender. A batch is told from its repeat by one bit
 * alone: EN of the reporter flips with each batch, EA of the collector is the EN of the last batch that it has booked.
 * A wrong EA closes a batch that is not booked, a wrong EN makes one known that never was, an old state has both, and
 * a frame that was overtaken is a wrong one; every call then still answers with 0. So:
 *
 * EN, EA, ER and EC are the exception flags of DS 301: new (entries were reported), acknowledge, reset and clear. A
 * batch is what one EN reports: it is open until the EA that equals its EN closes it, and known where EN equals EA.
 *
 * Refused frames. A frame that is refused changes nothing, and is dropped: on a real line frames of other protocols (2), of
 * services that the table does not hold (6), of kinds that the box does not want (10) and of heads that are not
 * registered (11) arrive all the time.
 *
 * Tables. Reading and answering take a table of services, any one, each end its own and each call another if need be: what
 * is booked and acknowledged does not depend on it.
 *
 * Status entries. An entry with bit 15 set and mode 1 to 3 shows what is wrong now; nodes of another supplier send it in
 * every answer. The collector does not book it: an answer may arrive with status entries put at any places among its
 * entries, by whom ever, and the same is booked and acknowledged as of the answer that was sent. Mode 0 ends the entries,
 * with bit 15 too. A reporter does not take one: 23; a fault that is to be listed is raised with bit 15 clear. Who shows
 * status entries walks every answer, known ones too, with powerlink_entry_step, over the octets from 18 on. Answers that
 * carry them are longer than POWERLINK_ANSWER_MAX:
 *
 * Whole frames. What is read is the whole frame, as long as it was received, up to the 1,514 octets of Ethernet. Of a
 * StatusResponse that was cut behind its first entries these are booked, and the others are lost: nothing in it tells how
 * long it was.
 *
 * Order. Frames of one sender arrive in the order of sending. Queues with priorities, in a switch or in the host, do
 * not change it.
 *
 * Asking. EN flips when powerlink_reporter_answer opens a batch, and not when an entry is raised: EN of a PRes does not
 * tell that entries wait. So every node is sent a request again and again. A host that asks only where EN of a PRes
 * differs from EA never asks, and the node's queue fills (9).
 *
 * Frames of the managing node. Every PReq to a node and every SoA with it as target tells it EA, whatever the frame is
 * for. They all carry what powerlink_collector_flags gives at the moment of sending, and leave in the order in which
 * they asked: a frame built ahead, as in a transmit buffer filled a cycle early, loses entries. Until the node is
 * registered, EA and ER are 0, which loses nothing.
 *
 * Frames of a controlled node. Its StatusResponses come from powerlink_reporter_answer alone, and none from
 * powerlink_serialize_status and powerlink_new_asnd. EN of its PRes is what powerlink_reporter_en gives.
 *
 * Threads. All calls are reentrant, and separate states may be used from separate threads at the same time. One state
 * needs a lock: only calls that take it as const may run on it together. The lock is held until the frame that was
 * asked for is in its place in the order of sending, from a reading to its saving, and from Take to the saving of
 * state and journal. A cyclic task that may not wait for it sends all frames to the nodes itself, and takes EA and ER
 * from a copy of what powerlink_collector_flags gave as each one leaves (a request is then powerlink_new_soa with
 * POWERLINK_STATUS_REQUEST); the task that reads answers renews the copy after every reading, once the state is saved
 * and before the next answer is read.
 *
 * Beginning anew. Both ends begin together, with nothing left on the line or in a buffer of what either sent before: an
 * old answer or request would be taken for a new one. One that begins alone loses faults, or lists them twice:
 *  - a new reporter after one batch, or any odd number, was booked: EA is 1. Its first batch has EN 1 and is known,
 *    and the next request closes it: lost. After an even number it is booked.
 *  - a new collector while the reporter's second batch is open, whose EN is 0: EA is 0, the batch is known and closed:
 *    lost.
 *  - a new collector while the first batch is open that the old one has booked and handed out: booked again, listed
 *    twice.
 *
 * Saving. A state is saved after every call that has changed it and before any later frame leaves; a reporter's before
 * the answer itself leaves. Making, registering, raising and taking change it, a reading that comes to POWERLINK_CLOSED
 * or POWERLINK_BOOKED, and an answer that opens a batch, after which EN is another; nothing else does. A power cut
 * leaves the old state or the new one, whole: a file is written anew, flushed, renamed, and its folder flushed. Any
 * octets are a state, so that no call notices a damaged file: the host keeps a checksum. A cycle that reads, answers,
 * then saves, then sends does this. A fault is accepted once the state after its Raise is saved. Otherwise:
 *  - a collector saved before a reading whose request went out: the reporter has closed that batch, so it is lost; the
 *    next one has the EN that the old EA equals, is known, and lost too.
 *  - a reporter saved before an answer that was booked: what is raised since joins the batch under the EN that is
 *    booked; it is known and closed, and what has joined is lost.
 * A saved state is of one POWERLINK_VERSION alone, unless it is said there.
 *
 * Take and the journal. The state saved after the journal lists an entry twice if the power goes between them; the
 * state saved before it loses one. So the length of the journal is saved with the state, in one file: Take, append,
 * flush the journal, save both. After a restart the journal is cut to the saved length, and what is cut off, Take
 * hands out again. Where others read the journal as it grows, it is cut to powerlink_journal_whole_len instead, and
 * Take is only called on a saved state: each record behind the saved length is then what the next Take for its ID
 * hands out, and is taken, compared and not appended again; from one that differs on, which the file system may have
 * filled with zeros, the journal is cut. (To compare the last record without a length is not enough: of two equal
 * entries one would be lost.)
 *
 * tests/c/host_loop.c is a host of one task that does this, without the checksum and with no other reader of its
 * journal; host_frames.c and restarts.c beside it show what each mistake costs. */

/* ---- A controlled node that reports errors */

/* Makes a fresh state for node `id`.
 * Tests: 13. Refused: nothing is written. */
uint8_t powerlink_reporter_new(uint8_t state[POWERLINK_ARRAY(POWERLINK_REPORTER_LEN)], uint8_t id);

/* An entry joins the waiting ones, last. With `status_entry`, bit 15, it is refused (23), since the collector would not book
 * it: a fault that is to be listed is raised without. A mode above 3 is 8, as mode 0 is, whatever `status_entry` is.
 * Tests: 8, 23, 9. Refused: nothing is written. */
uint8_t powerlink_reporter_raise(
    uint8_t state[POWERLINK_ARRAY(POWERLINK_REPORTER_LEN)],
    bool status_entry, bool send_to_queue, uint8_t mode, uint16_t profile, uint16_t code,
    uint32_t seconds, uint32_t nanoseconds, uint64_t information);

/* Writes a StatusResponse, a whole frame from this node to all (255), with the open batch. Where none is open and
 * entries wait, the first four, or all if fewer, become it. 60 octets without entries, else 52 and 20 for each.
 * `dest_mac` is POWERLINK_MULTICAST_ASND, or what the host has for it. The state is saved before the answer leaves.
 * An ASnd is written, and so a table is taken; since every table holds StatusResponse, the result is the same for all of
 * them, and never 6.
 * Tests: 1, 5. Refused: nothing is written and no batch opened, but `octet` with 5. */
uint8_t powerlink_reporter_answer(
    uint8_t state[POWERLINK_ARRAY(POWERLINK_REPORTER_LEN)],
    const uint8_t services[POWERLINK_ARRAY(POWERLINK_SERVICES_LEN)],
    const uint8_t source_mac[POWERLINK_ARRAY(POWERLINK_MAC_LEN)],
    const uint8_t dest_mac[POWERLINK_ARRAY(POWERLINK_MAC_LEN)],
    bool ec, uint8_t pr, uint8_t rs, uint8_t nmt_state, const uint8_t field[POWERLINK_ARRAY(POWERLINK_FIELD_LEN)],
    uint8_t *POWERLINK_RESTRICT target, size_t target_len, size_t *POWERLINK_RESTRICT written,
    uint8_t *POWERLINK_RESTRICT octet);

/* Reads a frame: from the managing node, a PReq to this node or an SoA with it as target may acknowledge the open
 * batch. `outcome`: POWERLINK_IGNORED, _KEPT or _CLOSED.
 * Tests: those of powerlink_deserialize_frame. Refused: nothing is written, but `octet` with 4 to 7. */
uint8_t powerlink_reporter_read(
    uint8_t state[POWERLINK_ARRAY(POWERLINK_REPORTER_LEN)],
    const uint8_t services[POWERLINK_ARRAY(POWERLINK_SERVICES_LEN)],
    const uint8_t *POWERLINK_RESTRICT buffer, size_t buffer_len,
    uint8_t *POWERLINK_RESTRICT outcome, uint8_t *POWERLINK_RESTRICT octet);

/* Tells EN, which a PRes of this node carries too. It does not tell that entries wait.
 * Refuses nothing: the answer is always 0. */
uint8_t powerlink_reporter_en(
    const uint8_t state[POWERLINK_ARRAY(POWERLINK_REPORTER_LEN)], bool *POWERLINK_RESTRICT en);

/* ---- A managing node that collects errors */

/* Makes a fresh state, which is all zeros: no node is registered, and what is registered later stays so.
 * Refuses nothing: the answer is always 0. */
uint8_t powerlink_collector_new(uint8_t state[POWERLINK_ARRAY(POWERLINK_COLLECTOR_LEN)]);

/* Gives node `id` one of four places, with EA 0 and an empty book.
 * Tests: 13, 14, 15. Refused: nothing is written. */
uint8_t powerlink_collector_register(uint8_t state[POWERLINK_ARRAY(POWERLINK_COLLECTOR_LEN)], uint8_t id);

/* Reads a frame: the batch of a registered node's StatusResponse goes into its book of 64 entries, unless EN says that it
 * was booked before. Booked are the entries with bit 15 clear, all of them and in their order; status entries, those with
 * bit 15 set, are left out wherever they stand, and need no place. An entry of mode 0 ends the batch, whatever its bit 15
 * is. Where EN is new and there is no entry, or status entries alone, nothing goes into the book, EA becomes EN, and the
 * outcome is booked. The frame's destination is not tested.
 * `outcome`: POWERLINK_KNOWN or _BOOKED; where booked, the state is saved before the next frame leaves.
 * Tests: those of powerlink_deserialize_frame, 10, 11, 1 and 5 of the StatusResponse; then it is known, whatever its entries
 * are; then 12, where it has more entries with bit 15 clear than places are free: the node sends it again, and
 * powerlink_collector_take makes room. There is never room for more than 64; a reporter's batch has at most four.
 * Refused: nothing is written, but `octet` with 4 to 7. */
uint8_t powerlink_collector_read(
    uint8_t state[POWERLINK_ARRAY(POWERLINK_COLLECTOR_LEN)],
    const uint8_t services[POWERLINK_ARRAY(POWERLINK_SERVICES_LEN)],
    const uint8_t *POWERLINK_RESTRICT buffer, size_t buffer_len,
    uint8_t *POWERLINK_RESTRICT outcome, uint8_t *POWERLINK_RESTRICT octet);

/* Tells what every frame of the managing node to node `id` has to carry: EA in a PReq to it, EA and ER in an SoA with it
 * as target. Any other EA may close a batch that is not booked, which is then lost. Until the node is registered (11),
 * its host sends EA 0 and ER 0, which loses nothing. ER is 0 in this version.
 * Tests: 11. Refused: nothing is written. */
uint8_t powerlink_collector_flags(
    const uint8_t state[POWERLINK_ARRAY(POWERLINK_COLLECTOR_LEN)], uint8_t id,
    bool *POWERLINK_RESTRICT ea, bool *POWERLINK_RESTRICT er);

/* Writes the SoA, 60 octets, that asks node `id` for its StatusResponse and acknowledges what is booked. `nmt_state` is
 * that of the managing node.
 * Tests: 11, 1, 5. Refused: nothing is written, but `octet` with 5. */
uint8_t powerlink_collector_request(
    const uint8_t state[POWERLINK_ARRAY(POWERLINK_COLLECTOR_LEN)], uint8_t id,
    const uint8_t source_mac[POWERLINK_ARRAY(POWERLINK_MAC_LEN)], uint8_t nmt_state, uint8_t epl_version,
    uint8_t *POWERLINK_RESTRICT target, size_t target_len, size_t *POWERLINK_RESTRICT written,
    uint8_t *POWERLINK_RESTRICT octet);

/* Hands out the oldest entry of a node's book, whose place is used again.
 * Tests: 11, 16. Refused: nothing is written. */
uint8_t powerlink_collector_take(
    uint8_t state[POWERLINK_ARRAY(POWERLINK_COLLECTOR_LEN)], uint8_t id,
    uint64_t values[POWERLINK_ARRAY(POWERLINK_ENTRY_VALUES)]);

/* ---- The journal, which the program `journal` lists */

/* Writes a record: `id` and the 20 octets of the entry, of whose profile the low 12 bits are written. Any entry is taken, a
 * status entry too, and listed as a fault is: bit 15 has no column. The journal begins with POWERLINK_JOURNAL_START,
 * which the caller writes.
 * Tests: 1, 19. Refused: nothing is written. */
uint8_t powerlink_journal_record(
    uint8_t id, bool status_entry, bool send_to_queue, uint8_t mode, uint16_t profile, uint16_t code,
    uint32_t seconds, uint32_t nanoseconds, uint64_t information,
    uint8_t *POWERLINK_RESTRICT target, size_t target_len, size_t *POWERLINK_RESTRICT written);

/* Tells how many of the `len` octets of a journal are its start and whole records. `version` is the number in its octets
 * 3 and 4, low octet first, and not POWERLINK_VERSION. What a power cut left of a record may stand behind them: cut the
 * file to `whole` octets before anything is appended. Records behind a torn one are read from a wrong place, and list
 * faults that nobody raised. The mark, octets 0 to 2, is the caller's to compare with POWERLINK_JOURNAL_START: a file
 * that is refused, or has another mark, may be somebody else's. Under 5 octets, for which `version` may be any number, a
 * file that is empty or begins as POWERLINK_JOURNAL_START does is one that was begun, and is begun anew.
 * Tests: 17, 18. Refused: nothing is written. */
uint8_t powerlink_journal_whole_len(uint16_t version, size_t len, size_t *POWERLINK_RESTRICT whole);

#ifdef __cplusplus
}
#endif

#endif
