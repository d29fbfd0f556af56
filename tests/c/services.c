/* Tables of services: what is loaded and what is refused, that readers and writers of an ASnd go by the table, and an
 * exchange under that of a house. The exit status is 1 if anything is not as document 02, CR 1, has it. */
#include "pair.h"

enum { START = 5, FILE_LEN = START + POWERLINK_SERVICES_LEN + 1 };

static const uint8_t twelve[] = {POWERLINK_IDENT_RESPONSE, POWERLINK_STATUS_RESPONSE, POWERLINK_NMT_REQUEST,
    POWERLINK_NMT_COMMAND, POWERLINK_SDO, POWERLINK_NMT_PUBLISH_TIME, POWERLINK_NMT_PUBLISH_NMT_STATE,
    POWERLINK_NMT_PUBLISH_NODE_STATE, POWERLINK_NMT_PUBLISH_NODE_LIST, POWERLINK_NMT_PUBLISH_EMERG_NEW,
    POWERLINK_NMT_PUBLISH_HEARTBEAT, POWERLINK_NMT_PUBLISH_ACTIVE_NODES};

/* A house's: of the twelve it has StatusResponse alone. */
static const uint8_t house[] = {0, POWERLINK_STATUS_RESPONSE, 6, 0x13, 0xA0, 0xFF};

/* ---- Loading */

/* Mark and version, and IDs behind them. */
static uint8_t file[FILE_LEN] = {'P', 'L', 'S', 1, 0};

static size_t file_with(const uint8_t *ids, size_t count)
{
    memcpy(file + START, ids, count);
    return START + count;
}

/* Loads into a table of other octets, which a refusal leaves. */
static void loads(const char *what, size_t len, uint8_t cause)
{
    uint8_t table[POWERLINK_SERVICES_LEN], before[POWERLINK_SERVICES_LEN];

    memset(table, 0x55, sizeof table);
    memcpy(before, table, sizeof table);
    want(what, powerlink_services_load(file, len, table), cause);
    if (cause != POWERLINK_DONE)
        want_octets("a refused table", table, before, sizeof table);
}

/* With the octet at `place` changed to any other: 20, whatever the IDs are. */
static void another_octet(size_t place, size_t len)
{
    uint8_t right = file[place];
    unsigned octet;

    for (octet = 0; octet <= UINT8_MAX; octet++) {
        file[place] = (uint8_t)octet;
        if (octet != right)
            loads("another mark or version", len, POWERLINK_NOT_A_TABLE);
    }
    file[place] = right;
}

static void no_table(void)
{
    static const uint8_t descending[] = {3, 1};
    size_t len, place;

    file_with(house, sizeof house);
    for (len = 0; len < START; len++)
        loads("under 5 octets", len, POWERLINK_NOT_A_TABLE);
    for (place = 0; place < START; place++) {
        another_octet(place, file_with(house, sizeof house));
        another_octet(place, file_with(descending, sizeof descending));
        another_octet(place, START);
    }
}

/* What loading two IDs answers: 21, equal neighbours too, then 22. */
static uint8_t cause_of(unsigned a, unsigned b)
{
    if (b <= a)
        return POWERLINK_NOT_ASCENDING;
    return a == 2 || b == 2 ? POWERLINK_DONE : POWERLINK_WITHOUT_STATUS_RESPONSE;
}

static void ids(void)
{
    uint8_t all[POWERLINK_SERVICES_LEN + 1];
    unsigned a, b;

    loads("no ID", START, POWERLINK_WITHOUT_STATUS_RESPONSE);
    for (a = 0; a <= UINT8_MAX; a++) {
        file[START] = (uint8_t)a;
        loads("one ID", START + 1, a == 2 ? POWERLINK_DONE : POWERLINK_WITHOUT_STATUS_RESPONSE);
        for (b = 0; b <= UINT8_MAX; b++) {
            file[START + 1] = (uint8_t)b;
            loads("two IDs", START + 2, cause_of(a, b));
        }
        all[a] = (uint8_t)a;
    }
    all[POWERLINK_SERVICES_LEN] = UINT8_MAX;
    loads("all IDs", file_with(all, POWERLINK_SERVICES_LEN), POWERLINK_DONE);
    loads("a 257th ID", file_with(all, sizeof all), POWERLINK_NOT_ASCENDING);
    /* Equal neighbours at each place: as the last two, and with more behind them. */
    for (a = 0; a < UINT8_MAX; a++) {
        all[a + 1] = all[a];
        loads("an ID twice", file_with(all, a + 2), POWERLINK_NOT_ASCENDING);
        loads("an ID twice", file_with(all, POWERLINK_SERVICES_LEN), POWERLINK_NOT_ASCENDING);
        all[a + 1] = (uint8_t)(a + 1);
    }
}

/* ---- Tables */

static bool is_in(const uint8_t *list, size_t count, unsigned id)
{
    return memchr(list, (int)id, count) != NULL;
}

/* A table of these IDs holds them and no other; whatever was there before is gone. */
static void table_of(const uint8_t *list, size_t count, uint8_t table[POWERLINK_SERVICES_LEN])
{
    unsigned id;
    bool held;

    memset(table, 0x55, POWERLINK_SERVICES_LEN);
    want("loading", powerlink_services_load(file, file_with(list, count), table), POWERLINK_DONE);
    for (id = 0; id <= UINT8_MAX; id++) {
        want("contains", powerlink_services_contains(table, (uint8_t)id, &held), POWERLINK_DONE);
        want("held", held, is_in(list, count, id));
        want("the octet of an ID", table[id], is_in(list, count, id));
    }
}

static void tables(void)
{
    static const uint8_t two[] = {POWERLINK_STATUS_RESPONSE};
    uint8_t table[POWERLINK_SERVICES_LEN];
    bool held;

    table_of(two, sizeof two, table);
    table_of(house, sizeof house, table);
    table_of(twelve, sizeof twelve, table);
    want_octets("POWERLINK_DS301_SERVICES", services, table, sizeof table);
    /* Any octets are a table, and 2 is held whatever its octet says. */
    memset(table, 0, sizeof table);
    table[5] = 0x80;
    want("contains", powerlink_services_contains(table, POWERLINK_STATUS_RESPONSE, &held), POWERLINK_DONE);
    want("2 is held", held, true);
    want("contains", powerlink_services_contains(table, 5, &held), POWERLINK_DONE);
    want("5 is held", held, true);
    want("contains", powerlink_services_contains(table, 1, &held), POWERLINK_DONE);
    want("1 is held", held, false);
}

/* ---- Readers and writers, under the table `services` */

/* Writes a whole ASnd or its section, into a target of `len` octets. */
static uint8_t writes(bool whole, uint8_t id, uint8_t *target, size_t len, size_t *written, uint8_t *octet)
{
    if (whole)
        return powerlink_new_asnd(
            services, head_mac, box_mac, MN, HEAD, id, field, sizeof field, target, len, written, octet);
    return powerlink_serialize_asnd(services, MN, HEAD, id, field, sizeof field, target, len, written, octet);
}

/* 1, then 6, which gives the octet; neither writes. */
static void written_by_the_table(bool whole, uint8_t id, bool held)
{
    size_t needed = whole ? 60 : 46, written = 0xEE;
    uint8_t target[61], before[sizeof target], octet = 0x55;

    memset(target, 0x55, sizeof target);
    memcpy(before, target, sizeof target);
    want("a short target", writes(whole, id, target, needed - 1, &written, &octet), POWERLINK_TOO_SHORT);
    want("the octet", octet, 0x55);
    want_octets("a refused target", target, before, sizeof target);
    want("writing", writes(whole, id, target, sizeof target, &written, &octet),
        held ? POWERLINK_DONE : POWERLINK_UNKNOWN_SERVICE);
    want("the octet", octet, held ? 0x55 : id);
    want("the length", written, held ? needed : 0xEE);
    if (held)
        want("the service", target[whole ? 17 : 3], id);
    else
        want_octets("a refused target", target, before, sizeof target);
    want_octets("behind the end", target + needed, before, sizeof target - needed);
}

/* An ASnd from the head with this service. Head and box have it refused with 6, or do not want it. */
static void read_by_the_table(uint8_t id, bool held)
{
    struct frame f = answer();
    uint64_t v[POWERLINK_FRAME_VALUES];
    uint8_t octet = 0x55, outcome = 0xEE, cause = held ? POWERLINK_DONE : POWERLINK_UNKNOWN_SERVICE;

    v[POWERLINK_ASND_SERVICE] = 0x55;
    f.octets[17] = id;
    want("reading", powerlink_deserialize_frame(services, f.octets, f.len, v, &octet), cause);
    want("the octet", octet, held ? 0x55 : id);
    want("the service", v[POWERLINK_ASND_SERVICE], held ? id : 0x55);
    want("a short section", powerlink_deserialize_frame(services, f.octets, 17, v, &octet), POWERLINK_TOO_SHORT);
    want("the head's reading", powerlink_reporter_read(head, services, f.octets, f.len, &outcome, &octet), cause);
    want("the head's outcome", outcome, held ? POWERLINK_IGNORED : 0xEE);
    if (id == POWERLINK_STATUS_RESPONSE)
        return;
    octet = 0x55;
    want("the box's reading", powerlink_collector_read(box, services, f.octets, f.len, &outcome, &octet),
        held ? POWERLINK_NOT_STATUS_RESPONSE : POWERLINK_UNKNOWN_SERVICE);
    want("the octet", octet, held ? 0x55 : id);
}

/* Under the table of these IDs, which stays that of head and box. */
static void go_by(const uint8_t *list, size_t count)
{
    uint8_t head_before[POWERLINK_REPORTER_LEN], box_before[POWERLINK_COLLECTOR_LEN];
    unsigned id;

    table_of(list, count, services);
    new_pair();
    memcpy(head_before, head, sizeof head);
    memcpy(box_before, box, sizeof box);
    for (id = 0; id <= UINT8_MAX; id++) {
        written_by_the_table(true, (uint8_t)id, is_in(list, count, id));
        written_by_the_table(false, (uint8_t)id, is_in(list, count, id));
        read_by_the_table((uint8_t)id, is_in(list, count, id));
    }
    want_octets("the head", head, head_before, sizeof head);
    want_octets("the box", box, box_before, sizeof box);
}

/* ---- The exchange */

/* Six entries, the answer repeated; then the head has another table than the box, and it is the same. */
static void books_as_before(void)
{
    uint16_t code;
    struct frame f;

    new_pair();
    for (code = 1; code <= 6; code++)
        raise_entry(code);
    f = answer();
    box_reads(f, POWERLINK_BOOKED);
    box_reads(f, POWERLINK_KNOWN);
    head_reads(request(), POWERLINK_CLOSED);
    table_of(twelve, sizeof twelve, services);
    f = answer();
    table_of(house, sizeof house, services);
    box_reads(f, POWERLINK_BOOKED);
    head_reads(request(), POWERLINK_CLOSED);
    for (code = 1; code <= 6; code++)
        take(code);
    nothing_booked();
}

/* Every table holds StatusResponse: one of zeros, too. */
static void answers_under_any_table(void)
{
    struct frame one, other;

    new_head();
    raise_entry(1);
    one = answer();
    memset(services, 0, sizeof services);
    other = answer();
    want("the answer's length", other.len, one.len);
    want_octets("the answer", other.octets, one.octets, one.len);
}

int main(void)
{
    tables();
    no_table();
    ids();
    printf("tables: 20, 21, 22, and a refusal leaves the table\n");
    go_by(twelve, sizeof twelve);
    go_by(house, sizeof house);
    printf("readers and writers of an ASnd go by the table: 1, then 6\n");
    books_as_before();
    answers_under_any_table();
    printf("an exchange under a house's table books as before\n");
    return 0;
}
