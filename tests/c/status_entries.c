/* Status entries, those with bit 15 set: a head does not take them, and the box leaves them out of its book. Answers with
 * status entries at all places among their own are held to the answers as they were sent, and readings of random payloads to
 * a box in plain C. The exit status is 1 if anything is not as document 02, CR 2, has it. */
#include "pair.h"

enum {
    FRONT = 18,              /* the octets in front of a StatusResponse's payload */
    ENTRIES = FRONT + 14,    /* where its entries begin */
    PLACES = 64,             /* of a book */
    HEADS = 4,
    MOST = 90,               /* entries of a frame here */
    LONG = ENTRIES + (MOST + 2) * POWERLINK_ENTRY_LEN,
    STATUS = 0x80            /* bit 15 of a type, in its second octet */
};

static const uint8_t ids[HEADS] = {1, HEAD, 100, POWERLINK_MAX_CN_NODE};

/* A frame that may be longer than those of ours. */
struct any_frame {
    uint8_t octets[LONG];
    size_t len;
};

static unsigned long checks;

/* ---- Numbers that look random, the same in every run */

static uint64_t seed = 2;

static unsigned below(unsigned bound)
{
    seed = seed * UINT64_C(6364136223846793005) + UINT64_C(1442695040888963407);
    return (unsigned)(seed >> 33) % bound;
}

/* The octets of an entry with this bit 15 and mode; all else is any. */
static void put_entry(uint8_t *octets, bool status, unsigned mode)
{
    unsigned i;

    for (i = 0; i < POWERLINK_ENTRY_LEN; i++)
        octets[i] = (uint8_t)below(256);
    octets[1] = (uint8_t)((octets[1] & 0x4F) | mode << 4 | (status ? STATUS : 0));
}

/* ---- Raising: 8, then 23, then 9 */

static uint8_t raise_cause(bool status, unsigned mode, unsigned profile, unsigned waiting)
{
    if (mode == 0 || mode > 3 || profile > 4095)
        return POWERLINK_ENTRY_INVALID;
    if (status)
        return POWERLINK_IS_STATUS_ENTRY;
    return waiting == 16 ? POWERLINK_QUEUE_FULL : POWERLINK_DONE;
}

/* Raises with these flags and all else, on a head in which `waiting` entries wait. */
static void raises(uint8_t flags, uint8_t mode, uint16_t profile, unsigned waiting)
{
    uint8_t before[POWERLINK_REPORTER_LEN], cause = raise_cause(flags & 1, mode, profile, waiting);

    memcpy(before, head, sizeof head);
    want("raising", powerlink_reporter_raise(head, flags & 1, flags & 2, mode, profile, 1, 2, 3, 4), cause);
    want("the head changes", memcmp(head, before, sizeof head) != 0, cause == POWERLINK_DONE);
    memcpy(head, before, sizeof head);
    checks++;
}

static void raising(void)
{
    static const uint16_t profiles[] = {0, 4095, 4096, UINT16_MAX};
    unsigned open, waiting, mode, flags, i;

    for (open = 0; open <= 4; open += 2) {
        new_head();
        for (i = 0; i < open; i++)
            raise_entry((uint16_t)i);
        answer();
        for (waiting = 0; waiting <= 16; waiting++) {
            for (mode = 0; mode <= UINT8_MAX; mode++)
                for (flags = 0; flags < 4; flags++)
                    for (i = 0; i < sizeof profiles / sizeof *profiles; i++)
                        raises((uint8_t)flags, (uint8_t)mode, profiles[i], waiting);
            if (waiting < 16)
                raise_entry((uint16_t)waiting);
        }
    }
    printf("raising a status entry: 8, then 23, then 9, and the head stays (%lu raises)\n", checks);
}

/* ---- Answers as they were sent, and with status entries among their entries */

/* A StatusResponse from node `id`, with EN, as plain octets; its entries are put behind it. */
static struct any_frame response(uint8_t id, bool en)
{
    static const uint8_t front[] = {0x88, 0xAB, 6, ALL};
    struct any_frame f;

    memset(f.octets, 0, sizeof f.octets);
    memcpy(f.octets + 12, front, sizeof front);
    f.octets[16] = id;
    f.octets[17] = POWERLINK_STATUS_RESPONSE;
    f.octets[FRONT] = en ? 0x20 : 0;
    f.octets[FRONT + 2] = POWERLINK_OPERATIONAL;
    f.len = ENTRIES;
    return f;
}

static void reads(uint8_t state[POWERLINK_COLLECTOR_LEN], const struct any_frame *f, uint8_t *cause, uint8_t *outcome)
{
    uint8_t octet = 0xEE;

    *outcome = 0xEE;
    *cause = powerlink_collector_read(state, services, f->octets, f->len, outcome, &octet);
}

/* The box has EA, and of the head's book `free` places are left; where the oldest entry lies in it is any. */
static void box_of(unsigned free, bool ea)
{
    uint64_t v[POWERLINK_ENTRY_VALUES];
    unsigned taken = below(PLACES - free + 1), i;
    uint8_t cause, outcome;
    struct any_frame f = response(HEAD, true);

    want("a new box", powerlink_collector_new(box), POWERLINK_DONE);
    for (i = 0; i < HEADS; i++)
        want("registering", powerlink_collector_register(box, ids[i]), POWERLINK_DONE);
    /* `taken` entries are booked and taken; then all that stay are booked. */
    for (i = 0; i < taken; i++, f.len += POWERLINK_ENTRY_LEN)
        put_entry(f.octets + f.len, false, 1 + below(3));
    reads(box, &f, &cause, &outcome);
    want("booking", cause, POWERLINK_DONE);
    for (i = 0; i < taken; i++)
        want("Take", powerlink_collector_take(box, HEAD, v), POWERLINK_DONE);
    f = response(HEAD, false);
    for (i = 0; i < PLACES - free; i++, f.len += POWERLINK_ENTRY_LEN)
        put_entry(f.octets + f.len, false, 1 + below(3));
    reads(box, &f, &cause, &outcome);
    want("booking", cause, POWERLINK_DONE);
    if (ea) {
        f = response(HEAD, true);
        reads(box, &f, &cause, &outcome);
        want("booking", cause, POWERLINK_DONE);
    }
}

/* The answer of a head with this many entries and this EN: EN is 1 with its first batch. */
static struct frame answer_of(unsigned entries, bool en)
{
    struct frame f;
    unsigned i;
    bool told;

    new_pair();
    if (en != (entries > 0)) {
        raise_entry(0);
        exchange();
    }
    for (i = 1; i <= entries; i++)
        raise_entry((uint16_t)i);
    f = answer();
    want("en", powerlink_reporter_en(head, &told), POWERLINK_DONE);
    want("the head's EN", told, en);
    return f;
}

/* The answer with counts[i] status entries in front of its entry i, and counts[entries] behind them. */
static struct any_frame with_status(const struct frame *sent, unsigned entries, const unsigned counts[])
{
    struct any_frame f;
    size_t at = ENTRIES;
    unsigned i, n;

    memcpy(f.octets, sent->octets, ENTRIES);
    for (i = 0; i <= entries; i++) {
        for (n = 0; n < counts[i]; n++, at += POWERLINK_ENTRY_LEN)
            put_entry(f.octets + at, true, 1 + below(3));
        if (i < entries) {
            memcpy(f.octets + at, sent->octets + ENTRIES + i * POWERLINK_ENTRY_LEN, POWERLINK_ENTRY_LEN);
            at += POWERLINK_ENTRY_LEN;
        }
    }
    n = ENTRIES + entries * POWERLINK_ENTRY_LEN;
    memcpy(f.octets + at, sent->octets + n, sent->len - n);
    f.len = at + sent->len - n;
    return f;
}

/* How often each came about: known, booked, refused with 12. */
static unsigned long known, booked, full;

static void count(uint8_t cause, uint8_t outcome)
{
    if (cause == POWERLINK_BOOK_FULL)
        full++;
    else if (outcome == POWERLINK_BOOKED)
        booked++;
    else
        known++;
}

/* The box reads the answer as it was sent, and one that was the same reads the other: cause, outcome and each octet of the
 * state are the same, and what they have to be. */
static void read_alike(const struct frame *sent, const struct any_frame *put, unsigned entries, unsigned free, bool is_new)
{
    static uint8_t one[POWERLINK_COLLECTOR_LEN], other[POWERLINK_COLLECTOR_LEN];
    uint8_t cause = 0xEE, outcome = 0xEE, octet = 0xEE, put_cause, put_outcome;
    bool fits = entries <= free;

    memcpy(one, box, sizeof box);
    memcpy(other, box, sizeof box);
    cause = powerlink_collector_read(one, services, sent->octets, sent->len, &outcome, &octet);
    reads(other, put, &put_cause, &put_outcome);
    want("the cause", put_cause, cause);
    want("the outcome", put_outcome, outcome);
    want_octets("the box", other, one, sizeof one);
    want("the cause as sent", cause, !is_new || fits ? POWERLINK_DONE : POWERLINK_BOOK_FULL);
    want("the outcome as sent", outcome, !is_new ? POWERLINK_KNOWN : fits ? POWERLINK_BOOKED : 0xEE);
    want("the box changes", memcmp(other, box, sizeof box) != 0, is_new && fits);
    count(cause, outcome);
    checks++;
}

/* Under each EA, with each number of free places. */
static void read_by_all_boxes(unsigned entries, unsigned most)
{
    unsigned counts[5], places, i, left, free, ea, en;
    struct frame sent[2];
    struct any_frame put;

    for (en = 0; en < 2; en++)
        sent[en] = answer_of(entries, en);
    for (ea = 0; ea < 2; ea++) {
        for (free = 0; free <= PLACES; free++) {
            box_of(free, ea);
            /* All counts that come to `most` at most. */
            for (places = 1, i = 0; i <= entries; i++)
                places *= most + 1;
            while (places-- > 0) {
                for (left = places, i = 0; i <= entries; i++, left /= most + 1)
                    counts[i] = left % (most + 1);
                for (left = 0, i = 0; i <= entries; i++)
                    left += counts[i];
                for (en = 0; en < 2 && left <= most; en++) {
                    put = with_status(&sent[en], entries, counts);
                    want("status entries are put in", put.len, sent[en].len + left * POWERLINK_ENTRY_LEN);
                    read_alike(&sent[en], &put, entries, free, ea != en);
                }
            }
        }
    }
}

/* As many as are sent in a long frame, at any places. */
static void read_at_random(void)
{
    unsigned counts[5], entries = below(5), free = below(PLACES + 1), i, left = MOST - 4;
    bool en = below(2), ea = below(2);
    struct frame sent = answer_of(entries, en);
    struct any_frame put;

    for (i = 0; i <= entries; i++) {
        counts[i] = below(below(2) ? 4 : left + 1);
        left -= counts[i] < left ? counts[i] : left;
    }
    for (left = 0, i = 0; i <= entries; i++)
        left += counts[i];
    if (left > MOST - 4)
        return;
    box_of(free, ea);
    put = with_status(&sent, entries, counts);
    read_alike(&sent, &put, entries, free, ea != en);
}

static void answers(void)
{
    unsigned entries, i;

    checks = 0;
    for (entries = 0; entries <= 4; entries++)
        read_by_all_boxes(entries, 3);
    /* 125 ways to put up to three among up to four, under two EN, by 130 boxes. */
    want("all places", checks, 125 * 2 * 130);
    for (i = 0; i < 4000; i++)
        read_at_random();
    want("known, booked and refused", known > 10000 && booked > 10000 && full > 500, true);
    printf("answers with status entries at any places: the box as without them (%lu readings: %lu known, %lu booked, "
           "%lu refused with 12)\n",
        checks, known, booked, full);
}

/* ---- A box in plain C, written from the papers: for each head EA and a list of entries, as their octets */

static struct {
    bool ea;
    unsigned count;
    uint8_t entries[PLACES][POWERLINK_ENTRY_LEN];
} model[HEADS];

static uint64_t number(const uint8_t *octets, unsigned len)
{
    return len == 0 ? 0 : octets[0] | number(octets + 1, len - 1) << 8;
}

/* What reading a StatusResponse of head `k` answers; its entries join the list. */
static uint8_t model_reads(unsigned k, const uint8_t *payload, size_t len, uint8_t *outcome)
{
    static const uint8_t states[] = {0x00, 0x19, 0x29, 0x39, 0x79, 0x1C, 0x1D, 0x5D, 0x6D, 0xFD, 0x4D, 0x1E};
    const uint8_t *found[MOST + 2];
    unsigned n = 0, i;
    size_t at;
    bool en;

    if (len < 14)
        return POWERLINK_TOO_SHORT;
    if (memchr(states, payload[2], sizeof states) == NULL)
        return POWERLINK_UNKNOWN_STATE;
    en = payload[0] >> 5 & 1;
    if (en == model[k].ea) {
        *outcome = POWERLINK_KNOWN;
        return POWERLINK_DONE;
    }
    for (at = 14; at + 20 <= len; at += 20) {
        uint64_t type = number(payload + at, 2);
        if ((type >> 12 & 3) == 0)
            break;
        if (type >> 15 == 0)
            found[n++] = payload + at;
    }
    if (n > PLACES - model[k].count)
        return POWERLINK_BOOK_FULL;
    for (i = 0; i < n; i++)
        memcpy(model[k].entries[model[k].count++], found[i], 20);
    model[k].ea = en;
    *outcome = POWERLINK_BOOKED;
    return POWERLINK_DONE;
}

/* The entry that was taken is the one with these octets. */
static void is_entry(const uint64_t v[POWERLINK_ENTRY_VALUES], const uint8_t *octets)
{
    uint64_t type = number(octets, 2);

    want("status entry", v[POWERLINK_ENTRY_STATUS_ENTRY], type >> 15);
    want("send to queue", v[POWERLINK_ENTRY_SEND_TO_QUEUE], type >> 14 & 1);
    want("mode", v[POWERLINK_ENTRY_MODE], type >> 12 & 3);
    want("profile", v[POWERLINK_ENTRY_PROFILE], type & 0xFFF);
    want("code", v[POWERLINK_ENTRY_CODE], number(octets + 2, 2));
    want("seconds", v[POWERLINK_ENTRY_SECONDS], number(octets + 4, 4));
    want("nanoseconds", v[POWERLINK_ENTRY_NANOSECONDS], number(octets + 8, 4));
    want("information", v[POWERLINK_ENTRY_INFORMATION], number(octets + 12, 8));
}

/* EA and book of each head are those of the model. */
static void box_is_the_model(void)
{
    static uint8_t taking[POWERLINK_COLLECTOR_LEN];
    uint64_t v[POWERLINK_ENTRY_VALUES];
    unsigned k, i;
    bool ea, er;

    memcpy(taking, box, sizeof box);
    for (k = 0; k < HEADS; k++) {
        want("flags", powerlink_collector_flags(box, ids[k], &ea, &er), POWERLINK_DONE);
        want("EA", ea, model[k].ea);
        for (i = 0; i < model[k].count; i++) {
            want("Take", powerlink_collector_take(taking, ids[k], v), POWERLINK_DONE);
            is_entry(v, model[k].entries[i]);
        }
        want("a Take too many", powerlink_collector_take(taking, ids[k], v), POWERLINK_NOTHING_BOOKED);
    }
}

/* A StatusResponse of head `k`: of any length, with entries of both sorts and of any mode, mostly not 0. */
static struct any_frame random_response(unsigned k)
{
    struct any_frame f = response(ids[k], below(4) ? !model[k].ea : model[k].ea);
    unsigned most = below(2) ? 6 : MOST, n = below(most + 1), ends = 2 + below(400), all = below(4);

    f.octets[FRONT] |= (uint8_t)(below(256) & 0xDF);
    for (; n > 0; n--, f.len += POWERLINK_ENTRY_LEN)
        put_entry(f.octets + f.len, all == 0 || below(2), below(ends) == 0 ? 0 : 1 + below(3));
    /* A terminator or none, and a piece of one. */
    f.len += below(2 * POWERLINK_ENTRY_LEN);
    if (below(20) == 0)
        f.octets[FRONT + 2] = (uint8_t)below(256);
    if (below(20) == 0)
        f.len = FRONT + below(15);
    return f;
}

static void reads_as_the_model(void)
{
    uint8_t before[POWERLINK_COLLECTOR_LEN], cause, outcome, model_outcome = 0xEE, model_cause;
    unsigned k = below(HEADS);
    struct any_frame f = random_response(k);

    memcpy(before, box, sizeof box);
    reads(box, &f, &cause, &outcome);
    model_cause = model_reads(k, f.octets + FRONT, f.len - FRONT, &model_outcome);
    want("the cause", cause, model_cause);
    want("the outcome", outcome, model_outcome);
    want("the box changes", memcmp(box, before, sizeof box) != 0, outcome == POWERLINK_BOOKED);
    if (cause == POWERLINK_DONE || cause == POWERLINK_BOOK_FULL)
        count(cause, outcome);
    checks++;
}

static void takes_as_the_model(unsigned k)
{
    uint64_t v[POWERLINK_ENTRY_VALUES];

    if (model[k].count == 0) {
        want("Take", powerlink_collector_take(box, ids[k], v), POWERLINK_NOTHING_BOOKED);
        return;
    }
    want("Take", powerlink_collector_take(box, ids[k], v), POWERLINK_DONE);
    is_entry(v, model[k].entries[0]);
    memmove(model[k].entries[0], model[k].entries[1], sizeof model[k].entries - sizeof model[k].entries[0]);
    model[k].count--;
}

static void beside_the_model(void)
{
    unsigned i, n;

    checks = known = booked = full = 0;
    want("a new box", powerlink_collector_new(box), POWERLINK_DONE);
    for (i = 0; i < HEADS; i++)
        want("registering", powerlink_collector_register(box, ids[i]), POWERLINK_DONE);
    for (i = 0; i < 20000; i++) {
        reads_as_the_model();
        for (n = below(below(20) ? 3 : PLACES); n > 0; n--)
            takes_as_the_model(below(HEADS));
        box_is_the_model();
    }
    want("known, booked and refused", known > 2000 && booked > 5000 && full > 1000, true);
    printf("random payloads: as a box in plain C (%lu readings: %lu known, %lu booked, %lu refused with 12)\n", checks, known,
        booked, full);
}

/* ---- Lines of their own */

/* The box reads a StatusResponse of the head, which has to end so. */
static void ends(const char *what, const struct any_frame *f, uint8_t cause, uint8_t outcome)
{
    uint8_t is, came_to;

    reads(box, f, &is, &came_to);
    want(what, is, cause);
    want(what, came_to, outcome);
}

/* Its entries: as many as fill a book and one more; of these `clear` have bit 15 clear, the last ones. */
static struct any_frame one_too_many(bool en, unsigned clear)
{
    struct any_frame f = response(HEAD, en);
    unsigned i;

    for (i = 0; i <= PLACES; i++, f.len += POWERLINK_ENTRY_LEN)
        put_entry(f.octets + f.len, i + clear <= PLACES, 1 + i % 3);
    return f;
}

static void lines(void)
{
    uint8_t before[POWERLINK_COLLECTOR_LEN], after[POWERLINK_COLLECTOR_LEN];
    struct any_frame f = response(HEAD, true);

    /* The book is full. A new EN and no entries: EA is all that changes; with 65 status entries it is the same. */
    box_of(0, false);
    memcpy(before, box, sizeof box);
    ends("no entries", &f, POWERLINK_DONE, POWERLINK_BOOKED);
    memcpy(after, box, sizeof box);
    memcpy(box, before, sizeof box);
    f = one_too_many(true, 0);
    ends("65 status entries", &f, POWERLINK_DONE, POWERLINK_BOOKED);
    want_octets("the box", box, after, sizeof box);
    /* Known, whatever the entries are. */
    f = one_too_many(true, 0);
    ends("known, status entries", &f, POWERLINK_DONE, POWERLINK_KNOWN);
    f = one_too_many(true, PLACES + 1);
    ends("known, other entries", &f, POWERLINK_DONE, POWERLINK_KNOWN);
    /* A single one with bit 15 clear: 12, but not where a status entry of mode 0 in front of it has ended the list. */
    f = one_too_many(false, 1);
    ends("one entry", &f, POWERLINK_BOOK_FULL, 0xEE);
    want_octets("the box", box, after, sizeof box);
    f.octets[ENTRIES + 1] = STATUS | 0x4F;
    ends("behind a status entry of mode 0", &f, POWERLINK_DONE, POWERLINK_BOOKED);
    want_octets("the box", box, before, sizeof box);
    /* Exact fits: 64 with all places free, and one more. */
    box_of(PLACES, false);
    f = one_too_many(true, PLACES + 1);
    ends("65 entries", &f, POWERLINK_BOOK_FULL, 0xEE);
    f = one_too_many(true, PLACES);
    ends("64 entries and a status entry", &f, POWERLINK_DONE, POWERLINK_BOOKED);
    printf("65 status entries find a full book; known stays known; a status entry of mode 0 ends the list\n");
}

int main(void)
{
    raising();
    answers();
    beside_the_model();
    lines();
    return 0;
}
