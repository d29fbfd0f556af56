/* A host's loop, of a managing node (the box) and of a controlled node (a head), on a line that loses frames and repeats
 * them, with power cuts at any write and any sending. In the end the journal has each fault that was accepted, once:
 *
 *     host_loop FOLDER
 *
 * Each end does the same in every cycle: it reads what has come, saves what has changed, and only then sends. The box also
 * takes what is booked and appends it to the journal before it saves, and saves the journal's length with its state. Both
 * load the house's table of services when they start. */
#define _POSIX_C_SOURCE 200809L
#include "powerlink.h"
#include "want.h"
#include <fcntl.h>
#include <setjmp.h>
#include <unistd.h>

enum { HEAD = 7, CYCLES = 80, LINE_LEN = 16, JOURNAL_VERSION = 1, PRINTED = 0xA0 };

static const uint8_t head_mac[POWERLINK_MAC_LEN] = {0x02, 0, 0, 0, 0, HEAD};
static const uint8_t box_mac[POWERLINK_MAC_LEN] = {0x02, 0, 0, 0, 0, POWERLINK_MN_NODE};

/* ---- The world: chance, power and the line */

static uint32_t below(uint32_t bound)
{
    static uint32_t number = 1;
    number = number * 1664525u + 1013904223u;
    return (number >> 16) % bound;
}

/* The power goes when the fuse has burnt down; 0 is no fuse. */
static jmp_buf power_cut;
static unsigned fuse;

static void burn(void)
{
    if (fuse > 0 && --fuse == 0)
        longjmp(power_cut, 1);
}

/* The heads here are ours. Another supplier's answers are longer, and are received into 1,514 octets. */
struct frame {
    uint8_t octets[POWERLINK_ANSWER_MAX];
    size_t len;
};

static struct line {
    struct frame frames[LINE_LEN];
    size_t count;
} to_box, to_head;

static bool good_line;

/* A frame arrives, or does not, or twice. */
static void send_frame(struct line *line, const struct frame *f)
{
    uint32_t times = good_line ? 1 : below(3);
    burn();
    for (; times > 0 && line->count < LINE_LEN; times--)
        line->frames[line->count++] = *f;
}

static bool receive_frame(struct line *line, struct frame *f)
{
    if (line->count == 0)
        return false;
    *f = line->frames[0];
    line->count--;
    memmove(line->frames, line->frames + 1, line->count * sizeof *f);
    return true;
}

/* ---- Files */

static void put(int file, const void *octets, size_t len)
{
    burn();
    want("writing", (uint64_t)write(file, octets, len), len);
}

/* Writes a file anew and renames it: a power cut leaves the old one or the new one, whole. */
static void save(const char *name, const void *octets, size_t len)
{
    int folder, file;
    burn();
    folder = open(".", O_RDONLY);
    file = open("new", O_WRONLY | O_CREAT | O_TRUNC, 0666);
    want("writing", (uint64_t)write(file, octets, len), len);
    want("flushing", fsync(file) == 0 && close(file) == 0, true);
    want("renaming", rename("new", name) == 0, true);
    want("flushing", fsync(folder) == 0 && close(folder) == 0, true);
}

static bool load(const char *name, void *octets, size_t len)
{
    int file = open(name, O_RDONLY);
    if (file < 0)
        return false;
    want("reading", (uint64_t)read(file, octets, len), len);
    close(file);
    return true;
}

/* ---- The table of services */

/* That of the house: PRINTED, which is none of the twelve of DS 301, and of these only the one of the error exchange. */
static const uint8_t house[] = {'P', 'L', 'S', 1, 0, POWERLINK_STATUS_RESPONSE, PRINTED};

/* A host that starts loads its table, and does not go on where the file is refused. */
static void load_services(uint8_t services[POWERLINK_SERVICES_LEN])
{
    uint8_t octets[5 + POWERLINK_SERVICES_LEN + 1]; /* the longest table, and one octet that no table has */
    int file = open("services", O_RDONLY);
    ssize_t len = read(file, octets, sizeof octets);
    want("reading", len >= 0 && close(file) == 0, true);
    want("a table of services", powerlink_services_load(octets, (size_t)len, services), POWERLINK_DONE);
}

/* ---- The box */

static uint8_t box_services[POWERLINK_SERVICES_LEN];

/* What it saves, in one file. */
static struct {
    uint8_t state[POWERLINK_COLLECTOR_LEN];
    uint64_t journal_len;
} box;

static int journal = -1;
static bool changed;

static const uint8_t journal_start[POWERLINK_JOURNAL_START_LEN] = POWERLINK_JOURNAL_START;

/* A new box goes on with the journal that is there, without a record that a power cut has torn. A file that does not begin
 * as a journal of this version does is somebody else's, and is left as it is. The start is flushed before the state that
 * says how long the journal is. */
static void new_box(void)
{
    uint8_t found[POWERLINK_JOURNAL_START_LEN];
    ssize_t there = pread(journal, found, sizeof found, 0);
    size_t whole;
    want("a journal of this version", there >= 0 && memcmp(found, journal_start, (size_t)there) == 0, true);
    if (powerlink_journal_whole_len(JOURNAL_VERSION, lseek(journal, 0, SEEK_END), &whole) != POWERLINK_DONE) {
        want("cutting", ftruncate(journal, 0) == 0, true);
        put(journal, journal_start, sizeof journal_start);
        whole = sizeof journal_start;
    }
    want("flushing", fsync(journal) == 0, true);
    box.journal_len = whole;
    want("a new box", powerlink_collector_new(box.state), POWERLINK_DONE);
    want("registering", powerlink_collector_register(box.state, HEAD), POWERLINK_DONE);
    save("box", &box, sizeof box);
}

/* For the first time, or after a power cut: records behind the saved length were taken from a state that is not saved. They
 * are cut off, since they will be taken again. */
static void box_starts(void)
{
    if (journal >= 0)
        close(journal);
    journal = open("journal", O_RDWR | O_CREAT | O_APPEND, 0666);
    load_services(box_services);
    if (!load("box", &box, sizeof box))
        new_box();
    want("cutting", ftruncate(journal, (off_t)box.journal_len) == 0, true);
    changed = false;
}

static void box_reads(const struct frame *f)
{
    uint8_t outcome = POWERLINK_KNOWN, octet;
    uint8_t cause = powerlink_collector_read(box.state, box_services, f->octets, f->len, &outcome, &octet);
    /* A PRes is no StatusResponse, and neither is an ASnd of the house; what the book has no place for, the head sends
     * again. On this line nothing else arrives, and no service that the table does not hold: it would be a mistake. On a
     * real one it is dropped. */
    if (cause != POWERLINK_NOT_STATUS_RESPONSE && cause != POWERLINK_BOOK_FULL)
        want("the box's reading", cause, POWERLINK_DONE);
    changed = changed || outcome == POWERLINK_BOOKED;
}

static void box_lists(void)
{
    uint64_t v[POWERLINK_ENTRY_VALUES];
    uint8_t record[POWERLINK_RECORD_LEN];
    size_t written;
    while (powerlink_collector_take(box.state, HEAD, v) == POWERLINK_DONE) {
        want("a record",
            powerlink_journal_record(HEAD, v[POWERLINK_ENTRY_STATUS_ENTRY], v[POWERLINK_ENTRY_SEND_TO_QUEUE],
                v[POWERLINK_ENTRY_MODE], v[POWERLINK_ENTRY_PROFILE], v[POWERLINK_ENTRY_CODE], v[POWERLINK_ENTRY_SECONDS],
                v[POWERLINK_ENTRY_NANOSECONDS], v[POWERLINK_ENTRY_INFORMATION], record, sizeof record, &written),
            POWERLINK_DONE);
        put(journal, record, written);
        box.journal_len += written;
        changed = true;
    }
}

/* The journal is flushed before the state that says how long it is. */
static void box_saves(void)
{
    if (!changed)
        return;
    want("flushing", fsync(journal) == 0, true);
    save("box", &box, sizeof box);
    changed = false;
}

/* EA is asked for when the frame is sent. Every frame to a head carries it, whatever else it is for. */
static void box_sends(uint64_t cycle)
{
    static const uint8_t outputs[] = {0xAA};
    struct frame f;
    bool ea, er;
    uint8_t octet;
    want("SoC", powerlink_new_soc(box_mac, false, false, 0, 0, cycle, f.octets, sizeof f.octets, &f.len), POWERLINK_DONE);
    send_frame(&to_head, &f);
    want("flags", powerlink_collector_flags(box.state, HEAD, &ea, &er), POWERLINK_DONE);
    want("PReq",
        powerlink_new_preq(
            box_mac, head_mac, HEAD, false, ea, true, 0, outputs, sizeof outputs, f.octets, sizeof f.octets, &f.len),
        POWERLINK_DONE);
    send_frame(&to_head, &f);
    want("SoA",
        powerlink_collector_request(
            box.state, HEAD, box_mac, POWERLINK_OPERATIONAL, 0x20, f.octets, sizeof f.octets, &f.len, &octet),
        POWERLINK_DONE);
    send_frame(&to_head, &f);
}

static void box_cycle(uint64_t cycle)
{
    struct frame f;
    while (receive_frame(&to_box, &f))
        box_reads(&f);
    box_lists();
    box_saves();
    box_sends(cycle);
}

/* ---- The head */

static uint8_t head_services[POWERLINK_SERVICES_LEN];

/* What it saves, in one file: how many faults it has raised must not get ahead of its state, nor fall behind. */
static struct {
    uint8_t state[POWERLINK_REPORTER_LEN];
    uint64_t raised;
} head;

static void head_starts(void)
{
    load_services(head_services);
    if (load("head", &head, sizeof head))
        return;
    want("a new head", powerlink_reporter_new(head.state, HEAD), POWERLINK_DONE);
    head.raised = 0;
    save("head", &head, sizeof head);
}

/* A fault is accepted once it is saved. Where too many wait, it is not raised yet. */
static void head_raises(void)
{
    uint16_t code = (uint16_t)(head.raised + 1);
    uint8_t cause = powerlink_reporter_raise(head.state, false, true, POWERLINK_ERROR_ACTIVE, 2, code, 0, 0, 0);
    if (cause == POWERLINK_QUEUE_FULL)
        return;
    want("Raise", cause, POWERLINK_DONE);
    head.raised++;
    save("head", &head, sizeof head);
}

static void head_is_polled(void)
{
    static const uint8_t inputs[] = {0xBB};
    struct frame f;
    uint8_t octet;
    bool en;
    want("EN", powerlink_reporter_en(head.state, &en), POWERLINK_DONE);
    want("PRes",
        powerlink_new_pres(head_mac, HEAD, POWERLINK_OPERATIONAL, false, en, true, 0, 0, 0, inputs, sizeof inputs, f.octets,
            sizeof f.octets, &f.len, &octet),
        POWERLINK_DONE);
    send_frame(&to_box, &f);
}

/* What the house has beside the exchange: an ASnd with a service of its own. */
static void head_counts(void)
{
    static const uint8_t printed[] = {1, 2, 3};
    struct frame f;
    uint8_t octet;
    want("an ASnd of the house",
        powerlink_new_asnd(head_services, head_mac, box_mac, POWERLINK_MN_NODE, HEAD, PRINTED, printed, sizeof printed,
            f.octets, sizeof f.octets, &f.len, &octet),
        POWERLINK_DONE);
    send_frame(&to_box, &f);
}

/* Answer may open a batch: that is saved before the box can book it. */
static void head_answers(void)
{
    static const uint8_t dest_mac[POWERLINK_MAC_LEN] = POWERLINK_MULTICAST_ASND;
    static const uint8_t field[POWERLINK_FIELD_LEN];
    struct frame f;
    uint8_t octet;
    want("Answer",
        powerlink_reporter_answer(head.state, head_services, head_mac, dest_mac, false, 0, 0, POWERLINK_OPERATIONAL, field,
            f.octets, sizeof f.octets, &f.len, &octet),
        POWERLINK_DONE);
    save("head", &head, sizeof head);
    send_frame(&to_box, &f);
}

static void head_reads(const struct frame *f)
{
    uint64_t v[POWERLINK_FRAME_VALUES];
    uint8_t outcome, octet;
    want("the head's reading", powerlink_reporter_read(head.state, head_services, f->octets, f->len, &outcome, &octet),
        POWERLINK_DONE);
    if (outcome == POWERLINK_CLOSED)
        save("head", &head, sizeof head);
    want("reading", powerlink_deserialize_frame(head_services, f->octets, f->len, v, &octet), POWERLINK_DONE);
    if (v[POWERLINK_MESSAGE_TYPE] == POWERLINK_PREQ && v[POWERLINK_DESTINATION] == HEAD)
        head_is_polled();
    if (v[POWERLINK_MESSAGE_TYPE] == POWERLINK_SOA && v[POWERLINK_SOA_TARGET] == HEAD &&
        v[POWERLINK_SOA_REQUESTED_SERVICE] == POWERLINK_STATUS_REQUEST)
        head_answers();
}

static void head_cycle(uint64_t cycle)
{
    struct frame f;
    if (cycle < CYCLES)
        head_raises();
    while (receive_frame(&to_head, &f))
        head_reads(&f);
    head_counts();
}

/* ---- Both */

/* Runs one end for a cycle, and starts it again where the power goes meanwhile. */
static bool runs(void (*cycle_of)(uint64_t), void (*starts)(void), uint64_t cycle)
{
    fuse = good_line ? 0 : below(20);
    if (setjmp(power_cut) != 0) {
        starts();
        return false;
    }
    cycle_of(cycle);
    fuse = 0;
    return true;
}

/* The journal has the faults 1 to `count`, in order, and nothing else. */
static void journal_has(uint64_t count)
{
    uint8_t start[POWERLINK_JOURNAL_START_LEN], record[POWERLINK_RECORD_LEN];
    uint64_t v[POWERLINK_ENTRY_VALUES], code;
    FILE *file = fopen("journal", "rb");
    want("a journal", file != NULL && fread(start, 1, sizeof start, file) == sizeof start, true);
    want("its start", memcmp(start, journal_start, sizeof start), 0);
    for (code = 1; code <= count; code++) {
        want("a record", fread(record, 1, sizeof record, file), sizeof record);
        want("its entry", powerlink_deserialize_entry(record + 1, POWERLINK_ENTRY_LEN, v), POWERLINK_DONE);
        want("its code", v[POWERLINK_ENTRY_CODE], code);
    }
    want("another record", fread(record, 1, sizeof record, file), 0);
    fclose(file);
}

int main(int argc, char **argv)
{
    static uint64_t cycle;
    static unsigned cuts;
    want("a folder", argc == 2 && chdir(argv[1]) == 0, true);
    save("services", house, sizeof house);
    box_starts();
    head_starts();
    /* When the line has become a good one, what is left needs at most as many exchanges as there are entries. */
    for (; cycle < CYCLES + 20; cycle++) {
        good_line = cycle >= CYCLES;
        cuts += !runs(box_cycle, box_starts, cycle);
        cuts += !runs(head_cycle, head_starts, cycle);
    }
    box_cycle(cycle);
    journal_has(head.raised);
    printf("%u cycles, %u power cuts: %u faults were accepted, and each is listed once\n", (unsigned)cycle, cuts,
        (unsigned)head.raised);
    return 0;
}
