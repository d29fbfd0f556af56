/* What a restart does to the faults: an end that begins anew alone, a state that was saved too late, and the orders of
 * Take, journal and saving. What is lost or listed twice is so without a word: every call answers with 0. */
#include "pair.h"

/* What outlasts a power cut: a state of each end, the journal, and how long that was when the box's state was saved. */
static struct {
    uint8_t head[POWERLINK_REPORTER_LEN];
    uint8_t box[POWERLINK_COLLECTOR_LEN];
    size_t saved_len;
    uint8_t journal[POWERLINK_JOURNAL_START_LEN + 8 * POWERLINK_RECORD_LEN];
    size_t journal_len;
} disk;

static void save_head(void) { memcpy(disk.head, head, sizeof head); }

static void save_box(void)
{
    memcpy(disk.box, box, sizeof box);
    disk.saved_len = disk.journal_len;
}

static void restore_head(void) { memcpy(head, disk.head, sizeof head); }
static void restore_box(void) { memcpy(box, disk.box, sizeof box); }

/* ---- An end that begins anew alone */

/* One batch was booked, so EA is 1, and so is the first EN of the new head. */
static void head_anew_after_one(void)
{
    new_pair();
    raise_entry(1);
    exchange();
    new_head();
    raise_entry(2);
    box_reads(answer(), POWERLINK_KNOWN);
    head_reads(request(), POWERLINK_CLOSED);
    take(1);
    nothing_booked();
    printf("a head anew, 1 batch booked: entry 2 is lost\n");
}

static void head_anew_after_two(void)
{
    new_pair();
    raise_entry(1);
    exchange();
    raise_entry(2);
    exchange();
    new_head();
    raise_entry(3);
    exchange();
    take(1);
    take(2);
    take(3);
    nothing_booked();
    printf("a head anew, 2 batches booked: nothing is lost\n");
}

/* The head's second batch has EN 0, and so has the new box's EA. */
static void box_anew_loses(void)
{
    new_pair();
    raise_entry(1);
    exchange();
    take(1);
    raise_entry(2);
    answer();
    new_box();
    box_reads(answer(), POWERLINK_KNOWN);
    head_reads(request(), POWERLINK_CLOSED);
    raise_entry(3);
    exchange();
    take(3);
    nothing_booked();
    printf("a box anew, 1 batch closed: entry 2 is lost\n");
}

/* The head's first batch is booked and taken, and the request that would close it is lost. */
static void box_anew_lists_twice(void)
{
    new_pair();
    raise_entry(1);
    box_reads(answer(), POWERLINK_BOOKED);
    take(1);
    new_box();
    exchange();
    take(1);
    nothing_booked();
    printf("a box anew, 1 batch open: entry 1 is listed twice\n");
}

/* ---- A state that was saved too late */

/* The head has closed what the box, going on from before its reading, does not have; and EA is one batch behind. */
static void box_saved_before_its_reading(void)
{
    new_pair();
    save_box();
    raise_entry(1);
    exchange();
    restore_box();
    raise_entry(2);
    box_reads(answer(), POWERLINK_KNOWN);
    head_reads(request(), POWERLINK_CLOSED);
    nothing_booked();
    printf("a box saved before a reading, its request sent: entries 1 and 2 are lost\n");
}

/* The box has entry 1 under EN 1; the head, going on from before its Answer, sends 1 and 2 under EN 1. */
static void head_saved_before_its_answer(void)
{
    new_pair();
    raise_entry(1);
    save_head();
    box_reads(answer(), POWERLINK_BOOKED);
    restore_head();
    raise_entry(2);
    box_reads(answer(), POWERLINK_KNOWN);
    head_reads(request(), POWERLINK_CLOSED);
    take(1);
    nothing_booked();
    printf("a head saved before an Answer that was booked: entry 2 is lost\n");
}

/* Each end saves what a call has changed before its next frame leaves, and is cut off with each frame: before it is saved,
 * before it leaves, and after. */
static void saved_by_the_rule(void)
{
    struct frame f;
    uint16_t code;
    new_pair();
    save_box();
    for (code = 1; code <= 4; code++) {
        raise_entry(code);
        save_head();
        answer();
        restore_head(); /* not saved, and so not sent */
        f = answer();
        save_head();
        restore_head();
        box_reads(f, POWERLINK_BOOKED);
        restore_box(); /* not saved: as if the answer had been lost */
        box_reads(answer(), POWERLINK_BOOKED);
        save_box();
        restore_box();
        f = request();
        restore_box();
        head_reads(f, POWERLINK_CLOSED);
        restore_head(); /* not saved: as if the request had been lost */
        head_reads(request(), POWERLINK_CLOSED);
        save_head();
        restore_head();
    }
    for (code = 1; code <= 4; code++)
        take(code);
    nothing_booked();
    printf("saved before each frame leaves: nothing is lost, nothing listed twice\n");
}

/* ---- Take, journal and saving */

/* Takes an entry and writes its record; false where nothing is booked. */
static bool take_record(uint8_t id, uint8_t record[POWERLINK_RECORD_LEN])
{
    uint64_t v[POWERLINK_ENTRY_VALUES];
    size_t written;
    uint8_t cause = powerlink_collector_take(box, id, v);
    if (cause == POWERLINK_NOTHING_BOOKED)
        return false;
    want("Take", cause, POWERLINK_DONE);
    want("a record",
        powerlink_journal_record(id, v[POWERLINK_ENTRY_STATUS_ENTRY], v[POWERLINK_ENTRY_SEND_TO_QUEUE],
            v[POWERLINK_ENTRY_MODE], v[POWERLINK_ENTRY_PROFILE], v[POWERLINK_ENTRY_CODE], v[POWERLINK_ENTRY_SECONDS],
            v[POWERLINK_ENTRY_NANOSECONDS], v[POWERLINK_ENTRY_INFORMATION], record, POWERLINK_RECORD_LEN, &written),
        POWERLINK_DONE);
    return true;
}

/* Appends the first `len` octets of a record: all of them, or as many as a power cut leaves. */
static void append(const uint8_t *record, size_t len)
{
    want("room in the journal", disk.journal_len + len <= sizeof disk.journal, true);
    memcpy(disk.journal + disk.journal_len, record, len);
    disk.journal_len += len;
}

static void take_and_append(size_t len)
{
    uint8_t record[POWERLINK_RECORD_LEN];
    want("an entry is booked", take_record(HEAD, record), true);
    append(record, len);
}

/* Takes and appends what is left. */
static void drain(void)
{
    uint8_t record[POWERLINK_RECORD_LEN];
    while (take_record(HEAD, record))
        append(record, sizeof record);
}

/* Holds the journal to `count` records, all of them of entry 5. */
static void journal_has(size_t count)
{
    const uint8_t *record = disk.journal + POWERLINK_JOURNAL_START_LEN;
    uint64_t v[POWERLINK_ENTRY_VALUES];
    want("the journal's length", disk.journal_len, POWERLINK_JOURNAL_START_LEN + count * POWERLINK_RECORD_LEN);
    for (; count > 0; count--, record += POWERLINK_RECORD_LEN) {
        want("a record's ID", record[0], HEAD);
        want("its entry", powerlink_deserialize_entry(record + 1, POWERLINK_ENTRY_LEN, v), POWERLINK_DONE);
        want("its code", v[POWERLINK_ENTRY_CODE], 5);
    }
}

/* A box with two equal entries booked, saved, and a journal without records. */
static void two_equal_entries(void)
{
    static const uint8_t start[POWERLINK_JOURNAL_START_LEN] = POWERLINK_JOURNAL_START;
    new_pair();
    disk.journal_len = 0;
    append(start, sizeof start);
    raise_entry(5);
    raise_entry(5);
    exchange();
    save_box();
}

/* Saved is the state alone, after the journal was written. */
static void journal_first(void)
{
    two_equal_entries();
    take_and_append(POWERLINK_RECORD_LEN);
    restore_box();
    drain();
    journal_has(3);
    printf("journal first, then the state alone: an entry is listed twice\n");
}

static void state_first(void)
{
    uint8_t record[POWERLINK_RECORD_LEN];
    two_equal_entries();
    want("an entry is booked", take_record(HEAD, record), true);
    save_box();
    restore_box();
    drain();
    journal_has(1);
    printf("the state first, then the journal: an entry is lost\n");
}

/* Whether the record that a Take gives next is the journal's last says nothing: here it was saved, and is skipped. */
static void compared_without_a_length(void)
{
    uint8_t record[POWERLINK_RECORD_LEN];
    two_equal_entries();
    take_and_append(POWERLINK_RECORD_LEN);
    save_box();
    restore_box();
    want("an entry is booked", take_record(HEAD, record), true);
    want_octets("the last record", disk.journal + disk.journal_len - sizeof record, record, sizeof record);
    drain();
    journal_has(1);
    printf("the last record compared, with no length saved: an equal entry is lost\n");
}

/* The recipe: the journal's length is saved with the state, and after a restart the journal is cut to it. What it loses,
 * Take hands out again. */
static void restart_by_cutting(void)
{
    restore_box();
    want("a journal not shorter than saved", disk.saved_len <= disk.journal_len, true);
    disk.journal_len = disk.saved_len;
}

/* The other one, for a journal of which somebody may have read more than was saved: only a torn record is cut, and each
 * record behind the saved length is the one that Take hands out next for its ID. */
static void restart_by_comparing(void)
{
    uint8_t record[POWERLINK_RECORD_LEN];
    size_t whole, at;
    restore_box();
    want("whole_len", powerlink_journal_whole_len(1, disk.journal_len, &whole), POWERLINK_DONE);
    disk.journal_len = whole;
    for (at = disk.saved_len; at < whole; at += sizeof record) {
        want("an entry is booked", take_record(disk.journal[at], record), true);
        want_octets("the record ahead", disk.journal + at, record, sizeof record);
    }
    save_box();
}

/* A power cut after `len` octets of the record, saved or not; then another one during the restart. */
static void cut_after(size_t len, bool saved, void (*restart)(void))
{
    two_equal_entries();
    take_and_append(len);
    if (saved)
        save_box();
    restart();
    restart();
    drain();
    save_box();
    journal_has(2);
}

static void no_cut_hurts(const char *what, void (*restart)(void))
{
    size_t len;
    for (len = 0; len <= POWERLINK_RECORD_LEN; len++)
        cut_after(len, false, restart);
    cut_after(POWERLINK_RECORD_LEN, true, restart);
    printf("the length saved with the state, the journal %s: two equal entries are listed as two\n", what);
}

int main(void)
{
    head_anew_after_one();
    head_anew_after_two();
    box_anew_loses();
    box_anew_lists_twice();
    box_saved_before_its_reading();
    head_saved_before_its_answer();
    saved_by_the_rule();
    journal_first();
    state_first();
    compared_without_a_length();
    no_cut_hurts("cut to it", restart_by_cutting);
    no_cut_hurts("compared", restart_by_comparing);
    return 0;
}
