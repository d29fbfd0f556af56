/* A journal on standard output: what it begins with, then records. Records that are refused leave what they were lent. How
 * much of a torn journal is whole. The exit status is 1 if a call surprises. */
#include "powerlink.h"
#include "want.h"

static const uint8_t start[POWERLINK_JOURNAL_START_LEN] = POWERLINK_JOURNAL_START;

/* Holds a refusal to its cause, for a target of `len` octets. */
static void refused(const char *what, uint8_t id, uint8_t mode, size_t len, uint8_t cause)
{
    uint8_t target[POWERLINK_RECORD_LEN], before[POWERLINK_RECORD_LEN];
    size_t written = 0xEE;

    memset(target, 0x55, sizeof target);
    memset(before, 0x55, sizeof before);
    want(what, powerlink_journal_record(id, true, false, mode, 2, 1, 1, 1, 1, target, len, &written), cause);
    want("a refused record's length", written, 0xEE);
    want_octets("a refused record's target", target, before, sizeof target);
}

/* Writes a record, of which the octet behind stays. */
static void write_record(uint8_t id, uint8_t mode, uint16_t profile, uint16_t code, uint32_t seconds, uint64_t information)
{
    uint8_t target[POWERLINK_RECORD_LEN + 1], entry[POWERLINK_ENTRY_LEN];
    size_t written;

    target[POWERLINK_RECORD_LEN] = 0x55;
    want("a record",
        powerlink_journal_record(
            id, true, false, mode, profile, code, seconds, 6, information, target, sizeof target, &written),
        POWERLINK_DONE);
    want("its length", written, POWERLINK_RECORD_LEN);
    want("the octet behind it", target[POWERLINK_RECORD_LEN], 0x55);
    want("its ID", target[0], id);
    want("its entry",
        powerlink_serialize_entry(true, false, mode, profile, code, seconds, 6, information, entry, sizeof entry, &written),
        POWERLINK_DONE);
    want_octets("its entry", target + 1, entry, sizeof entry);
    want("writing", fwrite(target, 1, POWERLINK_RECORD_LEN, stdout), POWERLINK_RECORD_LEN);
}

/* Holds whole_len to its cause, and to what it gives where there is none. */
static void whole(uint16_t version, size_t len, uint8_t cause, size_t should)
{
    size_t is = 0xEE;
    want("whole_len", powerlink_journal_whole_len(version, len, &is), cause);
    want("the whole length", is, cause == POWERLINK_DONE ? should : 0xEE);
}

/* 17, then 18; else what begins the journal and the records that are not cut. */
static void whole_lengths(void)
{
    static const uint16_t others[] = {0, 2, 0x0100, UINT16_MAX};
    size_t len, records = (SIZE_MAX - POWERLINK_JOURNAL_START_LEN) / POWERLINK_RECORD_LEN, i;

    for (len = 0; len < POWERLINK_JOURNAL_START_LEN; len++) {
        whole(1, len, POWERLINK_NOT_A_JOURNAL, 0);
        whole(2, len, POWERLINK_NOT_A_JOURNAL, 0);
    }
    for (i = 0; i < sizeof others / sizeof *others; i++)
        whole(others[i], POWERLINK_JOURNAL_START_LEN, POWERLINK_UNKNOWN_VERSION, 0);
    for (i = 0; i < 3 * POWERLINK_RECORD_LEN; i++) {
        len = POWERLINK_JOURNAL_START_LEN + i;
        whole(1, len, POWERLINK_DONE, len - i % POWERLINK_RECORD_LEN);
    }
    whole(1, SIZE_MAX, POWERLINK_DONE, POWERLINK_JOURNAL_START_LEN + records * POWERLINK_RECORD_LEN);
}

int main(void)
{
    want("writing", fwrite(start, 1, sizeof start, stdout), sizeof start);
    write_record(7, POWERLINK_ERROR_ACTIVE, 2, 0x1234, 5, 0);
    write_record(1, POWERLINK_ERROR_CLEARED, 0x1FFF, 0xABCD, 0xFFFFFFFF, 0x0123456789ABCDEF);
    write_record(239, POWERLINK_EVENT_OCCURRED, 0, 0, 0, UINT64_MAX);

    refused("mode 0", 7, POWERLINK_TERMINATOR, POWERLINK_RECORD_LEN, POWERLINK_RECORD_INVALID);
    refused("mode 4", 7, 4, POWERLINK_RECORD_LEN, POWERLINK_RECORD_INVALID);
    refused("mode 255", 7, 255, POWERLINK_RECORD_LEN, POWERLINK_RECORD_INVALID);
    refused("node 0", 0, POWERLINK_ERROR_ACTIVE, POWERLINK_RECORD_LEN, POWERLINK_RECORD_INVALID);
    refused("node 240", POWERLINK_MN_NODE, POWERLINK_ERROR_ACTIVE, POWERLINK_RECORD_LEN, POWERLINK_RECORD_INVALID);
    /* 1, then 19 */
    refused("20 octets", 7, POWERLINK_ERROR_ACTIVE, POWERLINK_RECORD_LEN - 1, POWERLINK_TOO_SHORT);
    refused("20 octets and mode 4", 7, 4, POWERLINK_RECORD_LEN - 1, POWERLINK_TOO_SHORT);
    refused("20 octets and mode 0", 7, POWERLINK_TERMINATOR, POWERLINK_RECORD_LEN - 1, POWERLINK_TOO_SHORT);
    refused("20 octets and node 0", 0, POWERLINK_ERROR_ACTIVE, POWERLINK_RECORD_LEN - 1, POWERLINK_TOO_SHORT);
    whole_lengths();
    return 0;
}
