/* Answer records and logs of them: read, counted, indexed. */
#define _DEFAULT_SOURCE
#include "cases.h"
#include <sys/mman.h>

#define MET "0010 01 01 00000000 3F000000 FFFF 00000001"
#define STUCK "0010 01 05 80000000 7FC00001 0003 00000007"
#define REFUSED_6 "0002 01 86"
#define NO_RECORDS "00000011 01 00000000 00000000 00000000 00000000"
#define TWO_RECORDS "00000011 01 00000016 00000002 00000000 00000000"

static void read_answers(void) {
    bytes record = hex(STUCK);
    bm_reply reply = bm_read_answer(record.at, record.count);
    HOLDS(reply.refusal == BM_FINE && reply.code == BM_STUCK && reply.x == 0x80000000 && reply.y == 0x7FC00001);
    HOLDS(reply.failed_line == 3 && reply.probes == 7);
    record = hex(MET);
    HOLDS(bm_read_answer(record.at, record.count).failed_line == BM_NO_LINE);
    record = hex(REFUSED_6);
    reply = bm_read_answer(record.at, record.count);
    HOLDS(reply.refusal == BM_FINE && reply.code == BM_REFUSED_CODE + 6 && reply.x == 0 && reply.y == 0);
    HOLDS(reply.failed_line == 0 && reply.probes == 0);
}

static void refused_answer(const char *record, uint32_t refusal) {
    bytes given = hex(record);
    bm_reply reply = bm_read_answer(given.at, given.count);
    HOLDS(reply.refusal == refusal);
    HOLDS(reply.code == 0 && reply.x == 0 && reply.y == 0 && reply.failed_line == 0 && reply.probes == 0);
}

/* Every code under both lengths. */
static void codes(void) {
    for (unsigned code = 0; code < 256; code++) {
        uint8_t long_one[18] = {0, 16, 1, (uint8_t)code}, short_one[4] = {0, 2, 1, (uint8_t)code};
        bm_reply as_long = bm_read_answer(lend(long_one, 18), 18), as_short = bm_read_answer(lend(short_one, 4), 4);
        int outcome = code >= 1 && code <= 5, refusal = (code >= 129 && code <= 138) || code == 142;
        HOLDS(as_long.refusal == (outcome ? BM_FINE : BM_REFUSED_AMOUNT));
        HOLDS(as_short.refusal == (refusal ? BM_FINE : BM_REFUSED_AMOUNT));
        HOLDS(as_long.code == (outcome ? code : 0) && as_short.code == (refusal ? code : 0));
    }
}

static void tallies(void) {
    bytes log = hex(MET REFUSED_6 STUCK);
    bm_tally tally = bm_tally_log(log.at, log.count);
    HOLDS(tally.refusal == BM_FINE && tally.place == 0);
    for (unsigned i = 0; i < 6; i++) HOLDS(tally.outcomes[i] == (i == 1 || i == 5));
    for (unsigned i = 0; i < 16; i++) HOLDS(tally.refusals[i] == (i == 6));
    HOLDS(tally.probes == 8 && tally.largest == 7 && tally.failed == 1);
}

static void refused_tally(const char *log, uint32_t refusal, uint64_t place) {
    bytes given = hex(log);
    bm_tally tally = bm_tally_log(given.at, given.count);
    uint64_t sum = tally.probes + tally.largest + tally.failed;
    for (unsigned i = 0; i < 6; i++) sum += tally.outcomes[i];
    for (unsigned i = 0; i < 16; i++) sum += tally.refusals[i];
    HOLDS(tally.refusal == refusal && tally.place == place);
    HOLDS(sum == 0);
}

static void built(const char *log, const char *index) {
    bytes from = hex(log), wanted = hex(index);
    uint8_t *buffer = lend_buffer(wanted.count + 5), *shorter = lend_buffer(wanted.count - 1);
    bm_written written = bm_build_index(from.at, from.count, buffer, wanted.count + 5);
    HOLDS(written.refusal == BM_FINE && written.length == wanted.count);
    HOLDS(memcmp(buffer, wanted.at, wanted.count) == 0);
    HOLDS(is_untouched(buffer, wanted.count, wanted.count + 5));
    written = bm_build_index(from.at, from.count, shorter, wanted.count - 1);
    HOLDS(written.refusal == BM_REFUSED_BUFFER && written.length == 0);
    HOLDS(is_untouched(shorter, 0, wanted.count - 1));
}

static void refused_build(const char *log, uint32_t refusal) {
    bytes from = hex(log);
    uint8_t *buffer = lend_buffer(40);
    bm_written written = bm_build_index(from.at, from.count, buffer, 40);
    HOLDS(written.refusal == refusal && written.length == 0);
    HOLDS(is_untouched(buffer, 0, 40));
}

static void counted(const char *log, const char *index, size_t a, size_t b, uint32_t refusal, uint64_t count) {
    bytes of = hex(log), by = hex(index);
    bm_fallbacks found = bm_count_fallbacks(of.at, of.count, by.at, by.count, a, b);
    HOLDS(found.refusal == refusal && found.count == count);
}

static void questions(void) {
    counted("", NO_RECORDS, 0, 0, 0, 0);
    counted(STUCK REFUSED_6, TWO_RECORDS, 0, 2, 0, 1);
    counted(STUCK REFUSED_6, TWO_RECORDS, 0, 1, 0, 1);
    counted(STUCK REFUSED_6, TWO_RECORDS, 1, 2, 0, 0);
    counted(STUCK REFUSED_6, TWO_RECORDS, 2, 2, 0, 0);
    counted("", "", 0, 0, 2, 0);
    counted("", "00000000", 0, 0, 2, 0);
    counted("", "00000001 02", 0, 0, 1, 0);
    counted("", "00000001 01", 0, 0, 2, 0);
    counted("", "00000009 01 00000016 00000002", 0, 0, 2, 0);
    counted("00", NO_RECORDS, 0, 0, 12, 0);
    counted("00", NO_RECORDS, 1, 0, 12, 0);
    counted("", NO_RECORDS, 1, 0, 13, 0);
    counted("", NO_RECORDS, 0, 1, 13, 0);
    counted("", NO_RECORDS, 0, SIZE_MAX, 13, 0);
    counted(STUCK REFUSED_6, "00000011 01 00000016 00000002 00000016 00000000", 1, 1, 2, 0);
    counted(STUCK REFUSED_6, "00000011 01 00000016 00000002 00000017 00000000", 0, 0, 2, 0);
    counted("0002 02 86", "00000011 01 00000004 00000001 00000000 00000000", 0, 1, 1, 0);
}

/* An append to a buffer whose first bytes are the index: what is told, and the index then, if there is one. */
static void appended(const char *log, const char *index, const char *record, size_t buffer_bytes, uint32_t refusal,
                     const char *wanted) {
    bytes of = hex(log), before = hex(index), one = hex(record), after = hex(wanted);
    uint8_t *buffer = lend_buffer(buffer_bytes);
    memcpy(buffer, before.at, before.count);
    bm_written written = bm_append_record(of.at, of.count, buffer, buffer_bytes, before.count, one.at, one.count);
    bytes now = refusal == BM_FINE ? after : before;
    HOLDS(written.refusal == refusal && written.length == after.count);
    HOLDS(memcmp(buffer, now.at, now.count) == 0);
    HOLDS(is_untouched(buffer, now.count, buffer_bytes));
}

static void appends(void) {
    appended("", NO_RECORDS, REFUSED_6, 30, 0, "00000011 01 00000004 00000001 00000000 00000000");
    appended(STUCK, "00000011 01 00000012 00000001 00000000 00000000", REFUSED_6, 21, 0, TWO_RECORDS);
    appended("00", NO_RECORDS, REFUSED_6, 30, 12, "");
    appended("", NO_RECORDS, "0002 02 86", 30, 1, "");
    appended("", NO_RECORDS, "0002 02 86 00", 30, 2, "");
    appended("", NO_RECORDS, REFUSED_6 REFUSED_6, 30, 2, "");
    appended("", NO_RECORDS, "", 30, 2, "");
    appended("", "00000001 02", REFUSED_6, 30, 1, "");
    bytes record = hex(REFUSED_6);
    uint8_t *buffer = lend_buffer(21);
    bm_written written = bm_append_record(NULL, 0, buffer, 21, 22, record.at, 4);
    HOLDS(written.refusal == BM_REFUSED_AMOUNT && written.length == 0 && is_untouched(buffer, 0, 21));
}

/* A record behind a log of as many bytes as four can tell, none of which is looked at: pages that nobody touches. */
static void append_too_far(void) {
    size_t most = 0xffffffff;
    const uint8_t *log = mmap(NULL, most, PROT_READ, MAP_PRIVATE | MAP_ANONYMOUS | MAP_NORESERVE, -1, 0);
    if (log == MAP_FAILED) return;
    bytes index = hex("00000011 01 FFFFFFFF 00000000 00000000 00000000"), record = hex(REFUSED_6);
    uint8_t buffer[21];
    memcpy(buffer, index.at, 21);
    bm_written written = bm_append_record(log, most, buffer, 21, 21, record.at, record.count);
    HOLDS(written.refusal == BM_REFUSED_COUNT && written.length == 0 && memcmp(buffer, index.at, 21) == 0);
    munmap((void *)(uintptr_t)log, most);
}

/* 130 records appended one by one, against the index that is built anew; and every question of it against a walk. */
static void grown_index(void) {
    uint8_t log[130 * 18], *index = lend_buffer(37), *built_anew = lend_buffer(37);
    size_t at = 0, length = bm_build_index(NULL, 0, index, 37).length;
    unsigned before[131] = {0};
    for (size_t i = 0; i < 130; i++) {
        bytes record = hex(i % 3 == 0 ? STUCK : i % 3 == 1 ? REFUSED_6 : MET);
        bm_written written = bm_append_record(log, at, index, 37, length, record.at, record.count);
        memcpy(log + at, record.at, record.count);
        at += record.count;
        length = written.length;
        before[i + 1] = before[i] + (i % 3 == 0);
        HOLDS(written.refusal == BM_FINE && bm_build_index(log, at, built_anew, 37).length == length);
        HOLDS(memcmp(index, built_anew, length) == 0);
    }
    for (size_t a = 0; a <= 130; a++)
        for (size_t b = a; b <= 130; b++)
            HOLDS(bm_count_fallbacks(log, at, index, length, a, b).count == before[b] - before[a]);
}

/* The 64th record needs a byte more than this buffer has. */
static void append_to_a_full_buffer(void) {
    uint8_t log[63 * 4], *buffer = lend_buffer(28), before[28];
    for (size_t i = 0; i < 63; i++) memcpy(log + 4 * i, hex(REFUSED_6).at, 4);
    HOLDS(bm_build_index(log, sizeof log, buffer, 28).length == 21);
    memcpy(before, buffer, 28);
    bm_written written = bm_append_record(log, sizeof log, buffer, 28, 21, hex(REFUSED_6).at, 4);
    HOLDS(written.refusal == BM_REFUSED_BUFFER && written.length == 0 && memcmp(before, buffer, 28) == 0);
}

void log_cases(void) {
    read_answers();
    const char *bad[] = {"",           "00",         "0010",      "0005", "0002 01", "0002 01 86 00",
                         "0002 01 8B", "0010 01 06", "0002 01 01"};
    for (size_t i = 0; i < sizeof bad / sizeof *bad; i++) refused_answer(bad[i], BM_REFUSED_AMOUNT);
    refused_answer("0002 02 86", BM_REFUSED_VERSION);
    codes();
    tallies();
    refused_tally("00", 2, 0);
    refused_tally("0010 02", 2, 0);
    refused_tally(MET "0002 02 81", 1, 1);
    refused_tally(MET STUCK "0002 01 8B", 2, 2);
    built("", NO_RECORDS);
    built(STUCK REFUSED_6, TWO_RECORDS);
    refused_build(MET "00", BM_REFUSED_AMOUNT);
    refused_build("0002 02 86", BM_REFUSED_VERSION);
    questions();
    appends();
    append_too_far();
    append_to_a_full_buffer();
    grown_index();
}
