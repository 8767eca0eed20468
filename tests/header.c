/* Calls every function of include/castanwel.h; test_header.py compiles and runs it. It ends with status 1 at the first answer that is not
 * as expected, and says which. */
#include "castanwel.h"

#include <stdio.h>
#include <stdlib.h>
#include <string.h>

#define EXPECT(said)                                                      \
    do {                                                                  \
        if (!(said)) {                                                    \
            fprintf(stderr, "line %d: not so: %s\n", __LINE__, #said);     \
            exit(1);                                                      \
        }                                                                 \
    } while (0)

/* The bytes of a text, and how many they are. */
#define BYTES(text) (const uint8_t *)(text), strlen(text)

static const char *const NONE = "$GPGSV,1,1,00*79\r\n";
static const char *const ONE = "$GPGSV,1,1,01,05,,,*7D\r\n";
static const char *const WRONG = "$GPGSV,1,1,01,05,91,,*75\r\n";

/* What stands in a place before a call. */
static const size_t STALE = 77;

static bool is_text(const uint8_t *bytes, size_t length, const char *text) {
    return length == strlen(text) && memcmp(bytes, text, length) == 0;
}

static void finds_lines(void) {
    const char *log = "noise$GPGSV,1,1,00*79\r\n$GP";
    size_t start = STALE, end = STALE, line = STALE;
    EXPECT(castanwel_next_line(BYTES(log), 0, &start, &end));
    EXPECT(start == 5 && end == 23);
    EXPECT(!castanwel_next_line(BYTES(log), 23, &start, &end));
    EXPECT(start == 23 && end == 26);
    EXPECT(castanwel_feed(0, '$', &line) == 1 && line == 0);
    EXPECT(castanwel_feed(17, '\n', &line) == 0 && line == 18);
    EXPECT(castanwel_line_refusal(BYTES(NONE)) == 0);
    EXPECT(castanwel_line_refusal(BYTES("$GPGSV,1,1,00*78\r\n")) == 2);
    EXPECT(castanwel_line_refusal(BYTES("")) == 1);
}

static void cuts_into_runs(void) {
    uint32_t lines = 0, last = 0;
    bool before = true, ends = true;
    EXPECT(castanwel_run_step(&lines, &last, BYTES("$GPGSV,5,4,17*7E\r\n"), &before, &ends));
    EXPECT(!before && !ends && lines == 1 && last == 5);
    EXPECT(castanwel_run_step(&lines, &last, BYTES(ONE), &before, &ends));
    EXPECT(before && ends && lines == 0 && last == 0);
    EXPECT(!castanwel_run_step(&lines, &last, BYTES("$PIRER,0*40\r\n"), &before, &ends));
    EXPECT(!before && !ends && lines == 0 && last == 0);
}

static void finds_fields(void) {
    size_t ends[5] = {STALE, STALE, STALE, STALE, STALE};
    size_t start = STALE, end = STALE, at_line = STALE, field = STALE;
    EXPECT(castanwel_places(BYTES("GPGSV,1,1,00"), ends, 4) == 4);
    EXPECT(ends[0] == 5 && ends[1] == 7 && ends[2] == 9 && ends[3] == 12 && ends[4] == STALE);
    EXPECT(castanwel_field(BYTES(ONE), 8, &start, &end, &at_line, &field) == 4);
    EXPECT(start == STALE && end == STALE && at_line == 1 && field == 0);
    EXPECT(castanwel_field(BYTES(ONE), 4, &start, &end, &at_line, &field) == 0);
    EXPECT(start == 14 && end == 16 && at_line == 0 && field == 0);
}

static void reads_and_writes_a_line(void) {
    int64_t numbers[CASTANWEL_RECORD] = {0};
    const int64_t zda[] = {CASTANWEL_GP, 1, 2830000, 1, 15, 11, 2026, 1, -30};
    uint8_t out[CASTANWEL_LONGEST];
    uint32_t kind = (uint32_t)STALE;
    size_t length = STALE, line = STALE, field = STALE;
    EXPECT(castanwel_refusal(BYTES(WRONG), &line, &field) == 5 && line == 1 && field == 5);
    EXPECT(castanwel_read(BYTES(WRONG), numbers, CASTANWEL_RECORD, &kind, &line, &field) == 5);
    EXPECT(kind == STALE && line == 1 && field == 5);
    EXPECT(castanwel_write(CASTANWEL_ZDA, zda, 8, out, sizeof out, &length, &line, &field) == 5);
    EXPECT(length == STALE && line == 0 && field == 0);
    EXPECT(castanwel_write(CASTANWEL_ZDA, zda, 9, out, sizeof out, &length, &line, &field) == 0);
    EXPECT(is_text(out, length, "$GPZDA,075140.00,15,11,2026,-00,30*4D\r\n"));
    EXPECT(castanwel_read(out, length, numbers, CASTANWEL_RECORD, &kind, &line, &field) == 0);
    EXPECT(kind == CASTANWEL_ZDA && line == 0 && field == 0 && memcmp(numbers, zda, sizeof zda) == 0);
}

static void reads_and_writes_a_group(void) {
    int64_t numbers[CASTANWEL_GROUP] = {0};
    uint8_t out[CASTANWEL_LONGEST_GROUP];
    size_t length = STALE, line = STALE, field = STALE;
    EXPECT(castanwel_read_group(BYTES("$GPGSV,5,5,17,77,71,048,53*43\r\n"), numbers, CASTANWEL_GROUP, &line, &field) == 6);
    EXPECT(line == 1 && field == 0);
    EXPECT(castanwel_read_group(BYTES(ONE), numbers, CASTANWEL_GROUP, &line, &field) == 0);
    EXPECT(numbers[0] == CASTANWEL_GP && numbers[1] == 1 && numbers[2] == 5 && line == 0 && field == 0);
    EXPECT(castanwel_write_group(numbers, CASTANWEL_GROUP, out, 5, &length, &line, &field) == 8 && length == STALE);
    EXPECT(castanwel_write_group(numbers, CASTANWEL_GROUP, out, sizeof out, &length, &line, &field) == 0);
    EXPECT(is_text(out, length, ONE));
}

static void carries_out_a_command(void) {
    int64_t settings[CASTANWEL_SETTINGS] = {0};
    uint8_t out[CASTANWEL_LONGEST_REPLY];
    uint32_t gps = 0, glonass = 0;
    size_t length = STALE, line = STALE, field = STALE;
    EXPECT(castanwel_start(settings, CASTANWEL_SETTINGS, &line, &field) == 0 && line == 0 && field == 0);
    EXPECT(settings[0] == 4800 && settings[8] == 0xffffffff);
    EXPECT(castanwel_step(settings, CASTANWEL_SETTINGS, 0, BYTES(NONE), out, sizeof out, &length, &line, &field) == 9);
    EXPECT(length == STALE && line == 1 && field == 0);
    EXPECT(castanwel_step(settings, CASTANWEL_SETTINGS, 0, BYTES("$PIRSR,7FFEFFFF,FFFFFE,*17\r\n"), out, sizeof out, &length,
                          &line, &field) == 0);
    EXPECT(length == CASTANWEL_LONGEST_REPLY && is_text(out, length, "$PIRSA,7FFEFFFF,FFFFFE,*04\r\n"));
    EXPECT(castanwel_counts(settings, CASTANWEL_SETTINGS, &gps, &glonass, &line, &field) == 0);
    EXPECT(gps == 30 && glonass == 23);
}

static void keeps_an_index(void) {
    const uint64_t two[] = {2, 300, 82};
    uint64_t entries[2 * CASTANWEL_ENTRY] = {0}, offset = 0, size = 0;
    uint8_t index[2 * CASTANWEL_ENTRY_BYTES] = {0};
    size_t used = STALE, count = STALE, line = STALE, field = STALE;
    EXPECT(castanwel_index_write(two, CASTANWEL_ENTRY, index, sizeof index, &used, &line, &field) == 0 && used == 4);
    EXPECT(castanwel_index_add(index, sizeof index, used, 10, 382, 18, &used, &line, &field) == 0 && used == 7);
    EXPECT(castanwel_index_read(index, used, entries, 2 * CASTANWEL_ENTRY, &count, &line, &field) == 0 && count == 2);
    EXPECT(entries[0] == 2 && entries[1] == 300 && entries[2] == 82 && entries[3] == 10 && entries[5] == 18);
    EXPECT(castanwel_index_find(index, used, 10, &offset, &size, &line, &field) == 0 && offset == 382 && size == 18);
    EXPECT(castanwel_index_find(index, used, 3, &offset, &size, &line, &field) == 12 && line == 0 && field == 0);
}

int main(void) {
    finds_lines();
    cuts_into_runs();
    finds_fields();
    reads_and_writes_a_line();
    reads_and_writes_a_group();
    carries_out_a_command();
    keeps_an_index();
    puts("all as expected");
    return 0;
}
