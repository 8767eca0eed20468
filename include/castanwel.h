/* The exported functions of the proved library, target/staticlib/libhost.a, which tools/host writes. docs/LAYOUT.md says which
 * numbers a record, a group, the settings and an index have; docs/RULES.md what the numbers of refusals are.
 *
 * Bytes and numbers are lent as a pointer and how many there are. A pointer is never null, also where there are none. What is lent to be
 * written does not overlap anything else that is lent, and each place for an answer has a value before the call.
 *
 * Each function but castanwel_next_line, castanwel_feed, castanwel_places and castanwel_run_step returns the number of its refusal, 0 where there is none.
 * `line` and `field` (`at_line`, where `line` is the caller's line) are set to those of the refusal, or to 0. A refusal leaves every other
 * lent number and byte as it was.
 */
#ifndef CASTANWEL_H
#define CASTANWEL_H

#include <stdbool.h>
#include <stddef.h>
#include <stdint.h>

#ifdef __cplusplus
extern "C" {
#endif

/* The most bytes that a line has, a group of nine lines, and the reply to a command. */
#define CASTANWEL_LONGEST 82
#define CASTANWEL_LONGEST_GROUP 630
#define CASTANWEL_LONGEST_REPLY 28

/* The most numbers that a record has, its talker among them; how many numbers a group has, the settings, and an entry of an index. */
#define CASTANWEL_RECORD 33
#define CASTANWEL_GROUP 254
#define CASTANWEL_SETTINGS 11
#define CASTANWEL_ENTRY 3

/* The most bytes that an entry of an index takes. */
#define CASTANWEL_ENTRY_BYTES 11

/* The kinds of sentences. */
enum castanwel_kind {
    CASTANWEL_GGA = 1,
    CASTANWEL_GLL = 2,
    CASTANWEL_GSA = 3,
    CASTANWEL_GSV = 4,
    CASTANWEL_RMC = 5,
    CASTANWEL_VTG = 6,
    CASTANWEL_ZDA = 7,
    CASTANWEL_PIRPR = 8,
    CASTANWEL_PIRTR = 9,
    CASTANWEL_PIRSR = 10,
    CASTANWEL_PIRER = 11,
    CASTANWEL_PIRPA = 12,
    CASTANWEL_PIRTA = 13,
    CASTANWEL_PIRSA = 14,
    CASTANWEL_PIREA = 15
};

/* The talkers; the first number of a record of the kinds 1 to 7, and of a group. */
enum castanwel_talker {
    CASTANWEL_GP = 0,
    CASTANWEL_GL = 1,
    CASTANWEL_GA = 2,
    CASTANWEL_GQ = 3,
    CASTANWEL_GN = 4
};

/* What the line rule says of `line`: 0 where it is a line, 1 where the rule fails, 2 where the two digits differ from the XOR of the
 * body. */
uint8_t castanwel_line_refusal(const uint8_t *line, size_t line_len);

/* Whether `s` has a line from `at` on. The first one lies from `start` up to `end`. Where there is none, `end` is the end of `s`, or `at`
 * where that lies beyond it, and an unfinished line begins at `start`, which is `end` where nothing is. */
bool castanwel_next_line(const uint8_t *s, size_t s_len, size_t at, size_t *start, size_t *end);

/* Feeds the byte `b` to a finder that holds `held` bytes, and returns how many it holds next. `line` is set to the length of the line that
 * `b` ends, or to 0 where it ends none. */
size_t castanwel_feed(size_t held, uint8_t b, size_t *line);

/* How many fields the body of a line has, the address among them. The place where each ends is stored in `ends`, one after another, as far
 * as there is room. */
size_t castanwel_places(const uint8_t *body, size_t body_len, size_t *ends, size_t ends_len);

/* Sets `start` and `end` to where field `n` after the address starts and ends in `line`. Refused: 1 to 3, then 4 where there is no field
 * n. A refusal leaves both. */
uint8_t castanwel_field(const uint8_t *line, size_t line_len, size_t n, size_t *start, size_t *end, size_t *at_line, size_t *field);

/* Reads `line` to its record, for the refusal alone. */
uint8_t castanwel_refusal(const uint8_t *line, size_t line_len, size_t *at_line, size_t *field);

/* Reads `line` to its record, stores the record's numbers at the start of `numbers` and sets `kind` to its kind. Refused: as the line is,
 * then 8 with line 0 where `numbers` is too short. A refusal leaves `numbers` and `kind`. */
uint8_t castanwel_read(const uint8_t *line, size_t line_len, int64_t *numbers, size_t numbers_len, uint32_t *kind, size_t *at_line,
                       size_t *field);

/* Writes the line of the record of a kind that `numbers` say into `out`, and sets `length` to its length. Refused: 5 for too few numbers
 * and 3 for what is no kind or no talker, both with line 0; 5 on line 1 in field 1 for a GPS mask that 32 bits do not hold; or as the
 * kind's writer does. A refusal leaves `out` and `length`. */
uint8_t castanwel_write(uint32_t kind, const int64_t *numbers, size_t numbers_len, uint8_t *out, size_t out_len, size_t *length,
                        size_t *line, size_t *field);

/* Whether `line`, the next that was found, stands in a run: it reads as GSV. `lines` and `last` say what is open, how many lines it has, 0
 * where none is, and the number that its first announced as last; they are set to what is open behind the line. `before` is set to whether
 * the open run ends before the line, `ends` to whether the line's own ends with it. What is open where the lines end is a run too. */
bool castanwel_run_step(uint32_t *lines, uint32_t *last, const uint8_t *line, size_t line_len, bool *before, bool *ends);

/* Reads the lines in `s` as a group, and stores the 254 numbers of the whole sky at the start of `numbers`. Refused: 1 to 7, then 8 with
 * line 0 where `numbers` is too short. A refusal leaves `numbers`. */
uint8_t castanwel_read_group(const uint8_t *s, size_t s_len, int64_t *numbers, size_t numbers_len, size_t *line, size_t *field);

/* Writes the group that 254 numbers say into `out`, and sets `length` to its length. Refused: 5 where there are fewer, then 3 for a talker
 * that there is not, both with line 0; then 5, 7 and 8 as a group is. A refusal leaves `out` and `length`. */
uint8_t castanwel_write_group(const int64_t *numbers, size_t numbers_len, uint8_t *out, size_t out_len, size_t *length, size_t *line,
                              size_t *field);

/* Stores the eleven numbers of the settings at start. Refused: 8 with line 0 where `settings` is too short. */
uint8_t castanwel_start(int64_t *settings, size_t settings_len, size_t *line, size_t *field);

/* Carries out the command in `line`, which arrived on port `arrival`, on the settings, writes the reply into `out`, and sets `length` to
 * its length. Refused: 5 with line 0 for too few settings or one out of its range, or for a port that there is not; 10; 1 to 5; 9; 8. A
 * refusal leaves `settings`, `out` and `length`. */
uint8_t castanwel_step(int64_t *settings, size_t settings_len, uint32_t arrival, const uint8_t *line, size_t line_len, uint8_t *out,
                       size_t out_len, size_t *length, size_t *at_line, size_t *field);

/* Sets `gps` and `glonass` to how many satellites of each the settings allow. Refused: 5 with line 0 where the settings are not eleven
 * numbers in range. A refusal leaves both. */
uint8_t castanwel_counts(const int64_t *settings, size_t settings_len, uint32_t *gps, uint32_t *glonass, size_t *line, size_t *field);

/* Writes the index of `entries`, three numbers an entry, into `out` and sets `size` to its length. Refused: 5 where the numbers are not
 * threes or an entry is out of range or order; then 8. A refusal leaves `out` and `size`. */
uint8_t castanwel_index_write(const uint64_t *entries, size_t entries_len, uint8_t *out, size_t out_len, size_t *size, size_t *line,
                              size_t *field);

/* Reads `index` to numbers at the start of `entries`, and sets `count` to how many entries there are. Refused: 11 for bytes that are no
 * index; then 8. A refusal leaves `entries` and `count`. */
uint8_t castanwel_index_read(const uint8_t *index, size_t index_len, uint64_t *entries, size_t entries_len, size_t *count, size_t *line,
                             size_t *field);

/* Adds the entry of three numbers at the end of the index in the first `used` bytes of `index`, and sets `after` to the length of the
 * index then. Refused: 11 where these bytes are no index or `used` passes the end; 5 where the entry does not fit behind the last; 8 where
 * there is no room for it. A refusal leaves `index` and `after`. */
uint8_t castanwel_index_add(uint8_t *index, size_t index_len, size_t used, uint64_t number, uint64_t offset, uint64_t size,
                            size_t *after, size_t *line, size_t *field);

/* Finds the exhibit `number` in `index`, and sets `offset` and `size` to those of its line. Refused: 11 for bytes that are no index,
 * whatever the number is; then 12. A refusal leaves `offset` and `size`. */
uint8_t castanwel_index_find(const uint8_t *index, size_t index_len, uint64_t number, uint64_t *offset, uint64_t *size, size_t *line,
                             size_t *field);

#ifdef __cplusplus
}
#endif

#endif
