/* What panel firmware calls of Yiddolza: the margin of a rule at a poll, and the margins of a whole record.
 *
 * A list crosses as a pointer and then its number of items. Where the number is 0 the pointer may be NULL. Lists that a
 * call writes (cells, margins, verdicts) must overlap no other list of the same call; lists that it only reads may overlap
 * each other. Each pointer must be aligned for its type and have that many items of initialised memory behind it, at most
 * 2^63 - 1 bytes. Nothing else is asked of a caller: any numbers may stand in the lists, cells among them, and a call that
 * cannot be answered says why.
 *
 * No call keeps a pointer, allocates, or has state of its own, so calls on lists of their own may run side by side. */
#ifndef YIDDOLZA_H
#define YIDDOLZA_H

#include <stddef.h>
#include <stdint.h>

#ifdef __cplusplus
extern "C" {
#endif

/* The kinds of entries. */
enum {
    YIDDOLZA_HEAD_TEST = 16, /* head, sense, limit */
    YIDDOLZA_ZONE_TEST = 17, /* k, sense, limit */
    YIDDOLZA_NOT = 18,
    YIDDOLZA_EITHER = 19,
    YIDDOLZA_BOTH = 20,
    YIDDOLZA_WINDOW = 21 /* first, last, share */
};

/* The senses of a test. */
enum { YIDDOLZA_AT_LEAST = 0, YIDDOLZA_AT_MOST = 1 };

/* The layers that refuse. */
enum {
    YIDDOLZA_NO_LAYER = 0,
    YIDDOLZA_RULE = 1,
    YIDDOLZA_RECORD = 2,
    YIDDOLZA_LOG = 3,
    YIDDOLZA_WATCH = 4,
    YIDDOLZA_SHEET = 5
};

/* One entry of a rule; it follows the formulas that it takes. Fields that its kind does not have are not looked at. */
struct yiddolza_entry {
    uint8_t kind;
    uint8_t head;
    uint8_t k;
    uint8_t sense;
    int32_t limit;
    uint16_t first;
    uint16_t last;
    uint16_t share;
};

/* Why a call is refused: the ground's number, 0 where it is not, and the layer that refuses. Of entry, head and poll those
 * are set that the place at fault names; the others are 0. */
struct yiddolza_refusal {
    uint32_t number;
    uint32_t layer;
    size_t entry;
    uint32_t head;
    uint32_t poll;
};

/* The cells that a rule needs, and how many polls past its own it looks; 0 where the rule is refused. */
struct yiddolza_need {
    struct yiddolza_refusal refusal;
    size_t cells;
    uint32_t horizon;
};

/* The margin at a poll, or the verdict: 1 is yes and -1 is no; 0 where the survey is refused. */
struct yiddolza_count_survey {
    struct yiddolza_refusal refusal;
    int32_t margin;
};

/* The margin at a poll in percent per metre; 0 where the survey is refused. */
struct yiddolza_obscuration_survey {
    struct yiddolza_refusal refusal;
    float margin;
};

/* What a play comes to: the rows that it took, the refusal that stopped it, and the margins that it wrote: the margin of
 * poll i at place i, for each poll that has all its rows, as far as the list goes. The places behind them stay. */
struct yiddolza_play {
    struct yiddolza_refusal refusal;
    uint32_t rows;
    size_t margins;
};

/* In each call a rule is its list of entries, and its zone the set of the heads whose bits are set. A grid is heads x polls
 * readings, poll by poll, and within a poll head by head. What the cells hold before is free; those behind the need stay,
 * and so do all cells where a survey is refused or a play takes no row. */

struct yiddolza_need yiddolza_need(const struct yiddolza_entry *entries, size_t entry_count, uint64_t zone);

struct yiddolza_count_survey yiddolza_survey_counts(
    const struct yiddolza_entry *entries, size_t entry_count, uint64_t zone, uint32_t heads, uint32_t polls,
    const int32_t *readings, size_t reading_count, uint32_t poll, int32_t *cells, size_t cell_count);

struct yiddolza_obscuration_survey yiddolza_survey_obscuration(
    const struct yiddolza_entry *entries, size_t entry_count, uint64_t zone, uint32_t heads, uint32_t polls,
    const float *readings, size_t reading_count, uint32_t poll, int32_t *cells, size_t cell_count);

struct yiddolza_count_survey yiddolza_survey_count_verdict(
    const struct yiddolza_entry *entries, size_t entry_count, uint64_t zone, uint32_t heads, uint32_t polls,
    const int32_t *readings, size_t reading_count, uint32_t poll, int32_t *cells, size_t cell_count);

struct yiddolza_count_survey yiddolza_survey_obscuration_verdict(
    const struct yiddolza_entry *entries, size_t entry_count, uint64_t zone, uint32_t heads, uint32_t polls,
    const float *readings, size_t reading_count, uint32_t poll, int32_t *cells, size_t cell_count);

struct yiddolza_play yiddolza_play_counts(
    const struct yiddolza_entry *entries, size_t entry_count, uint64_t zone, uint32_t heads, uint32_t polls,
    const int32_t *readings, size_t reading_count, int32_t *cells, size_t cell_count, int32_t *margins,
    size_t margin_count);

struct yiddolza_play yiddolza_play_obscuration(
    const struct yiddolza_entry *entries, size_t entry_count, uint64_t zone, uint32_t heads, uint32_t polls,
    const float *readings, size_t reading_count, int32_t *cells, size_t cell_count, float *margins,
    size_t margin_count);

struct yiddolza_play yiddolza_play_count_verdicts(
    const struct yiddolza_entry *entries, size_t entry_count, uint64_t zone, uint32_t heads, uint32_t polls,
    const int32_t *readings, size_t reading_count, int32_t *cells, size_t cell_count, int32_t *verdicts,
    size_t verdict_count);

struct yiddolza_play yiddolza_play_obscuration_verdicts(
    const struct yiddolza_entry *entries, size_t entry_count, uint64_t zone, uint32_t heads, uint32_t polls,
    const float *readings, size_t reading_count, int32_t *cells, size_t cell_count, int32_t *verdicts,
    size_t verdict_count);

#ifdef __cplusplus
}
#endif

#endif
