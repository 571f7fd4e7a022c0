/* A window 0 to 3, share 500, of head 0 at least 8, surveyed and played from C on counts and on obscuration; and verdicts. */
#include <stdio.h>

#include "yiddolza.h"

#define HEADS 1
#define POLLS 8
#define NEED 12
#define COUNT(list) (sizeof(list) / sizeof *(list))

static const int32_t counts[POLLS] = {5, 9, 12, 7, 10, 3, 8, 11};
static const float obscuration[POLLS] = {0.5f, 1.25f, 2.0f, 0.75f, 1.5f, 0.25f, 1.0f, 1.75f};

static void tell(const char *what, struct yiddolza_refusal why)
{
    if (why.number == 0)
        printf("%s: ", what);
    else
        printf("%s: refused by %u, layer %u, entry %zu, head %u, poll %u; ", what, (unsigned)why.number,
               (unsigned)why.layer, why.entry, (unsigned)why.head, (unsigned)why.poll);
}

static void on_counts(const struct yiddolza_entry *entries, size_t count)
{
    int32_t cells[NEED + 1] = {0}, margins[POLLS] = {0};
    cells[NEED] = 77;
    struct yiddolza_need need = yiddolza_need(entries, count, 1);
    tell("need", need.refusal);
    printf("%zu cells, horizon %u\n", need.cells, (unsigned)need.horizon);
    for (uint32_t poll = 4; poll <= 5; poll++) {
        struct yiddolza_count_survey s =
            yiddolza_survey_counts(entries, count, 1, HEADS, POLLS, counts, POLLS, poll, cells, NEED + 1);
        tell("survey", s.refusal);
        printf("margin %d\n", (int)s.margin);
    }
    struct yiddolza_play p =
        yiddolza_play_counts(entries, count, 1, HEADS, POLLS, counts, POLLS, cells, NEED, margins, POLLS);
    tell("play", p.refusal);
    printf("%u rows, margins", (unsigned)p.rows);
    for (size_t i = 0; i < p.margins; i++)
        printf(" %d", (int)margins[i]);
    p = yiddolza_play_count_verdicts(entries, count, 1, HEADS, POLLS, counts, POLLS, cells, NEED, margins, 2);
    printf("\nverdicts");
    for (size_t i = 0; i < p.margins; i++)
        printf(" %d", (int)margins[i]);
    printf("\ncell behind the need: %d\n", (int)cells[NEED]);
}

static void on_obscuration(const struct yiddolza_entry *entries, size_t count)
{
    int32_t cells[NEED] = {INT32_MIN, INT32_MAX};
    float margins[POLLS] = {0};
    struct yiddolza_obscuration_survey s =
        yiddolza_survey_obscuration(entries, count, 1, HEADS, POLLS, obscuration, POLLS, 0, cells, NEED);
    tell("survey", s.refusal);
    printf("margin %g\n", (double)s.margin);
    struct yiddolza_play p =
        yiddolza_play_obscuration(entries, count, 1, HEADS, POLLS, obscuration, POLLS, cells, NEED, margins, POLLS);
    tell("play", p.refusal);
    printf("%u rows, margins", (unsigned)p.rows);
    for (size_t i = 0; i < p.margins; i++)
        printf(" %g", (double)margins[i]);
    printf("\n");
}

/* Whether a head, and the one head of a zone, is at most a limit. */
static void on_verdicts(void)
{
    const struct yiddolza_entry low = {.kind = YIDDOLZA_HEAD_TEST, .head = 0, .sense = YIDDOLZA_AT_MOST, .limit = 8};
    const struct yiddolza_entry clear = {.kind = YIDDOLZA_ZONE_TEST, .k = 1, .sense = YIDDOLZA_AT_MOST, .limit = 256};
    int32_t cells[2] = {-1, 1}, list[POLLS] = {0};
    for (uint32_t poll = 0; poll <= 1; poll++) {
        struct yiddolza_count_survey s =
            yiddolza_survey_count_verdict(&low, 1, 1, HEADS, POLLS, counts, POLLS, poll, cells, COUNT(cells));
        tell("verdict on counts", s.refusal);
        printf("%d\n", (int)s.margin);
        s = yiddolza_survey_obscuration_verdict(&clear, 1, 1, HEADS, POLLS, obscuration, POLLS, poll, cells, COUNT(cells));
        tell("verdict on obscuration", s.refusal);
        printf("%d\n", (int)s.margin);
    }
    struct yiddolza_play p = yiddolza_play_obscuration_verdicts(&clear, 1, 1, HEADS, POLLS, obscuration, POLLS, cells,
                                                                COUNT(cells), list, POLLS);
    tell("play", p.refusal);
    printf("%u rows, verdicts", (unsigned)p.rows);
    for (size_t i = 0; i < p.margins; i++)
        printf(" %d", (int)list[i]);
    printf("\n");
}

static void refusals(const struct yiddolza_entry *entries, size_t count)
{
    static const int32_t bad[POLLS] = {5, 9, 65536, 7, 10, 3, 8, 11};
    int32_t cells[NEED] = {0};
    tell("no entries", yiddolza_need(NULL, 0, 1).refusal);
    printf("\n");
    tell("head outside the zone", yiddolza_need(entries, count, 2).refusal);
    printf("\n");
    tell("readings missing",
         yiddolza_survey_counts(entries, count, 1, HEADS, POLLS, NULL, 0, 0, cells, NEED).refusal);
    printf("\n");
    struct yiddolza_play p =
        yiddolza_play_counts(entries, count, 1, HEADS, POLLS, counts, POLLS, cells, NEED - 1, NULL, 0);
    tell("a cell too few", p.refusal);
    printf("%u rows\n", (unsigned)p.rows);
    p = yiddolza_play_counts(entries, count, 1, HEADS, POLLS, bad, POLLS, cells, NEED, NULL, 0);
    tell("unlawful", p.refusal);
    printf("%u rows\n", (unsigned)p.rows);
}

int main(void)
{
    const struct yiddolza_entry entries[] = {
        {.kind = YIDDOLZA_HEAD_TEST, .head = 0, .sense = YIDDOLZA_AT_LEAST, .limit = 8},
        {.kind = YIDDOLZA_WINDOW, .first = 0, .last = 3, .share = 500},
    };
    const struct yiddolza_entry smoke[] = {
        {.kind = YIDDOLZA_HEAD_TEST, .head = 0, .sense = YIDDOLZA_AT_LEAST, .limit = 256},
        {.kind = YIDDOLZA_WINDOW, .first = 0, .last = 3, .share = 500},
    };
    on_counts(entries, COUNT(entries));
    on_obscuration(smoke, COUNT(smoke));
    on_verdicts();
    refusals(entries, COUNT(entries));
    return 0;
}
