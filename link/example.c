/* Three examples through the linked calls: of docs/SPECIFICATION.md, of docs/FAIRNESS.md (After a cut), and of new rates while
   running. Prints the number that a start, a cut or a call of new rates answers, the verdict of a judgement and the rule that decided it, then the report. */
#include <inttypes.h>
#include <stdio.h>

#include "tankpost.h"

enum { UNITS = 256, COUNTED = 65 };

static struct tankpost_head head;
static uint16_t tags[UNITS + COUNTED];
static uint32_t slots[UNITS];
static tankpost_offsets offsets;
static uint32_t free_slots[UNITS];
static tankpost_unit_row units[UNITS];
static tankpost_use_row uses[UNITS];
static tankpost_counts counts;
static tankpost_sums sums;
static tankpost_counted_row counted[COUNTED];

static const struct tankpost_unit no_address = {.kind = 3};

static const char *const verdicts[] = {"refused", "admitted", "over share", "relay rate"};
static const char *const rules[] = {"none", "admitted", "credit, within the level", "credit, over the level",
                                    "tokens, within the level", "tokens, over the level", "reserve"};

static void answered(struct tankpost_answered a) {
    head = a.head;
    printf("%" PRIu64 "\n", a.answer);
}

static void judged(struct tankpost_judged j) {
    const struct tankpost_decision d = j.decision;
    head = j.head;
    if (d.refusal != 0) {
        printf("refused %" PRIu64 "\n", d.refusal);
        return;
    }
    printf("%s: %s", verdicts[d.verdict], rules[d.rule]);
    if (d.dim != TANKPOST_DIM_NONE) printf(", %s", d.dim == TANKPOST_DIM_RECEPTIONS ? "receptions" : "bytes");
    if (d.rule == TANKPOST_RULE_ADMITTED) printf(", want %g", d.want_or_mark);
    if (d.rule == TANKPOST_RULE_RESERVE) printf(", mark %.5f, part %.5f", d.want_or_mark, d.part);
    printf("\n");
}

static void start(uint64_t ceiling_of_receptions) {
    const uint64_t rate[] = {10, 1000}, ceiling[] = {ceiling_of_receptions, 0};
    answered(tankpost_start_const(head, tags, UNITS + COUNTED, slots, UNITS, &offsets, free_slots, UNITS,
                                  (const tankpost_unit_row *)units, UNITS, (const tankpost_use_row *)uses, UNITS, &counts, &sums,
                                  (const tankpost_counted_row *)counted, COUNTED, rate, ceiling));
}

static void judge(struct tankpost_unit unit, uint64_t receptions, uint64_t bytes, uint64_t stamp) {
    const uint64_t cost[] = {receptions, bytes};
    judged(tankpost_judge(head, tags, UNITS + COUNTED, slots, UNITS, &offsets, free_slots, UNITS, units, UNITS, uses, UNITS,
                          &counts, &sums, counted, COUNTED, unit, cost, stamp));
}

static void cut(struct tankpost_unit unit, uint64_t cause, uint64_t receptions, uint64_t bytes) {
    const uint64_t cost[] = {receptions, bytes};
    answered(tankpost_cut(head, tags, UNITS + COUNTED, slots, UNITS, &offsets, free_slots, UNITS, units, UNITS, uses, UNITS, counted,
                          COUNTED, unit, cause, cost));
}

static void set_rates(uint64_t receptions_per_s, uint64_t bytes_per_s, uint64_t stamp) {
    const uint64_t rate[] = {receptions_per_s, bytes_per_s}, ceiling[] = {0, 0};
    answered(tankpost_set_rates(head, tags, UNITS + COUNTED, slots, UNITS, (const tankpost_offsets *)&offsets, free_slots, UNITS,
                                (const tankpost_unit_row *)units, UNITS, (const tankpost_use_row *)uses, UNITS,
                                (const tankpost_counted_row *)counted, COUNTED, rate, ceiling, stamp));
}

static uint64_t report(void) {
    uint8_t out[4096];
    struct tankpost_count written = tankpost_report(head, tags, UNITS + COUNTED, slots, UNITS, (const tankpost_offsets *)&offsets,
                                                    free_slots, UNITS, (const tankpost_unit_row *)units, UNITS,
                                                    (const tankpost_use_row *)uses, UNITS, (const tankpost_counted_row *)counted,
                                                    COUNTED, out, sizeof out);
    fwrite(out, 1, written.value, stdout);
    return written.refusal;
}

int main(void) {
    const struct tankpost_unit first = {.kind = 1, .a = 0x0a01}, second = {.kind = 1, .a = 0x0a02}, dairy = {.kind = 1, .a = 0x0a03};
    start(0);
    judge(no_address, 5, 100, 1000);
    judge(no_address, 6, 0, 1000);
    judge(no_address, 30, 0, 1000);
    cut(no_address, 0, 5, 100);
    const uint64_t refusal = report();

    start(100);
    judge(first, 35, 100, 1000);
    judge(second, 32, 100, 1000);
    judge(dairy, 30, 100, 1000);
    judge(dairy, 20, 100, 1000);
    judge(dairy, 30, 100, 1000);

    /* The first takes all 10 tokens of readings. Half a second later there are 5, which the new rate leaves as they are; a tenth of a
       second after that there are 100 more. */
    start(0);
    judge(first, 10, 100, 1000);
    set_rates(1000, 100000, 1500);
    judge(second, 6, 100, 1500);
    judge(second, 5, 100, 1500);
    judge(second, 10, 100, 1600);
    return (int)refusal;
}
