/* Declarations for a C program that links crates/tankpost/out/libtankpost.a (made by `rt lib` in crates/tankpost, x86-64).
   The structs are those of crates/flow, head, sender, codes and tankpost, field by field. */
#ifndef TANKPOST_H
#define TANKPOST_H

#include <stddef.h>
#include <stdint.h>

#ifdef __cplusplus
extern "C" {
#endif

#define TANKPOST_DIMS 2
#define TANKPOST_CAUSES 3
#define TANKPOST_BUCKETS 768
#define TANKPOST_OFFSETS 65

/* The verdict of a judgement; none where it was refused. */
#define TANKPOST_VERDICT_NONE 0
#define TANKPOST_VERDICT_ADMITTED 1
#define TANKPOST_VERDICT_OVER_SHARE 2
#define TANKPOST_VERDICT_RELAY_RATE 3

/* The rule that decided it: none where it was refused; admitted, or the first that lacked, within the level or over it. */
#define TANKPOST_RULE_NONE 0
#define TANKPOST_RULE_ADMITTED 1
#define TANKPOST_RULE_CREDIT_WITHIN 2
#define TANKPOST_RULE_CREDIT_OVER 3
#define TANKPOST_RULE_TOKENS_WITHIN 4
#define TANKPOST_RULE_TOKENS_OVER 5
#define TANKPOST_RULE_RESERVE 6

/* The dimension that lacked, by which tankpost_level and tankpost_rate are asked too; none where nothing lacked. */
#define TANKPOST_DIM_RECEPTIONS 0
#define TANKPOST_DIM_BYTES 1
#define TANKPOST_DIM_NONE UINT64_MAX

struct tankpost_bucket {
    double tokens, burst, rate_per_ms;
};

struct tankpost_use {
    double attempted[TANKPOST_DIMS], credit[TANKPOST_DIMS];
    uint64_t at_ms;
    uint64_t fresh; /* any but 0: nothing was judged yet */
};

struct tankpost_flow {
    uint64_t rate[TANKPOST_DIMS], ceiling[TANKPOST_DIMS];
    struct tankpost_bucket buckets[TANKPOST_DIMS];
    uint64_t at_ms;
    double admitted[TANKPOST_DIMS];
};

struct tankpost_scan {
    size_t remaining, next;
    uint64_t at_ms, began_ms;
    double trim[TANKPOST_DIMS], open[TANKPOST_DIMS];
    uint64_t read_ms;
    double read_admitted[TANKPOST_DIMS];
};

/* The head. Before a start it may be all zeros. */
struct tankpost_head {
    struct tankpost_flow flow;
    struct tankpost_use overflow;
    struct tankpost_scan scan;
    uint64_t visits;
    double level[TANKPOST_DIMS];
    uint64_t batches[TANKPOST_CAUSES], receptions[TANKPOST_CAUSES];
    size_t tracked, counted, unit_room, counted_room;
};

/* A unit: kind 0 a key (big-endian words), 1 a V4 group and 2 a V6 group (prefix in a), 3 no address, 4 overflow. */
struct tankpost_unit {
    uint64_t kind, a, b, c, d;
};

/* What a start, a cut or a call of new rates answers: 0, or the number of the refusal. */
struct tankpost_answered {
    uint64_t answer;
    struct tankpost_head head;
};

/* What a judgement answers. refusal: 0, or the number of the question answered no. want_or_mark: the want of an admitted
   batch, 0 on a relay that is not bounded; of the reserve, the mark required. part: of the reserve, the part of the burst
   that would have been left. A double that the rule does not have is 0. */
struct tankpost_decision {
    uint64_t refusal, verdict, rule, dim;
    double want_or_mark, part;
};

struct tankpost_judged {
    struct tankpost_decision decision;
    struct tankpost_head head;
};

/* The refusal's number and 0, or 0 and the value. */
struct tankpost_count {
    uint64_t refusal, value;
};

struct tankpost_level {
    uint64_t refusal;
    double value;
};

/* The records: a pointer and a count for each slice. There are as many tags as unit records and counted records together; as
   many slots and free slots as unit records. A start writes offsets, free slots and histogram, and no other memory. */
typedef uint32_t tankpost_offsets[TANKPOST_OFFSETS];
typedef uint64_t tankpost_unit_row[7];
typedef double tankpost_use_row[2 * TANKPOST_DIMS];
typedef uint64_t tankpost_counted_row[8];
typedef uint32_t tankpost_counts[TANKPOST_DIMS][TANKPOST_BUCKETS];
typedef double tankpost_sums[TANKPOST_DIMS][TANKPOST_BUCKETS];

struct tankpost_answered tankpost_start(
    struct tankpost_head head,
    uint16_t *tags, size_t tags_len,
    uint32_t *slots, size_t slots_len,
    tankpost_offsets *offsets,
    uint32_t *free_slots, size_t free_slots_len,
    tankpost_unit_row *units, size_t units_len,
    tankpost_use_row *uses, size_t uses_len,
    tankpost_counts *counts, tankpost_sums *sums,
    tankpost_counted_row *counted, size_t counted_len,
    const uint64_t rate[TANKPOST_DIMS], const uint64_t ceiling[TANKPOST_DIMS]);

/* The same start, lent as const what it does not write. */
struct tankpost_answered tankpost_start_const(
    struct tankpost_head head,
    const uint16_t *tags, size_t tags_len,
    const uint32_t *slots, size_t slots_len,
    tankpost_offsets *offsets,
    uint32_t *free_slots, size_t free_slots_len,
    const tankpost_unit_row *units, size_t units_len,
    const tankpost_use_row *uses, size_t uses_len,
    tankpost_counts *counts, tankpost_sums *sums,
    const tankpost_counted_row *counted, size_t counted_len,
    const uint64_t rate[TANKPOST_DIMS], const uint64_t ceiling[TANKPOST_DIMS]);

struct tankpost_judged tankpost_judge(
    struct tankpost_head head,
    uint16_t *tags, size_t tags_len,
    uint32_t *slots, size_t slots_len,
    tankpost_offsets *offsets,
    uint32_t *free_slots, size_t free_slots_len,
    tankpost_unit_row *units, size_t units_len,
    tankpost_use_row *uses, size_t uses_len,
    tankpost_counts *counts, tankpost_sums *sums,
    tankpost_counted_row *counted, size_t counted_len,
    struct tankpost_unit unit, const uint64_t cost[TANKPOST_DIMS], uint64_t stamp);

/* cause: 0 receiver-ceiling, 1 over-share, any other relay-rate */
struct tankpost_answered tankpost_cut(
    struct tankpost_head head,
    uint16_t *tags, size_t tags_len,
    uint32_t *slots, size_t slots_len,
    tankpost_offsets *offsets,
    uint32_t *free_slots, size_t free_slots_len,
    tankpost_unit_row *units, size_t units_len,
    tankpost_use_row *uses, size_t uses_len,
    tankpost_counted_row *counted, size_t counted_len,
    struct tankpost_unit unit, uint64_t cause, const uint64_t cost[TANKPOST_DIMS]);

/* New rates and a new ceiling for a running relay. No lent memory is written. */
struct tankpost_answered tankpost_set_rates(
    struct tankpost_head head,
    const uint16_t *tags, size_t tags_len,
    const uint32_t *slots, size_t slots_len,
    const tankpost_offsets *offsets,
    const uint32_t *free_slots, size_t free_slots_len,
    const tankpost_unit_row *units, size_t units_len,
    const tankpost_use_row *uses, size_t uses_len,
    const tankpost_counted_row *counted, size_t counted_len,
    const uint64_t rate[TANKPOST_DIMS], const uint64_t ceiling[TANKPOST_DIMS], uint64_t stamp);

/* The value is the number of bytes written to the front of out. */
struct tankpost_count tankpost_report(
    struct tankpost_head head,
    const uint16_t *tags, size_t tags_len,
    const uint32_t *slots, size_t slots_len,
    const tankpost_offsets *offsets,
    const uint32_t *free_slots, size_t free_slots_len,
    const tankpost_unit_row *units, size_t units_len,
    const tankpost_use_row *uses, size_t uses_len,
    const tankpost_counted_row *counted, size_t counted_len,
    uint8_t *out, size_t out_len);

uint64_t tankpost_report_refusal(
    struct tankpost_head head,
    const uint16_t *tags, size_t tags_len,
    const uint32_t *slots, size_t slots_len,
    const tankpost_offsets *offsets,
    const uint32_t *free_slots, size_t free_slots_len,
    const tankpost_unit_row *units, size_t units_len,
    const tankpost_use_row *uses, size_t uses_len,
    const tankpost_counted_row *counted, size_t counted_len,
    const uint8_t *out, size_t out_len);

/* The readings: question 3 asks the offsets beside the head. */
struct tankpost_count tankpost_visited(struct tankpost_head head, const tankpost_offsets *offsets);
struct tankpost_count tankpost_cut_batches(struct tankpost_head head, const tankpost_offsets *offsets, uint64_t cause);
/* dim: 0 receptions, any other bytes; an unbounded relay's rate reads UINT64_MAX; a bounded relay reads 1 */
struct tankpost_level tankpost_level(struct tankpost_head head, const tankpost_offsets *offsets, uint64_t dim);
struct tankpost_count tankpost_rate(struct tankpost_head head, const tankpost_offsets *offsets, uint64_t dim);
struct tankpost_count tankpost_is_bounded(struct tankpost_head head, const tankpost_offsets *offsets);

#ifdef __cplusplus
}
#endif

#endif
