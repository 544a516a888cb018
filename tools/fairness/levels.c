/* Runs a list of the trial's language through the linked calls and says, for each judgement of one sender, what the trial does
   not show: the want against the level is decided by the level in force, the fill by that and the rate.
   usage: levels LABEL < LIST; LIST has R lines, and J lines of v4 groups and of no-address.
   Prints for each J line of LABEL: stamp, readings, verdict, level in force (receptions). */
#include <inttypes.h>
#include <stdio.h>
#include <string.h>

#include "tankpost.h"

enum { UNITS = 256, COUNTED = 65 };

static struct tankpost_head head;
static uint16_t tags[UNITS + COUNTED];
static uint32_t slots[UNITS];
static tankpost_offsets offsets;
static uint32_t free_slots[UNITS];
static tankpost_unit_row units[UNITS];
static tankpost_use_row uses[UNITS];
static tankpost_counts counts;
static tankpost_sums sums;
static tankpost_counted_row counted[COUNTED];

static int start(const uint64_t rate[2], const uint64_t ceiling[2]) {
    struct tankpost_answered a =
        tankpost_start_const(head, tags, UNITS + COUNTED, slots, UNITS, &offsets, free_slots, UNITS,
                             (const tankpost_unit_row *)units, UNITS, (const tankpost_use_row *)uses, UNITS, &counts, &sums,
                             (const tankpost_counted_row *)counted, COUNTED, rate, ceiling);
    head = a.head;
    return (int)a.answer;
}

static int judge(struct tankpost_unit unit, const uint64_t cost[2], uint64_t stamp) {
    struct tankpost_judged j =
        tankpost_judge(head, tags, UNITS + COUNTED, slots, UNITS, &offsets, free_slots, UNITS, units, UNITS, uses, UNITS,
                       &counts, &sums, counted, COUNTED, unit, cost, stamp);
    head = j.head;
    return (int)j.decision.verdict;
}

static struct tankpost_unit unit_of(const char *label) {
    struct tankpost_unit u = {.kind = 3};
    unsigned high, low;
    if (sscanf(label, "v4:%u.%u.0.0/16", &high, &low) == 2) {
        u.kind = 1;
        u.a = 256 * high + low;
    }
    return u;
}

int main(int argc, char **argv) {
    char line[256], label[128];
    uint64_t a[2], b[2], stamp;
    while (argc == 2 && fgets(line, sizeof line, stdin)) {
        if (sscanf(line, "R %" SCNu64 " %" SCNu64 " %" SCNu64 " %" SCNu64, &a[0], &a[1], &b[0], &b[1]) == 4) {
            if (start(a, b)) return 1;
        } else if (sscanf(line, "J %127s %" SCNu64 " %" SCNu64 " %" SCNu64, label, &a[0], &a[1], &stamp) == 4) {
            const double level = tankpost_level(head, (const tankpost_offsets *)&offsets, 0).value;
            const int answer = judge(unit_of(label), a, stamp);
            if (!strcmp(label, argv[1])) printf("%" PRIu64 " %" PRIu64 " %d %.17g\n", stamp, a[0], answer, level);
        }
    }
    return argc != 2;
}
