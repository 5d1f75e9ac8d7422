#include "tally.h"

#include <inttypes.h>
#include <stdio.h>

enum { REFUSALS = 10 };

static uint64_t tally[FUNCTIONS][REFUSALS];
static uint64_t points[REFUSALS];

static void count_points(const struct call *call) {
    static uint8_t result[MOST_ROOM];
    size_t written = (size_t)answer_of(&INDEPENDENT, call, call->given, result).value[0];
    for (size_t at = RESULT_START; at < written; at += RESULT_LENGTH) points[result[at]]++;
}

void count_call(const struct call *call, struct answer answer) {
    uint32_t refusal = answer.refusal;
    if (call->function >= FIRST && call->function <= THIRD) {
        refusal = independent_refusal(call->number[0], call->number[1], call->number[2]);
    }
    tally[call->function][refusal]++;
    if (call->function == SHEET && refusal == 0) count_points(call);
}

static uint64_t print_row(const char *name, const uint64_t counts[REFUSALS]) {
    uint64_t cases = 0;
    for (int i = 0; i < REFUSALS; i++) cases += counts[i];
    printf("%-16s%9" PRIu64, name, cases);
    for (int i = 0; i < REFUSALS; i++) printf("%9" PRIu64, counts[i]);
    printf("\n");
    return cases;
}

void print_tally(void) {
    uint64_t sum = 0;
    printf("%-16s%9s%9s", "function", "cases", "answered");
    for (int i = 1; i < REFUSALS; i++) printf("%9d", i);
    printf("\n");
    for (enum function function = SHIFT; function < FUNCTIONS; function++) sum += print_row(KINDS[function].name, tally[function]);
    print_row("points of sheets", points);
    printf("%" PRIu64 " cases\n", sum);
}

static bool is_reached(enum function function) {
    bool is_all = tally[function][0] > 0;
    for (const char *refusal = KINDS[function].refusals; *refusal != 0; refusal++) is_all &= tally[function][*refusal - '0'] > 0;
    if (!is_all) printf("%s: an answer or a refusal (of %s) was not reached\n", KINDS[function].name, KINDS[function].refusals);
    return is_all;
}

bool is_all_reached(void) {
    bool is_all = points[0] > 0 && points[3] > 0 && points[6] > 0;
    if (!is_all) printf("points of sheets: an answer or a refusal (of 36) was not reached\n");
    for (enum function function = SHIFT; function < FUNCTIONS; function++) is_all &= is_reached(function);
    return is_all;
}
