/* Counts of calls per kind and refusal. */
#include "call.h"

#include <inttypes.h>
#include <stdio.h>

enum { SIZES = 32 };

static uint64_t made[KINDS][REFUSALS];

/* By verdict; none is 0. */
enum { VERDICTS = EZK_WRONG_BYTE + 1 };

static uint64_t judged[VERDICTS];

/*
 * The archive is a plain object without coverage. libFuzzer takes these counters as
 * coverage instead: which answer each call gave, and how long or at which place, by
 * powers of two.
 */
__attribute__((
    section("__libfuzzer_extra_counters"))) static uint8_t reached[KINDS][REFUSALS][2][SIZES];

/* The same for what is said of plans. */
__attribute__((
    section("__libfuzzer_extra_counters"))) static uint8_t reached_verdict[VERDICTS][SIZES];

static unsigned power_of_two(uint64_t n)
{
    unsigned bits = 0;
    for (; n; n >>= 1)
        bits++;
    return bits < SIZES ? bits : SIZES - 1;
}

static void tally_verdict(uint64_t verdict, uint64_t at)
{
    if (verdict >= VERDICTS)
        return;
    judged[verdict]++;
    reached_verdict[verdict][power_of_two(at)] = 1;
}

void tally(enum kind kind, const answer *a)
{
    made[kind][a->refusal]++;
    uint8_t(*sizes)[SIZES] = reached[kind][a->refusal];
    sizes[0][power_of_two(a->refusal ? a->place : a->value[0])] = 1;
    sizes[1][power_of_two(a->value[1])] = 1;
    if (kind == JUDGE_PLAN && !a->refusal)
        tally_verdict(a->value[0], a->value[1]);
}

void print_tally(void)
{
    uint64_t all = 0;
    printf("%-18s%10s", "call", "answered");
    for (int refusal = 1; refusal < REFUSALS; refusal++)
        printf("%9d", refusal);
    for (int kind = 0; kind < KINDS; kind++) {
        printf("\n%-18s%10" PRIu64, name(kind), made[kind][0]);
        for (int refusal = 1; refusal < REFUSALS; refusal++)
            printf("%9" PRIu64, made[kind][refusal]);
    }
    printf("\nplans accepted %" PRIu64 ", with a wrong piece %" PRIu64 ", a wrong byte %" PRIu64,
           judged[EZK_ACCEPTED], judged[EZK_WRONG_PIECE], judged[EZK_WRONG_BYTE]);
    printf("\ncalls made:");
    for (int kind = 0; kind < KINDS; kind++) {
        uint64_t calls = 0;
        for (int refusal = 0; refusal < REFUSALS; refusal++)
            calls += made[kind][refusal];
        all += calls;
        printf(" %s %" PRIu64 ",", name(kind), calls);
    }
    printf(" together %" PRIu64 "\n", all);
}
