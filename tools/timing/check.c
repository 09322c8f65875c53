/*
 * Times ezk_check of two archives in one run: the other's call is named before_ezk_check. A line for each order of ids and number of records: nanoseconds a
 * call of the other archive and of this one, and their ratio. Each is the median of rounds in which the two take turns.
 */
#include "ezumokarin.h"

#include <stdint.h>
#include <stdio.h>
#include <stdlib.h>
#include <time.h>

enum { ROUNDS = 41, LONGEST = 2000 };

ezk_answer before_ezk_check(const uint8_t *list, size_t list_len);

/* splitmix64 */
static uint64_t any(uint64_t *seed)
{
    uint64_t z = *seed += 0x9e3779b97f4a7c15;
    z = (z ^ (z >> 30)) * 0xbf58476d1ce4e5b9;
    z = (z ^ (z >> 27)) * 0x94d049bb133111eb;
    return z ^ (z >> 31);
}

static const char *const orders[] = {"rising",        "rising but for the first", "repeated",        "random",
                                     "falling",       "alike in 12 bits",         "alike in 52 bits", "alike in 53 bits"};
enum { ORDERS = sizeof orders / sizeof *orders };

/* The last three are hostile: all searches for these ids begin alike. */
static uint64_t id(int order, uint64_t i, uint64_t n, uint64_t *seed)
{
    uint64_t mixed = 1 + i * 7919 % n;
    switch (order) {
    case 0:
        return 1000000 + i;
    case 1:
        return 1000000 + (i + n - 1) % n;
    case 2:
        return 1000000 + any(seed) % (n / 3 + 1);
    case 3:
        return any(seed) | 1;
    case 4:
        return 1000000 - i;
    default:
        return mixed << (order == 5 ? 12 : order == 6 ? 52 : 53);
    }
}

static uint8_t *put(uint8_t *to, uint64_t number, int width)
{
    for (int i = width; i-- > 0; number >>= 8)
        to[i] = (uint8_t)number;
    return to + width;
}

static void fill(uint8_t *list, int order, uint64_t n)
{
    uint64_t seed = n;
    for (uint64_t i = 0; i < n; i++) {
        list = put(put(list, i, 4), id(order, i, n, &seed), 8);
        list = put(put(put(list, 9, 4), 0, 4), 9, 4);
    }
}

static double nanoseconds(ezk_answer (*check)(const uint8_t *, size_t), const uint8_t *list, size_t n)
{
    struct timespec from, to;
    size_t calls = 40000 / n + 20;
    clock_gettime(CLOCK_THREAD_CPUTIME_ID, &from);
    for (size_t i = 0; i < calls; i++)
        if (check(list, n * EZK_RECORD).count != n)
            exit(1);
    clock_gettime(CLOCK_THREAD_CPUTIME_ID, &to);
    return ((double)(to.tv_sec - from.tv_sec) * 1e9 + (double)(to.tv_nsec - from.tv_nsec)) / (double)calls;
}

static int by_size(const void *a, const void *b)
{
    double x = *(const double *)a, y = *(const double *)b;
    return (x > y) - (x < y);
}

int main(void)
{
    static uint8_t list[LONGEST * EZK_RECORD];
    const size_t lengths[] = {1, 2, 4, 6, 8, 10, 16, 17, 50, 200, LONGEST};
    for (size_t k = 0; k < sizeof lengths / sizeof *lengths; k++)
        for (int order = 0; order < ORDERS; order++) {
            double before[ROUNDS], after[ROUNDS];
            fill(list, order, lengths[k]);
            for (int round = 0; round < ROUNDS; round++) {
                before[round] = nanoseconds(before_ezk_check, list, lengths[k]);
                after[round] = nanoseconds(ezk_check, list, lengths[k]);
            }
            qsort(before, ROUNDS, sizeof *before, by_size);
            qsort(after, ROUNDS, sizeof *after, by_size);
            double one = before[ROUNDS / 2], other = after[ROUNDS / 2];
            printf("%4zu records, ids %-24s %10.1f ns %10.1f ns  %5.2f\n", lengths[k], orders[order], one, other, other / one);
        }
    return 0;
}
