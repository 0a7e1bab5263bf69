#include "formula.h"
#include <stdio.h>
#include <stdlib.h>
#include <time.h>
#include <x86intrin.h>

static uint32_t vars, clauses, rounds;
static uint64_t clause_state = 123456789, choice_state = 88172645463325252ull;
static uint64_t ticks, begin, first_tick, longest, lost;
static struct timespec first_time;

static uint64_t next_random(uint64_t *state) {
    uint64_t x = *state;
    x ^= x << 13;
    x ^= x >> 7;
    x ^= x << 17;
    return *state = x;
}

static double seconds_of(struct timespec time) { return time.tv_sec + 1e-9 * time.tv_nsec; }

__attribute__((constructor)) static void read_sizes(void) {
    const char *sizes = getenv("KERNEL");
    if (sscanf(sizes ? sizes : "5000,36000,400", "%u,%u,%u", &vars, &clauses, &rounds) != 3 || vars < 8) {
        fprintf(stderr, "KERNEL=VARIABLES,CLAUSES,ROUNDS\n");
        exit(2);
    }
    longest = 500000 + 25 * (uint64_t)vars;
    clock_gettime(CLOCK_MONOTONIC, &first_time);
    first_tick = __rdtsc();
}

uint32_t kernel_vars(void) { return vars; }

uint32_t kernel_rounds(void) { return rounds; }

// Clauses of three to eight literals of different variables.
int32_t kernel_literal(void) {
    static int32_t clause[8];
    static uint32_t width, at, made;
    if (at < width)
        return clause[at++];
    uint32_t ended = width;
    width = at = 0;
    if (ended || made == clauses)
        return 0;
    made++;
    uint32_t wanted = 3 + (next_random(&clause_state) >> 20) % 6;
    while (width < wanted) {
        uint64_t number = next_random(&clause_state) >> 20;
        int32_t var = 1 + (int32_t)(number / 2 % vars);
        uint32_t same = 0;
        while (same < width && abs(clause[same]) != var)
            same++;
        if (same == width)
            clause[width++] = number % 2 ? -var : var;
    }
    return clause[at++];
}

uint32_t kernel_choice(void) { return (uint32_t)((next_random(&choice_state) >> 20) % (2 * (uint64_t)vars)); }

void kernel_start(void) { begin = __rdtsc(); }

// A call that takes some tenths of a millisecond was interrupted: it is left out, since on a busy machine the others would
// be nothing beside the time that the program waited.
void kernel_stop(void) {
    uint64_t spent = __rdtsc() - begin;
    if (spent <= longest)
        ticks += spent;
    else
        lost++;
}

void kernel_report(uint64_t values, uint64_t decisions, uint64_t conflicts) {
    struct timespec now;
    clock_gettime(CLOCK_MONOTONIC, &now);
    double tick = (seconds_of(now) - seconds_of(first_time)) / (double)(__rdtsc() - first_tick);
    printf("values %llu decisions %llu conflicts %llu seconds %.6f interrupted %llu\n", (unsigned long long)values,
           (unsigned long long)decisions, (unsigned long long)conflicts, ticks * tick, (unsigned long long)lost);
}
