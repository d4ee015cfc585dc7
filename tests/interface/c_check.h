/* What the C tests share. Each is a program of its own. */
#ifndef C_CHECK_H
#define C_CHECK_H

#include "runglaet.h"

#include <stddef.h>
#include <stdio.h>
#include <string.h>

static int asked = 0, failures = 0;

/* The movement rule of the calls that follow. */
static uint64_t rule = 1;

static void expect(const char *what, int holds) {
    asked++;
    if (!holds) {
        printf("wrong, rule %llu: %s\n", (unsigned long long)rule, what);
        failures++;
    }
}

static int says(runglaet_answer answer, uint32_t number, uint64_t second) {
    return answer.number == number && answer.second == second;
}

static int counts(runglaet_size answer, uint32_t number, uint64_t second, uint64_t clauses) {
    return answer.number == number && answer.second == second && answer.clauses == clauses;
}

/* Do both size calls refuse the instance so? */
static inline int unsized(const uint8_t *instance, size_t length, uint64_t horizon, uint32_t number, uint64_t second) {
    return counts(runglaet_formula_size(instance, length, horizon, rule), number, second, 0) &&
           counts(runglaet_pruned_size(instance, length, horizon, rule), number, second, 0);
}

/* The formula's and the pruned formula's. */
typedef runglaet_answer writer(const uint8_t *, size_t, uint64_t, uint64_t, int32_t *, size_t);
static writer *const writers[2] = {runglaet_write_formula, runglaet_write_pruned};

static const uint8_t pair[8] = {2, 1, 1, 0, 0, 1, 0, 1};

/* What a program says at its end, and its status. */
static int finished(const char *program) {
    printf("%s: %d answers, %d wrong\n", program, asked, failures);
    return failures != 0;
}

#define PLAN(...) (const uint8_t[]){__VA_ARGS__}
#define BYTES(...) (const uint8_t[]){__VA_ARGS__}
#define FLOOR(what, number, second, ...) \
    expect("floor, " what, says(runglaet_floor(BYTES(__VA_ARGS__), sizeof BYTES(__VA_ARGS__)), number, second))

#endif
