/* How much stack the calls with a ceiling use, measured as in stack.c, on the largest instance with the highest ceiling and
 * with the lowest. What the ceiling adds is reckoned here from request S-12. */
#include "stack.h"

enum { HIGHEST = 128, INPUTS = M * K };

/* Variables, clauses and words at the highest ceiling under rule 2. */
enum { ALL_VARIABLES = 38275, ALL_CLAUSES = 16953636, ALL_WORDS = 84038444 };

static uint64_t ceiling = HIGHEST;
static uint8_t decoded[PLAN];
static int32_t words[ALL_WORDS], encoded[ALL_VARIABLES];

/* Clauses of rest and of the chain, the limit, and their words. */
static int64_t variables, clauses, all_words;

static int least(int x, int y) { return x < y ? x : y; }

/* Adds what counts so many inputs; gives the outputs. */
static int count(int inputs) {
    if (inputs == 1) return 1;
    int left = count(inputs / 2), right = count(inputs - inputs / 2), own = least(inputs, (int)ceiling + 1);
    variables += own;
    clauses += (left + 1) * (right + 1) - 1;
    all_words += 3 * (left + right) + 4 * left * right;
    return own;
}

static void count_all(void) {
    variables = VARIABLES + INPUTS;
    clauses = INPUTS * N + (M - 1) * K + 1 + (rule == 1 ? CLAUSES : CLOSING_CLAUSES);
    all_words = 4 * INPUTS * N + 3 * (M - 1) * K + 2 + (rule == 1 ? WORDS : CLOSING_WORDS);
    count(INPUTS);
}

/* Plans: all agents go to their goals in step 7 and wait before, which costs 128; in step 8, 144; or they stay, and the
 * goals are missed. And the valuation of the first, at the highest ceiling, and the same with the last output true, which
 * the last clause forbids. */
enum { COSTS_128, COSTS_144, STAYS, CEILING_PLANS };
static uint8_t waiting[CEILING_PLANS][PLAN];
enum { SATISFIES, LAST_FORBIDDEN, ENTRIES };
static int32_t entries[ENTRIES][ALL_VARIABLES];
static int next;

static void set(int32_t *to, int holds) {
    next++;
    to[next - 1] = holds ? next : -next;
}

/* Sets the outputs over the inputs from `from` on; busy are those of the first 8 times. */
static void set_outputs(int32_t *to, int from, int inputs) {
    if (inputs == 1) return;
    set_outputs(to, from, inputs / 2);
    set_outputs(to, from + inputs / 2, inputs - inputs / 2);
    int busy = least(from + inputs, 8 * K) - least(from, 8 * K);
    for (int i = 1; i <= least(inputs, HIGHEST + 1); i++) set(to, busy >= i);
}

static void fill_ceiling(void) {
    for (int t = 0; t < ROWS; t++)
        for (int a = 0; a < K; a++)
            for (int p = 0; p < CEILING_PLANS; p++) {
                int steps = p == COSTS_128 ? 8 : p == COSTS_144 ? 9 : ROWS;
                waiting[p][t * K + a] = (uint8_t)(t < steps ? a : N - 1 - a);
            }
    for (int which = 0; which < ENTRIES; which++) {
        next = 0;
        for (int i = 0; i < VARIABLES; i++) set(entries[which], waiting[COSTS_128][i / N % ROWS * K + i / N / ROWS] == i % N);
        for (int i = 0; i < INPUTS; i++) set(entries[which], i < 8 * K);
        set_outputs(entries[which], 0, INPUTS);
    }
    entries[LAST_FORBIDDEN][ALL_VARIABLES - 1] = ALL_VARIABLES;
}

/* Texts of the valuation: right, without the last variable, and as long as may be. */
enum { RIGHT, LACKS, LONGEST, TEXTS };
static text texts[TEXTS];

static void fill_texts(void) {
    for (int which = 0; which < TEXTS; which++) {
        append(&texts[which], "s SATISFIABLE\n");
        print_literals(&texts[which], entries[SATISFIES], ALL_VARIABLES - (which == LACKS));
    }
    lengthen(&texts[LONGEST], RUNGLAET_TEXT_MAX);
}

enum { SIZE_CALL, WRITER, DECODER, ENCODER, READER };

static runglaet_size make(const run *r) {
    const uint8_t *bytes = (const uint8_t *)texts[r->chosen < TEXTS ? r->chosen : RIGHT].bytes;
    runglaet_answer answer = {0, 0};
    switch (r->which) {
    case SIZE_CALL: return runglaet_ceiling_size(instance, sizeof instance, r->horizon, rule, ceiling);
    case WRITER:
        answer = runglaet_write_ceiling(instance, sizeof instance, r->horizon, rule, ceiling, words, r->length);
        break;
    case DECODER:
        answer = runglaet_decode_ceiling(instance, sizeof instance, r->horizon, rule, ceiling, entries[r->chosen],
                                         (size_t)variables, decoded, r->length);
        break;
    case ENCODER:
        answer = runglaet_encode_ceiling(instance, sizeof instance, r->horizon, rule, ceiling, waiting[r->chosen], PLAN,
                                         encoded, r->length);
        break;
    case READER:
        answer = runglaet_read_ceiling(instance, sizeof instance, r->horizon, rule, ceiling, bytes,
                                       texts[r->chosen].length, encoded, r->length);
        break;
    }
    return (runglaet_size){answer.number, answer.second, 0};
}

static uint64_t clauses_of(const run *r) { return r->which == SIZE_CALL ? (uint64_t)clauses : 0; }

/* Of the reader, and of the others. */
static size_t most_reading = 0, most = 0;

static void measure_all(const run *runs, size_t length) {
    for (size_t i = 0; i < length; i++) {
        size_t bytes = measured(&runs[i]), *of = runs[i].which == READER ? &most_reading : &most;
        if (bytes > *of) *of = bytes;
    }
}

#define MEASURE(...) measure_all((const run[]){__VA_ARGS__}, sizeof((const run[]){__VA_ARGS__}) / sizeof(run))

int main(void) {
    fill();
    fill_ceiling();
    fill_texts();
    for (rule = 1; rule <= 2; rule++) {
        count_all();
        uint64_t needed = (uint64_t)all_words, last = (uint64_t)clauses - 1;
        if (variables != ALL_VARIABLES || (rule == 2 && (needed != ALL_WORDS || last + 1 != ALL_CLAUSES)))
            stop("the largest formula has other sizes");
        printf("stack: rule %d: %lld words, %lld clauses, %lld variables\n", (int)rule, (long long)needed,
               (long long)clauses, (long long)variables);
        MEASURE({SIZE_CALL, "ceiling size, accepted", M, 0, 0, 0, needed},
                {SIZE_CALL, "ceiling size, horizon 33", M + 1, 0, 0, 10, 0},
                {WRITER, "ceiling writer, accepted", M, 0, needed, 0, 0},
                {WRITER, "ceiling writer, slice too short", M, 0, needed - 1, 12, needed},
                {DECODER, "ceiling decoder, accepted", M, SATISFIES, PLAN, 0, PLAN},
                {DECODER, "ceiling decoder, last clause false", M, LAST_FORBIDDEN, PLAN, 24, last},
                {DECODER, "ceiling decoder, slice too short", M, SATISFIES, PLAN - 1, 15, PLAN},
                {ENCODER, "ceiling encoder, cost 128", M, COSTS_128, ALL_VARIABLES, 0, ALL_VARIABLES},
                {ENCODER, "ceiling encoder, cost 144", M, COSTS_144, ALL_VARIABLES, 33, 144},
                {ENCODER, "ceiling encoder, goals missed", M, STAYS, ALL_VARIABLES, 22, M * K},
                {ENCODER, "ceiling encoder, slice too short", M, COSTS_128, ALL_VARIABLES - 1, 16, ALL_VARIABLES},
                {READER, "ceiling reader, accepted", M, RIGHT, ALL_VARIABLES, 0, ALL_VARIABLES},
                {READER, "ceiling reader, last variable missing", M, LACKS, ALL_VARIABLES, 29, ALL_VARIABLES},
                {READER, "ceiling reader, longest text", M, LONGEST, ALL_VARIABLES, 0, ALL_VARIABLES}, );
    }
    rule = 2;
    ceiling = 0;
    count_all();
    MEASURE({SIZE_CALL, "ceiling size, c 0", M, 0, 0, 0, (uint64_t)all_words},
            {WRITER, "ceiling writer, c 0", M, 0, (size_t)all_words, 0, 0},
            {ENCODER, "ceiling encoder, c 0", M, COSTS_128, (size_t)variables, 33, 128}, );
    ceiling = HIGHEST + 1;
    MEASURE({SIZE_CALL, "ceiling size, c 129", M, 0, 0, 32, 0},
            {WRITER, "ceiling writer, c 129", M, 0, ALL_WORDS, 32, 0},
            {DECODER, "ceiling decoder, c 129", M, SATISFIES, PLAN, 32, 0},
            {ENCODER, "ceiling encoder, c 129", M, COSTS_128, ALL_VARIABLES, 32, 0},
            {READER, "ceiling reader, c 129", M, RIGHT, ALL_VARIABLES, 32, 0}, );
    int failed = too_many("with a ceiling ", most, PROMISED);
    return failed | too_many("reader with a ceiling ", most_reading, READER_PROMISED);
}
