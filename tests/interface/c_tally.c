/* The tally from C, under both rules: the layout of its record, plans worked out by hand, full records, null pointers, and
 * what stands around a record. */
#include "c_check.h"

#define FULL 65535

/* A record, and what stands before and after it. */
typedef struct {
    uint64_t before[4];
    runglaet_tally record;
    uint64_t after[4];
} framed;

static const uint64_t kept[4] = {UINT64_MAX, 0x5A5A5A5A5A5A5A5A, 7, UINT64_MAX - 1};

/* The path 0-1-2 with agents from 0 to 1 and from 1 to 2. */
static const uint8_t path[12] = {3, 2, 2, 0, 0, 1, 1, 2, 0, 1, 1, 2};

static const runglaet_tally empty = {0};

/* Makes the call on a copy of this record. Does it answer so, leave this record, and touch nothing else? */
static int tallies(const uint8_t *instance, size_t instance_len, uint64_t horizon, const uint8_t *plan, size_t plan_len,
                   runglaet_tally record, uint32_t number, uint64_t second, runglaet_tally right) {
    uint8_t bytes[64], moves[64];
    framed lent;
    memcpy(lent.before, kept, sizeof kept);
    memcpy(lent.after, kept, sizeof kept);
    lent.record = record;
    if (instance_len > 0) memcpy(bytes, instance, instance_len);
    if (plan_len > 0) memcpy(moves, plan, plan_len);
    runglaet_answer answer = runglaet_tally_plan(instance_len > 0 ? bytes : NULL, instance_len, horizon, rule,
                                                 plan_len > 0 ? moves : NULL, plan_len, &lent.record);
    return says(answer, number, second) && memcmp(&lent.record, &right, sizeof right) == 0 &&
           memcmp(lent.before, kept, sizeof kept) == 0 && memcmp(lent.after, kept, sizeof kept) == 0 &&
           (instance_len == 0 || memcmp(bytes, instance, instance_len) == 0) &&
           (plan_len == 0 || memcmp(moves, plan, plan_len) == 0);
}

/* The same on the pair's edge, and on the path. */
#define PAIR(horizon, record, number, second, right, ...) \
    tallies(pair, sizeof pair, horizon, PLAN(__VA_ARGS__), sizeof PLAN(__VA_ARGS__), record, number, second, right)
#define PATH(horizon, record, number, second, right, ...) \
    tallies(path, sizeof path, horizon, PLAN(__VA_ARGS__), sizeof PLAN(__VA_ARGS__), record, number, second, right)

/* Is the plan 0 1, which costs 1, refused with 34, and the plan 0 0, which misses the goal, and no instance at all? */
static int full(runglaet_tally record) {
    return PAIR(1, record, 34, FULL, record, 0, 1) && PAIR(1, record, 34, FULL, record, 0, 0) &&
           tallies(NULL, 0, 33, NULL, 0, record, 34, FULL, record);
}

/* The record with this one more under a number. */
static runglaet_tally one_more(runglaet_tally record, int number) {
    record.refused[number]++;
    return record;
}

static void layouts(void) {
    expect("a record: 320 bytes", sizeof(runglaet_tally) == 320);
    expect("passed: at 0", offsetof(runglaet_tally, passed) == 0);
    expect("the refused: at 8, 36 of 8 bytes",
           offsetof(runglaet_tally, refused) == 8 && sizeof((runglaet_tally){0}.refused) == 288);
    expect("under 35: at 288", offsetof(runglaet_tally, refused[35]) == 288);
    expect("sum, least and greatest: at 296, 304 and 312", offsetof(runglaet_tally, sum) == 296 &&
                                                               offsetof(runglaet_tally, least) == 304 &&
                                                               offsetof(runglaet_tally, greatest) == 312);
    expect("a record in its frame: at 32", offsetof(framed, record) == 32 && sizeof(framed) == 384);
}

/* What passes, with the first pass and later ones. */
static void passes(void) {
    runglaet_tally one = {.passed = 1, .sum = 1, .least = 1, .greatest = 1};
    expect("0 1 in an empty record: cost 1", PAIR(1, empty, 0, 1, one, 0, 1));
    runglaet_tally three = {.passed = 1, .sum = 3, .least = 3, .greatest = 3};
    expect("0 1 0 2 1 2 in an empty record: cost 3", PATH(2, empty, 0, 3, three, 0, 1, 0, 2, 1, 2));
    runglaet_tally both = {.passed = 2, .sum = 4, .least = 1, .greatest = 3};
    expect("cost 3 after cost 1", PATH(2, one, 0, 3, both, 0, 1, 0, 2, 1, 2));
    expect("cost 1 after cost 3", PAIR(1, three, 0, 1, both, 0, 1));
    runglaet_tally again = {.passed = 3, .sum = 6, .least = 1, .greatest = 3};
    expect("cost 2 between them", PAIR(2, both, 0, 2, again, 0, 0, 1));

    /* The pair with goal 0, at m 0: no cost, and 0 is then the least. */
    static const uint8_t home[8] = {2, 1, 1, 0, 0, 1, 0, 0}, stays[1] = {0};
    runglaet_tally none = {.passed = 1}, least = {.passed = 2, .sum = 3, .greatest = 3},
                   later = {.passed = 2, .sum = 1, .greatest = 1};
    expect("cost 0 in an empty record", tallies(home, sizeof home, 0, stays, 1, empty, 0, 0, none));
    expect("cost 0 after cost 3", tallies(home, sizeof home, 0, stays, 1, three, 0, 0, least));
    expect("cost 1 after cost 0", PAIR(1, none, 0, 1, later, 0, 1));

    /* Records that no calls bring about. */
    runglaet_tally stale = {.least = 9, .greatest = 4}, most = {.least = UINT64_MAX, .greatest = UINT64_MAX};
    expect("the first pass, whatever least and greatest held", PAIR(1, stale, 0, 1, one, 0, 1));
    expect("the first pass, the greatest numbers there", PAIR(1, most, 0, 1, one, 0, 1));
    runglaet_tally crossed = {.passed = 3, .sum = 1536, .least = UINT64_MAX},
                   mended = {.passed = 4, .sum = 1537, .least = 1, .greatest = 1};
    expect("a later pass: the lesser and the greater", PAIR(1, crossed, 0, 1, mended, 0, 1));
}

/* Each refusal under its number, in a record whose counters all differ. */
static void refusals(void) {
    runglaet_tally record = {.passed = 5, .sum = 77, .least = 600, .greatest = 3};
    for (int number = 0; number < 36; number++) record.refused[number] = 11 + 3 * (uint64_t)number;
    static const uint8_t moves[2] = {0, 1};
    expect("no instance: 1", tallies(NULL, 0, 1, moves, 2, record, 1, 0, one_more(record, 1)));
    expect("m 33: 10", PAIR(33, record, 10, 0, one_more(record, 10), 0, 1));
    expect("no plan: 13", tallies(pair, sizeof pair, 1, NULL, 0, record, 13, 0, one_more(record, 13)));
    expect("neither: 1", tallies(NULL, 0, 1, NULL, 0, record, 1, 0, one_more(record, 1)));
    expect("three bytes: 13", PAIR(1, record, 13, 3, one_more(record, 13), 0, 1, 1));
    expect("vertex 2 of 2: 17", PAIR(1, record, 17, 1, one_more(record, 17), 0, 2));
    expect("another start: 18", PAIR(1, record, 18, 0, one_more(record, 18), 1, 1));
    expect("the goal missed: 22", PAIR(1, record, 22, 1, one_more(record, 22), 0, 0));
    expect("a jump: 19", PATH(1, record, 19, 2, one_more(record, 19), 0, 1, 2, 1));
    expect("head-on: 25", PATH(1, record, 25, 2, one_more(record, 25), 0, 1, 1, 0));
    int shares = rule == 1 ? 20 : 21;
    expect("onto one that stays: 20, or 21",
           PATH(1, record, (uint32_t)shares, rule == 1 ? 2 : 3, one_more(record, shares), 0, 1, 1, 1));
    runglaet_tally closed = record;
    closed.passed++, closed.sum += 2, closed.least = 2;
    expect("a file closes up: 26, or cost 2", rule == 1 ? PATH(1, record, 26, 2, one_more(record, 26), 0, 1, 1, 2)
                                                        : PATH(1, record, 0, 2, closed, 0, 1, 1, 2));
    static const uint8_t bad[3][8] = {{65, 1, 1, 0, 0, 1, 0, 1}, {2, 1, 1, 0, 1, 0, 0, 1}, {2, 1, 1, 0, 0, 1, 0, 2}};
    static const uint32_t numbers[3] = {2, 6, 9};
    static const uint64_t places[3] = {0, 4, 7};
    for (int i = 0; i < 3; i++)
        expect("a wrong instance", tallies(bad[i], 8, 1, moves, 2, record, numbers[i], places[i],
                                           one_more(record, (int)numbers[i])));
    uint64_t given = rule;
    rule = 3;
    expect("rule 3: 31", PAIR(1, record, 31, 0, one_more(record, 31), 0, 1));
    rule = given;
}

/* 34, by the total of all counters and by the sum. */
static void full_records(void) {
    const uint64_t most = UINT64_MAX;
    expect("65,535 passed", full((runglaet_tally){.passed = FULL}));
    expect("2^64 - 1 passed", full((runglaet_tally){.passed = most, .sum = most}));
    for (int number = 0; number < 36; number++) {
        runglaet_tally record = {0};
        record.refused[number] = FULL;
        expect("65,535 under one number", full(record));
        record.refused[number] = FULL - 1;
        runglaet_tally after = one_more(record, 22);
        expect("65,534 under one number", PAIR(1, record, 22, 1, after, 0, 0) && full(after));
        record.passed = 1;
        expect("65,534 under one number, and one passed", full(record));
        record.passed = most;
        record.refused[number] = 1;
        expect("2^64 in all", full(record));
    }
    runglaet_tally spread = {.passed = 14}, all;
    for (int number = 0; number < 36; number++) spread.refused[number] = 1820;
    runglaet_tally spread_more = {.passed = 15, .sum = 1, .least = 0, .greatest = 1};
    memcpy(spread_more.refused, spread.refused, sizeof spread.refused);
    expect("65,534 over all counters", PAIR(1, spread, 0, 1, spread_more, 0, 1));
    expect("65,535 over all counters", full(spread_more));
    memset(&all, 255, sizeof all);
    expect("2^64 - 1 everywhere", full(all));

    expect("a sum of 1, none passed", full((runglaet_tally){.sum = 1}));
    expect("a sum of 513, one passed", full((runglaet_tally){.passed = 1, .sum = 513}));
    expect("a sum of 2^64 - 1", full((runglaet_tally){.passed = 9, .sum = most}));
    runglaet_tally dear = {.passed = 1, .sum = 512, .least = 512, .greatest = 512},
                   dear_more = {.passed = 2, .sum = 513, .least = 1, .greatest = 512};
    expect("a sum of 512, one passed", PAIR(1, dear, 0, 1, dear_more, 0, 1));
    runglaet_tally last = {.passed = FULL - 1, .sum = 512 * (FULL - 1)},
                   after = {.passed = FULL, .sum = 512 * (FULL - 1) + 1, .greatest = 1};
    expect("the greatest sum of 65,534", PAIR(1, last, 0, 1, after, 0, 1));
    last.sum++;
    expect("one more", full(last));
}

/* One record for many calls: 65,535 are counted, two that pass and one that does not in turn. */
static void history(void) {
    static const uint8_t plans[3][4] = {{0, 1}, {0, 0}, {0, 0, 1}};
    static const uint64_t horizons[3] = {1, 1, 2};
    framed lent;
    memcpy(lent.before, kept, sizeof kept);
    memcpy(lent.after, kept, sizeof kept);
    lent.record = empty;
    int wrong = 0;
    for (int call = 0; call < FULL; call++) {
        int turn = call % 3;
        runglaet_answer answer = runglaet_tally_plan(pair, sizeof pair, horizons[turn], rule, plans[turn],
                                                     (size_t)horizons[turn] + 1, &lent.record);
        wrong += !(turn == 1 ? says(answer, 22, 1) : says(answer, 0, horizons[turn]));
    }
    expect("65,535 calls are counted", wrong == 0);
    runglaet_tally right = {.passed = 43690, .sum = 3 * 21845, .least = 1, .greatest = 2};
    right.refused[22] = 21845;
    expect("what they come to", memcmp(&lent.record, &right, sizeof right) == 0);
    for (int call = 0; call < 9; call++) {
        runglaet_answer answer = runglaet_tally_plan(pair, sizeof pair, 1, rule, plans[call % 2], 2, &lent.record);
        expect("then none is", says(answer, 34, FULL) && memcmp(&lent.record, &right, sizeof right) == 0);
    }
    expect("nothing around it is touched",
           memcmp(lent.before, kept, sizeof kept) == 0 && memcmp(lent.after, kept, sizeof kept) == 0);
}

int main(void) {
    for (rule = 1; rule <= 2; rule++) {
        passes();
        refusals();
        full_records();
        history();
    }
    layouts();
    return finished("c_tally");
}
