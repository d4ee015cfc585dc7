/* Document 01's examples for two agents, the variables of two, agents without a goal and the two movement rules, from
 * C. */
#include "c_check.h"

/* Two agents on the path 0-1-2 at m 1, from 0 to 1 and from 2 to 2. Agent 0 has the variables 1 to 3 at time 0 and 4 to 6
 * at time 1, agent 1 has 7 to 9 and 10 to 12. */
static const uint8_t two[12] = {3, 2, 2, 0, 0, 1, 1, 2, 0, 2, 1, 2};

static int is_clause(uint64_t number, const int32_t *words, size_t length) {
    int32_t clause[5];
    return says(runglaet_clause(two, sizeof two, 1, rule, number, clause, 5), 0, length) &&
           memcmp(clause, words, length * sizeof *words) == 0;
}

#define WORDS(...) (const int32_t[]){__VA_ARGS__, 0}
#define CLAUSE(number, ...)                                 \
    expect("two agents, clause " #number ": " #__VA_ARGS__, \
           is_clause(number, WORDS(__VA_ARGS__), sizeof WORDS(__VA_ARGS__) / sizeof(int32_t)))

static void two_agents(void) {
    static const uint8_t moves[4] = {0, 2, 1, 2};
    CLAUSE(1, 9);
    CLAUSE(2, 5);
    CLAUSE(5, 7, 8, 9);
    CLAUSE(6, 4, 5, 6);
    CLAUSE(11, -7, -8);
    CLAUSE(14, -4, -5);
    CLAUSE(20, -1, -7);
    CLAUSE(27, -2, 5, 4, 6);
    CLAUSE(32, -7, -4);
    CLAUSE(37, -3, -12);

    static const int32_t family_h[16] = {-2, 0, -3, 0, -7, 0, -8, 0, -4, 0, -6, 0, -10, 0, -11, 0};
    int32_t words[38 * 5] = {0}, pruned[138];
    expect("two agents: 122 words", says(runglaet_write_formula(two, sizeof two, 1, rule, words, 122), 0, 0));
    expect("two agents: 138 words with H", says(runglaet_write_pruned(two, sizeof two, 1, rule, pruned, 138), 0, 0));
    expect("two agents: the same formula", memcmp(words, pruned, 122 * sizeof *words) == 0);
    expect("two agents: family H", memcmp(pruned + 122, family_h, sizeof family_h) == 0);
    int whole = 1;
    const int32_t *clause = words;
    for (uint64_t number = 0; number < 38; number++) {
        size_t length = 1;
        while (length < 5 && clause[length - 1] != 0) length++;
        whole &= is_clause(number, clause, length);
        clause += length;
    }
    expect("two agents: the clauses make the formula", whole && clause == words + 122);

    static const int32_t valuation[12] = {1, -2, -3, -4, 5, -6, -7, -8, 9, -10, -11, 12},
                         exchanged[12] = {1, -2, -3, -4, 5, -7, -6, -8, 9, -10, -11, 12},
                         twice[12] = {1, -2, -3, 4, 5, -6, 7, -8, 9, -10, -11, 12};
    int32_t entries[12];
    uint8_t plan[4];
    expect("two agents: encoded", says(runglaet_encode(two, sizeof two, 1, rule, moves, 4, entries, 12), 0, 12));
    expect("two agents: the entries", memcmp(entries, valuation, sizeof entries) == 0);
    expect("two agents: decoded", says(runglaet_decode(two, sizeof two, 1, rule, valuation, 12, plan, 4), 0, 4));
    expect("two agents: the plan", memcmp(plan, moves, sizeof plan) == 0);
    /* The lower index is of agent 0 at time 1; the clause of time 0 comes first, agent 1's. */
    expect("two agents: 23, place 5", says(runglaet_decode(two, sizeof two, 1, rule, exchanged, 12, plan, 4), 23, 5));
    expect("two agents: 24, place 12", says(runglaet_decode(two, sizeof two, 1, rule, twice, 12, plan, 4), 24, 12));
}

/* The same with a free agent 0, and agent 1 from 2 to 1; and with both free. */
static const uint8_t first_free[12] = {3, 2, 2, 0, 0, 1, 1, 2, 0, 2, 255, 1},
                     both_free[12] = {3, 2, 2, 0, 0, 1, 1, 2, 0, 2, 255, 255};

/* Does every call that takes the rule refuse the instance so? */
static int unruled(const uint8_t *instance, size_t length, uint64_t horizon, uint32_t number, uint64_t second) {
    int32_t words[4] = {0};
    uint8_t bytes[4] = {0};
    int all = unsized(instance, length, horizon, number, second);
    for (int f = 0; f < 2; f++) all &= says(writers[f](instance, length, horizon, rule, words, 4), number, second);
    all &= says(runglaet_clause(instance, length, horizon, rule, 0, words, 4), number, second);
    all &= says(runglaet_check_plan(instance, length, horizon, rule, bytes, 4), number, second);
    all &= says(runglaet_decode(instance, length, horizon, rule, words, 4, bytes, 4), number, second);
    all &= says(runglaet_encode(instance, length, horizon, rule, bytes, 4, words, 4), number, second);
    return all && says(runglaet_read_valuation(instance, length, horizon, rule, bytes, 4, words, 4), number, second);
}

/* Does every call refuse the instance so? */
static int unasked(const uint8_t *instance, size_t length, uint32_t number, uint64_t second) {
    return unruled(instance, length, 1, number, second) && says(runglaet_floor(instance, length), number, second);
}

#define UNASKED(what, number, second, ...) \
    expect("every call, " what, unasked(BYTES(__VA_ARGS__), sizeof BYTES(__VA_ARGS__), number, second))

static void free_agents(void) {
    /* A has clauses 0 and 1, B has clause 2, C begins at 3. */
    static const int32_t begins[10] = {1, 0, 9, 0, 11, 0, 1, 2, 3, 0},
                         family_h[14] = {-2, 0, -3, 0, -7, 0, -8, 0, -6, 0, -10, 0, -12, 0};
    const size_t length = sizeof first_free;
    int32_t words[134];
    expect("a free agent: 120 words, 37 clauses",
           counts(runglaet_formula_size(first_free, length, 1, rule), 0, 120, 37));
    expect("a free agent: 134 words with H, 44 clauses",
           counts(runglaet_pruned_size(first_free, length, 1, rule), 0, 134, 44));
    expect("a free agent: written", says(runglaet_write_formula(first_free, length, 1, rule, words, 120), 0, 0));
    expect("a free agent: B has the other one's clause", memcmp(words, begins, sizeof begins) == 0);
    expect("a free agent: written with H", says(runglaet_write_pruned(first_free, length, 1, rule, words, 134), 0, 0));
    expect("a free agent: the same formula", memcmp(words, begins, sizeof begins) == 0);
    expect("a free agent: H by its start alone", memcmp(words + 120, family_h, sizeof family_h) == 0);
    expect("a free agent: clause 2",
           says(runglaet_clause(first_free, length, 1, rule, 2, words, 134), 0, 2) && words[0] == 11);
    expect("a free agent: clause 3",
           says(runglaet_clause(first_free, length, 1, rule, 3, words, 134), 0, 4) && words[2] == 3);
    expect("a free agent: clause 37 gets 11",
           says(runglaet_clause(first_free, length, 1, rule, 37, words, 134), 11, 37));
    expect("a free agent: floor 1", says(runglaet_floor(first_free, length), 0, 1));

    /* It stays, and moves; its move counts. The other one must be at its goal. */
    static const uint8_t stays[4] = {0, 2, 0, 1}, away[4] = {0, 2, 1, 2}, moves[6] = {0, 2, 1, 2, 0, 1};
    static const int32_t valuation[12] = {1, -2, -3, 4, -5, -6, -7, -8, 9, -10, 11, -12},
                         falsifying[12] = {1, -2, -3, -4, 5, -6, -7, -8, 9, -10, -11, 12};
    static const char text[] = "s SATISFIABLE\nv 1 -2 -3 4 -5 -6 -7 -8 9 -10 11 -12 0\n";
    int32_t entries[12];
    uint8_t plan[4];
    expect("a free agent: cost 1", says(runglaet_check_plan(first_free, length, 1, rule, stays, 4), 0, 1));
    expect("a free agent: 22, place 3", says(runglaet_check_plan(first_free, length, 1, rule, away, 4), 22, 3));
    expect("a free agent: 19, place 3",
           says(runglaet_check_plan(first_free, length, 1, rule, PLAN(0, 2, 0, 0), 4), 19, 3));
    expect("a free agent: 26, place 5", says(runglaet_check_plan(first_free, length, 2, rule, moves, 6), 26, 5));
    expect("a free agent: encoded", says(runglaet_encode(first_free, length, 1, rule, stays, 4, entries, 12), 0, 12));
    expect("a free agent: the entries", memcmp(entries, valuation, sizeof entries) == 0);
    expect("a free agent: encoder: 22, place 3",
           says(runglaet_encode(first_free, length, 1, rule, away, 4, entries, 12), 22, 3));
    expect("a free agent: decoded", says(runglaet_decode(first_free, length, 1, rule, valuation, 12, plan, 4), 0, 4));
    expect("a free agent: the plan", memcmp(plan, stays, sizeof plan) == 0);
    expect("a free agent: 24, place 2",
           says(runglaet_decode(first_free, length, 1, rule, falsifying, 12, plan, 4), 24, 2));
    memset(entries, 0, sizeof entries);
    expect("a free agent: read", says(runglaet_read_valuation(first_free, length, 1, rule, (const uint8_t *)text,
                                                              sizeof text - 1, entries, 12), 0, 12));
    expect("a free agent: the entries read", memcmp(entries, valuation, sizeof entries) == 0);

    /* Both are free: no goal is missed, and every time until rest counts. B is empty, and clause 2 is of C. */
    expect("all free: 118 words, 36 clauses", counts(runglaet_formula_size(both_free, length, 1, rule), 0, 118, 36));
    expect("all free: clause 2",
           says(runglaet_clause(both_free, length, 1, rule, 2, words, 134), 0, 4) && words[0] == 1);
    expect("all free: cost 0", says(runglaet_check_plan(both_free, length, 0, rule, stays, 2), 0, 0));
    expect("all free: cost 1", says(runglaet_check_plan(both_free, length, 1, rule, away, 4), 0, 1));
    expect("all free: cost 2", says(runglaet_check_plan(both_free, length, 2, rule, PLAN(0, 2, 1, 2, 0, 2), 6), 0, 2));
    expect("all free: floor 0", says(runglaet_floor(both_free, length), 0, 0));
    FLOOR("a free agent with no edge: 0", 0, 0, 2, 1, 0, 0, 0, 255);
    FLOOR("behind a free agent, no edge: 30, place 7", 30, 7, 2, 2, 0, 0, 0, 1, 255, 0);

    /* Two edges: the starts stand at 8, the goals at 10. */
    UNASKED("goal 254: 9, place 10", 9, 10, 3, 2, 2, 0, 0, 1, 1, 2, 0, 2, 254, 1);
    UNASKED("goal 3 behind a free agent: 9, place 11", 9, 11, 3, 2, 2, 0, 0, 1, 1, 2, 0, 2, 255, 3);
    UNASKED("start 255: 8, place 8", 8, 8, 3, 2, 2, 0, 0, 1, 1, 2, 255, 2, 255, 1);
    UNASKED("one start for two: 8, place 9", 8, 9, 3, 2, 2, 0, 0, 1, 1, 2, 2, 2, 255, 1);
    /* No edge: the goals stand at 7. The same one twice, around a free agent. */
    UNASKED("goal 1 twice: 9, place 9", 9, 9, 3, 3, 0, 0, 0, 1, 2, 1, 255, 1);
}

/* Document 01's examples, under rule 1. */
static void occupied(void) {
    int32_t words[25];
    /* Two agents on the pair's edge, and the path. */
    static const uint8_t swap[10] = {2, 2, 1, 0, 0, 1, 0, 1, 1, 0}, swapped[4] = {0, 1, 1, 0};
    expect("25, place 2", says(runglaet_check_plan(swap, sizeof swap, 1, rule, swapped, 4), 25, 2));
    expect("encoder: 25, place 2", says(runglaet_encode(swap, sizeof swap, 1, rule, swapped, 4, words, 25), 25, 2));
    expect("72 words, 24 clauses", counts(runglaet_formula_size(swap, sizeof swap, 1, rule), 0, 72, 24));
    expect("72 words needed", says(runglaet_write_formula(swap, sizeof swap, 1, rule, words, 25), 12, 72));
    expect("24 clauses", says(runglaet_clause(swap, sizeof swap, 1, rule, 24, words, 25), 11, 24));
    static const uint8_t path[12] = {3, 2, 2, 0, 0, 1, 1, 2, 0, 1, 1, 2}, follow[4] = {0, 1, 1, 2},
                         stand[4] = {0, 1, 1, 1}, wait[6] = {0, 1, 0, 2, 1, 2};
    expect("path: 26, place 2", says(runglaet_check_plan(path, sizeof path, 1, rule, follow, 4), 26, 2));
    expect("path, encoder: 26, place 2",
           says(runglaet_encode(path, sizeof path, 1, rule, follow, 4, words, 25), 26, 2));
    expect("path: 20, place 2", says(runglaet_check_plan(path, sizeof path, 1, rule, stand, 4), 20, 2));
    expect("path, encoder: 20, place 2", says(runglaet_encode(path, sizeof path, 1, rule, stand, 4, words, 25), 20, 2));
    expect("path: cost 3", says(runglaet_check_plan(path, sizeof path, 2, rule, wait, 6), 0, 3));
    static const uint8_t meet[12] = {3, 2, 2, 0, 0, 1, 1, 2, 0, 2, 1, 2}, met[4] = {0, 2, 1, 1};
    expect("path: 21, place 3", says(runglaet_check_plan(meet, sizeof meet, 1, rule, met, 4), 21, 3));
    static const uint8_t repeated[12] = {3, 2, 2, 0, 0, 0, 1, 1, 0, 1, 1, 2};
    expect("edge 0-1 twice: 7, place 5",
           says(runglaet_check_plan(repeated, sizeof repeated, 1, rule, follow, 4), 7, 5));
}

/* The same under rule 2: agents may follow, and not exchange. */
static void closing_up(void) {
    int32_t words[120];
    uint8_t plan[6];
    rule = 2;
    /* G has the clauses of a 0, b 1 and of a 1, b 0. Agent 0 has the variables 1 to 4, agent 1 has 5 to 8. */
    static const uint8_t swap[10] = {2, 2, 1, 0, 0, 1, 0, 1, 1, 0}, swapped[4] = {0, 1, 1, 0};
    static const int32_t exchanges[10] = {-1, -4, -6, -7, 0, -5, -8, -2, -3, 0};
    static const int32_t exchanging[8] = {1, -2, -3, 4, -5, 6, 7, -8};
    expect("edge: 25, place 2", says(runglaet_check_plan(swap, sizeof swap, 1, rule, swapped, 4), 25, 2));
    expect("edge, encoder: 25, place 2",
           says(runglaet_encode(swap, sizeof swap, 1, rule, swapped, 4, words, 120), 25, 2));
    expect("edge: 70 words, 22 clauses", counts(runglaet_formula_size(swap, sizeof swap, 1, rule), 0, 70, 22));
    expect("edge: 69 words are too few", says(runglaet_write_formula(swap, sizeof swap, 1, rule, words, 69), 12, 70));
    expect("edge: written", says(runglaet_write_formula(swap, sizeof swap, 1, rule, words, 70), 0, 0));
    expect("edge: family G", memcmp(words + 60, exchanges, sizeof exchanges) == 0);
    expect("edge: clause 20", says(runglaet_clause(swap, sizeof swap, 1, rule, 20, words, 5), 0, 5));
    expect("edge: its words", memcmp(words, exchanges, 5 * sizeof *words) == 0);
    expect("edge: clause 21", says(runglaet_clause(swap, sizeof swap, 1, rule, 21, words, 5), 0, 5));
    expect("edge: its words", memcmp(words, exchanges + 5, 5 * sizeof *words) == 0);
    expect("edge: clause 21 has 5", says(runglaet_clause(swap, sizeof swap, 1, rule, 21, words, 4), 12, 5));
    expect("edge: clause 22 gets 11", says(runglaet_clause(swap, sizeof swap, 1, rule, 22, words, 5), 11, 22));
    expect("edge: 24, place 20", says(runglaet_decode(swap, sizeof swap, 1, rule, exchanging, 8, plan, 4), 24, 20));

    static const uint8_t path[12] = {3, 2, 2, 0, 0, 1, 1, 2, 0, 1, 1, 2}, follow[4] = {0, 1, 1, 2},
                         stand[4] = {0, 1, 1, 1}, wait[6] = {0, 1, 0, 2, 1, 2};
    static const int32_t following[12] = {1, -2, -3, -4, 5, -6, -7, 8, -9, -10, -11, 12};
    expect("path: cost 2", says(runglaet_check_plan(path, sizeof path, 1, rule, follow, 4), 0, 2));
    expect("path: encoded", says(runglaet_encode(path, sizeof path, 1, rule, follow, 4, words, 12), 0, 12));
    expect("path: the entries", memcmp(words, following, sizeof following) == 0);
    expect("path: decoded", says(runglaet_decode(path, sizeof path, 1, rule, following, 12, plan, 4), 0, 4));
    expect("path: the plan", memcmp(plan, follow, sizeof follow) == 0);
    expect("path, rule 1: 24, place 33",
           says(runglaet_decode(path, sizeof path, 1, 1, following, 12, plan, 4), 24, 33));
    expect("path, one stays: 21, place 3", says(runglaet_check_plan(path, sizeof path, 1, rule, stand, 4), 21, 3));
    expect("path, encoder: 21, place 3", says(runglaet_encode(path, sizeof path, 1, rule, stand, 4, words, 12), 21, 3));
    expect("path: cost 3", says(runglaet_check_plan(path, sizeof path, 2, rule, wait, 6), 0, 3));

    /* A ring of three turns. The exchange of agents 1 and 2 is theirs, and comes before 21. */
    static const uint8_t ring[16] = {3, 3, 3, 0, 0, 0, 1, 1, 2, 2, 0, 1, 2, 1, 2, 0}, turn[6] = {0, 1, 2, 1, 2, 0};
    expect("ring: cost 3", says(runglaet_check_plan(ring, sizeof ring, 1, rule, turn, 6), 0, 3));
    expect("ring, rule 1: 26, place 3", says(runglaet_check_plan(ring, sizeof ring, 1, 1, turn, 6), 26, 3));
    expect("ring: 25, place 4",
           says(runglaet_check_plan(ring, sizeof ring, 1, rule, PLAN(0, 1, 2, 0, 2, 1), 6), 25, 4));
    expect("ring: 25, place 4",
           says(runglaet_check_plan(ring, sizeof ring, 1, rule, PLAN(0, 1, 2, 1, 2, 1), 6), 25, 4));
    expect("ring: 21, place 5",
           says(runglaet_check_plan(ring, sizeof ring, 1, rule, PLAN(0, 1, 2, 0, 1, 1), 6), 21, 5));
    rule = 1;
}

/* A rule that is none: 31 just after 10, before all else, with all 64 bits. */
static void no_rules(void) {
    static const uint64_t rules[] = {0, 3, 255, 257, (UINT64_C(1) << 32) + 1, (UINT64_C(1) << 32) + 2, UINT64_MAX};
    static const uint8_t no_goal[8] = {2, 1, 1, 0, 0, 1, 0, 2};
    for (size_t i = 0; i < sizeof rules / sizeof *rules; i++) {
        int32_t words[4] = {7, 7, 7, 7};
        uint8_t plan[2] = {200, 201};
        rule = rules[i];
        expect("every call: 31, place 0", unruled(pair, sizeof pair, 1, 31, 0));
        expect("every call, m 33: 10, place 0", unruled(pair, sizeof pair, 33, 10, 0));
        expect("every call, goal 2: 9, place 7", unruled(no_goal, sizeof no_goal, 1, 9, 7));
        expect("every call, no instance: 1, place 0", unruled(NULL, 0, 1, 1, 0));
        expect("writer, no words: 31", says(runglaet_write_formula(pair, sizeof pair, 1, rule, NULL, 0), 31, 0));
        expect("clause 8: 31", says(runglaet_clause(pair, sizeof pair, 1, rule, 8, words, 4), 31, 0));
        expect("check, no plan: 31", says(runglaet_check_plan(pair, sizeof pair, 1, rule, NULL, 0), 31, 0));
        expect("decoder, nothing: 31", says(runglaet_decode(pair, sizeof pair, 1, rule, NULL, 0, NULL, 0), 31, 0));
        expect("decoder: 31", says(runglaet_decode(pair, sizeof pair, 1, rule, words, 4, plan, 2), 31, 0));
        expect("encoder, nothing: 31", says(runglaet_encode(pair, sizeof pair, 1, rule, NULL, 0, NULL, 0), 31, 0));
        expect("reader, nothing: 31",
               says(runglaet_read_valuation(pair, sizeof pair, 1, rule, NULL, 0, NULL, 0), 31, 0));
        expect("nothing is changed", words[0] == 7 && words[3] == 7 && plan[0] == 200 && plan[1] == 201);
    }
    rule = 1;
    expect("the floor gets none", says(runglaet_floor(pair, sizeof pair), 0, 1));
}

int main(void) {
    occupied();
    two_agents();
    free_agents();
    closing_up();
    no_rules();
    return finished("c_agents");
}
