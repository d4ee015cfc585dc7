/* Each call once or more on the examples of document 01 for one agent, the plan check's cost, the reader, the floor, the
 * pruned formula and all with null pointers, from C, under both rules: one agent has no family G, and none in its way. And
 * the layout of the answers. */
#include "c_check.h"

/* A null pointer with length 0 is an empty slice: the answers are those of document 01 for lengths of 0, and the slice
 * that is there stays as it was. */
static void null_pointers(void) {
    static const uint8_t moves[2] = {0, 1};
    static const int32_t satisfying[4] = {1, -2, -3, 4};
    int32_t words[24], before[24];
    uint8_t plan[2] = {200, 201};
    for (int i = 0; i < 24; i++) words[i] = before[i] = 1000 + i;

    expect("sizes, no instance: 1, place 0", unsized(NULL, 0, 1, 1, 0));
    for (int f = 0; f < 2; f++) {
        expect("writer, no instance: 1, place 0", says(writers[f](NULL, 0, 1, rule, words, 24), 1, 0));
        expect("writer, no words: 12, place 24 or 28",
               says(writers[f](pair, sizeof pair, 1, rule, NULL, 0), 12, 24 + 4 * f));
        expect("writer, neither: 1, place 0", says(writers[f](NULL, 0, 1, rule, NULL, 0), 1, 0));
    }

    expect("clause, no instance: 1, place 0", says(runglaet_clause(NULL, 0, 1, rule, 0, words, 24), 1, 0));
    expect("clause 0, no words: 12, place 2", says(runglaet_clause(pair, sizeof pair, 1, rule, 0, NULL, 0), 12, 2));
    expect("clause 7, no words: 12, place 4", says(runglaet_clause(pair, sizeof pair, 1, rule, 7, NULL, 0), 12, 4));
    expect("clause 8, no words: 11, place 8", says(runglaet_clause(pair, sizeof pair, 1, rule, 8, NULL, 0), 11, 8));
    expect("clause, neither: 1, place 0", says(runglaet_clause(NULL, 0, 1, rule, 0, NULL, 0), 1, 0));

    expect("check, no instance: 1, place 0", says(runglaet_check_plan(NULL, 0, 1, rule, moves, 2), 1, 0));
    expect("check, no plan: 13, place 0", says(runglaet_check_plan(pair, sizeof pair, 1, rule, NULL, 0), 13, 0));
    expect("check, neither: 1, place 0", says(runglaet_check_plan(NULL, 0, 1, rule, NULL, 0), 1, 0));

    expect("decoder, no instance: 1, place 0", says(runglaet_decode(NULL, 0, 1, rule, satisfying, 4, plan, 2), 1, 0));
    expect("decoder, no entries: 14, place 0",
           says(runglaet_decode(pair, sizeof pair, 1, rule, NULL, 0, plan, 2), 14, 0));
    expect("decoder, no plan: 15, place 2",
           says(runglaet_decode(pair, sizeof pair, 1, rule, satisfying, 4, NULL, 0), 15, 2));
    expect("decoder, neither: 14, place 0", says(runglaet_decode(pair, sizeof pair, 1, rule, NULL, 0, NULL, 0), 14, 0));
    expect("decoder, nothing: 1, place 0", says(runglaet_decode(NULL, 0, 1, rule, NULL, 0, NULL, 0), 1, 0));

    expect("encoder, no instance: 1, place 0", says(runglaet_encode(NULL, 0, 1, rule, moves, 2, words, 24), 1, 0));
    expect("encoder, no plan: 13, place 0",
           says(runglaet_encode(pair, sizeof pair, 1, rule, NULL, 0, words, 24), 13, 0));
    expect("encoder, no entries: 16, place 4",
           says(runglaet_encode(pair, sizeof pair, 1, rule, moves, 2, NULL, 0), 16, 4));
    expect("encoder, neither: 13, place 0", says(runglaet_encode(pair, sizeof pair, 1, rule, NULL, 0, NULL, 0), 13, 0));
    expect("encoder, nothing: 1, place 0", says(runglaet_encode(NULL, 0, 1, rule, NULL, 0, NULL, 0), 1, 0));

    static const uint8_t text[28] = "s SATISFIABLE\nv 1 -2 -3 4 0";
    expect("reader, no instance: 1, place 0",
           says(runglaet_read_valuation(NULL, 0, 1, rule, text, sizeof text - 1, words, 24), 1, 0));
    expect("reader, no text: 27, place 0",
           says(runglaet_read_valuation(pair, sizeof pair, 1, rule, NULL, 0, words, 24), 27, 0));
    expect("reader, no entries: 16, place 4",
           says(runglaet_read_valuation(pair, sizeof pair, 1, rule, text, sizeof text - 1, NULL, 0), 16, 4));
    expect("reader, neither: 16, place 4",
           says(runglaet_read_valuation(pair, sizeof pair, 1, rule, NULL, 0, NULL, 0), 16, 4));
    expect("reader, nothing: 1, place 0", says(runglaet_read_valuation(NULL, 0, 1, rule, NULL, 0, NULL, 0), 1, 0));

    expect("floor, no instance: 1, place 0", says(runglaet_floor(NULL, 0), 1, 0));

    expect("the words as they were", memcmp(words, before, sizeof words) == 0);
    expect("the plan's bytes as they were", plan[0] == 200 && plan[1] == 201);
}

/* The reader's answer for a text, N 4, in a slice of 6 entries: what it writes is 1 -2 -3 4, and nothing beyond. */
static int reads(const char *text, size_t length, uint32_t number, uint64_t second) {
    static const int32_t satisfying[4] = {1, -2, -3, 4};
    int32_t entries[6], before[6];
    for (int i = 0; i < 6; i++) entries[i] = before[i] = 1000 + i;
    runglaet_answer answer = runglaet_read_valuation(pair, sizeof pair, 1, rule, (const uint8_t *)text, length, entries, 6);
    size_t filled = number == 0 ? 4 : 0;
    return says(answer, number, second) && memcmp(entries, satisfying, filled * sizeof *entries) == 0 &&
           memcmp(entries + filled, before + filled, (6 - filled) * sizeof *entries) == 0;
}

#define READS(text, number, second) expect("reader: " text, reads(text, sizeof text - 1, number, second))

static void reader(void) {
    READS("s SATISFIABLE\nv 1 -2 -3 4 0\n", 0, 4);
    READS("s SATISFIABLE\nv 1 -2 -3 4 0", 0, 4);
    READS("c a comment\nv 4 -3\n\ns SATISFIABLE\nc\r\nv 1 -2\nv 0\n", 0, 4);
    READS("", 27, 0);
    READS("\n", 27, 1);
    READS("c\n", 27, 2);
    READS("s SATISFIABLE\nv 1 -2 -3 4\n", 27, 26);
    READS("v 1 -2 -3 4 0\n", 27, 14);
    READS("s SATISFIABLE\nv 1 -2 -3 4 0\nv 0\n", 27, 28);
    READS("s SATISFIABLE\nv 1 -2 -3 5 0\n", 27, 14);
    READS("s SATISFIABLE\nv 1 -2 -3 4 -0\n", 27, 14);
    READS("s SATISFIABLE\nv 1 -2 -3 4 0\r\n", 27, 14);
    READS("s SATISFIABLE\nv 1 -2 -3 18446744073709551620 0\n", 27, 14);
    READS("s SATISFIABLE\nv 1 -2 -3 4\0 0\n", 27, 14);
    READS("s SATISFIABLE\ns SATISFIABLE\nv 1 -2 -3 4 0\n", 27, 14);
    READS("s UNSATISFIABLE\n", 28, 0);
    READS("c\ns UNKNOWN\nv 1 1\n", 28, 2);
    READS("s SATISFIABLE\nv 1 -2 -3 0\n", 29, 4);
    READS("s SATISFIABLE\nv 1 -2 2 -3 4 0\n", 29, 2);

    /* The longest text, empty lines after the valuation, and one that is longer. */
    static char longest[RUNGLAET_TEXT_MAX + 1];
    static const char right[] = "s SATISFIABLE\nv 1 -2 -3 4 0";
    memset(longest, '\n', sizeof longest);
    memcpy(longest, right, sizeof right - 1);
    expect("524,288 bytes are the most", RUNGLAET_TEXT_MAX == 524288);
    expect("the longest text", reads(longest, RUNGLAET_TEXT_MAX, 0, 4));
    expect("a longer text", reads(longest, RUNGLAET_TEXT_MAX + 1, 27, 524288));
}

/* The plan check's answer for one agent on the pair's edge that is at these vertices; it must be accepted. */
static int costs(const uint8_t *plan, size_t length, uint64_t cost) {
    const uint8_t instance[8] = {2, 1, 1, 0, 0, 1, plan[0], plan[length - 1]};
    return says(runglaet_check_plan(instance, sizeof instance, length - 1, rule, plan, length), 0, cost);
}

#define COSTS(cost, ...) \
    expect("plan " #__VA_ARGS__ ": cost " #cost, costs(PLAN(__VA_ARGS__), sizeof PLAN(__VA_ARGS__), cost))

/* The cost is the time until rest: waits count up to the last move, and none after it. */
static void time_until_rest(void) {
    COSTS(0, 0);
    COSTS(0, 0, 0, 0);
    COSTS(1, 0, 1);
    COSTS(3, 0, 0, 0, 1);
    COSTS(1, 0, 1, 1, 1);
    COSTS(2, 0, 0, 1, 1);
    COSTS(2, 0, 1, 0);
    COSTS(2, 0, 1, 0, 0);
    COSTS(3, 0, 1, 1, 0);
    COSTS(3, 0, 1, 0, 1, 1);

    /* Two agents on two edges, 0-1 and 2-3: both move in both steps; the first moves, then the second. */
    static const uint8_t two[12] = {4, 2, 2, 0, 0, 2, 1, 3, 0, 2, 0, 2}, both[6] = {0, 2, 1, 3, 0, 2};
    expect("two agents: cost 4", says(runglaet_check_plan(two, sizeof two, 2, rule, both, 6), 0, 4));
    static const uint8_t other[12] = {4, 2, 2, 0, 0, 2, 1, 3, 0, 2, 1, 3}, turns[6] = {0, 2, 1, 2, 1, 3};
    expect("one and then the other: cost 3", says(runglaet_check_plan(other, sizeof other, 2, rule, turns, 6), 0, 3));
}

/* The greatest distance from a start to its goal; 30 where one is unreachable. */
static void floors(void) {
    FLOOR("pair: 1", 0, 1, 2, 1, 1, 0, 0, 1, 0, 1);
    FLOOR("pair, it stays: 0", 0, 0, 2, 1, 1, 0, 0, 1, 0, 0);
    FLOOR("pair, back: 1", 0, 1, 2, 1, 1, 0, 0, 1, 1, 0);
    FLOOR("path, 0 to 2: 2", 0, 2, 3, 1, 2, 0, 0, 1, 1, 2, 0, 2);
    FLOOR("path, 1 to 1 and 0 to 2: 2", 0, 2, 3, 2, 2, 0, 0, 1, 1, 2, 1, 0, 1, 2);
    FLOOR("path, 0 to 1 and 1 to 2: 1", 0, 1, 3, 2, 2, 0, 0, 1, 1, 2, 0, 1, 1, 2);
    FLOOR("no edge, 0 to 1: 30, place 5", 30, 5, 2, 1, 0, 0, 0, 1);
    /* The edges 0-1 and 2-3. */
    FLOOR("two parts, agent 1: 30, place 11", 30, 11, 4, 2, 2, 0, 0, 2, 1, 3, 0, 2, 1, 0);
    FLOOR("two parts, both: 30, place 10", 30, 10, 4, 2, 2, 0, 0, 2, 1, 3, 0, 2, 2, 0);
    FLOOR("edge 0-1 twice: 7, place 5", 7, 5, 3, 1, 2, 0, 0, 0, 1, 1, 0, 2);
    FLOOR("three bytes: 1, place 3", 1, 3, 2, 1, 1);

    /* A path of 64 vertices from end to end, longer than any horizon; without its last edge 30. */
    uint8_t instance[4 + 2 * 63 + 2] = {64, 1, 63, 0};
    for (int j = 0; j < 63; j++) instance[4 + j] = (uint8_t)j, instance[4 + 63 + j] = (uint8_t)(j + 1);
    instance[4 + 2 * 63] = 0, instance[4 + 2 * 63 + 1] = 63;
    expect("floor, path of 64: 63", says(runglaet_floor(instance, sizeof instance), 0, 63));
    uint8_t cut[4 + 2 * 62 + 2] = {64, 1, 62, 0};
    for (int j = 0; j < 62; j++) cut[4 + j] = (uint8_t)j, cut[4 + 62 + j] = (uint8_t)(j + 1);
    cut[4 + 2 * 62] = 0, cut[4 + 2 * 62 + 1] = 63;
    expect("floor, path of 63 and a vertex: 30, place 129", says(runglaet_floor(cut, sizeof cut), 30, 129));
}

/* What the calls for other languages rely on. */
static void layouts(void) {
    expect("an answer: 16 bytes", sizeof(runglaet_answer) == 16);
    expect("an answer's numbers: at 0 and 8", offsetof(runglaet_answer, number) == 0 &&
                                                  offsetof(runglaet_answer, second) == 8);
    expect("a size: 24 bytes", sizeof(runglaet_size) == 24);
    expect("a size's numbers: at 0, 8 and 16", offsetof(runglaet_size, number) == 0 &&
                                                   offsetof(runglaet_size, second) == 8 &&
                                                   offsetof(runglaet_size, clauses) == 16);
}

#define REFUSED(what, number, second, ...) \
    expect("sizes, " what, unsized(BYTES(__VA_ARGS__), sizeof BYTES(__VA_ARGS__), 1, number, second))

/* How many of the first places no longer hold 1000 and their index? */
static size_t written(const int32_t *words, size_t length) {
    size_t count = 0;
    for (size_t i = 0; i < length; i++) count += words[i] != 1000 + (int32_t)i;
    return count;
}

/* The size calls, with each refusal; the writers with slices that are one word short and just long enough. */
static void formula_sizes(void) {
    REFUSED("three bytes: 1, place 3", 1, 3, 2, 1, 1);
    REFUSED("65 vertices: 2, place 0", 2, 0, 65, 1, 0, 0, 0, 1);
    REFUSED("3 agents on 2 vertices: 3, place 1", 3, 1, 2, 3, 0, 0, 0, 1, 0, 1, 0, 1);
    REFUSED("2 edges on 2 vertices: 4, place 2", 4, 2, 2, 1, 2, 0, 0, 0, 1, 1, 0, 1);
    REFUSED("a byte more: 5, place 9", 5, 9, 2, 1, 1, 0, 0, 1, 0, 1, 0);
    REFUSED("edge 1-0: 6, place 4", 6, 4, 2, 1, 1, 0, 1, 0, 0, 1);
    REFUSED("edge 0-1 twice: 7, place 5", 7, 5, 3, 1, 2, 0, 0, 0, 1, 1, 0, 2);
    REFUSED("start 2 on 2 vertices: 8, place 6", 8, 6, 2, 1, 1, 0, 0, 1, 2, 1);
    REFUSED("goal 2 on 2 vertices: 9, place 7", 9, 7, 2, 1, 1, 0, 0, 1, 0, 2);
    expect("sizes, m 33: 10, place 0", unsized(pair, sizeof pair, 33, 10, 0));

    expect("size: 24 words, 8 clauses", counts(runglaet_formula_size(pair, sizeof pair, 1, rule), 0, 24, 8));
    expect("pruned size: 28 words, 10 clauses", counts(runglaet_pruned_size(pair, sizeof pair, 1, rule), 0, 28, 10));
    for (int f = 0; f < 2; f++) {
        size_t size = f == 0 ? 24 : 28;
        int32_t words[30];
        for (int i = 0; i < 30; i++) words[i] = 1000 + i;
        expect("a slice one word short: 12", says(writers[f](pair, sizeof pair, 1, rule, words, size - 1), 12, size));
        expect("it stays as it was", written(words, 30) == 0);
        expect("a slice just long enough: 0, 0", says(writers[f](pair, sizeof pair, 1, rule, words, size), 0, 0));
        expect("all of it is written, and nothing beyond", written(words, size) == size && written(words, 30) == size);
    }
}

/* The pair's formula at m 1, and then -2 and -3: at time 0 not at 1, at time 1 not at 0. */
static void pruned_writer(const int32_t *formula) {
    static const int32_t family_h[4] = {-2, 0, -3, 0};
    int32_t words[30], before[30];
    for (int i = 0; i < 30; i++) words[i] = before[i] = 1000 + i;
    expect("pruned, 27 words: 12, place 28",
           says(runglaet_write_pruned(pair, sizeof pair, 1, rule, words, 27), 12, 28));
    expect("pruned, 24 words: 12, place 28",
           says(runglaet_write_pruned(pair, sizeof pair, 1, rule, words, 24), 12, 28));
    expect("pruned, m 33: 10, place 0", says(runglaet_write_pruned(pair, sizeof pair, 33, rule, words, 30), 10, 0));
    expect("pruned, refusals change nothing", memcmp(words, before, sizeof words) == 0);
    expect("pruned: written", says(runglaet_write_pruned(pair, sizeof pair, 1, rule, words, 30), 0, 0));
    expect("pruned: the formula first", memcmp(words, formula, 24 * sizeof *words) == 0);
    expect("pruned: then family H", memcmp(words + 24, family_h, sizeof family_h) == 0);
    expect("pruned: nothing beyond", words[28] == 1028 && words[29] == 1029);

    /* m 0 is below the floor: at 0 and at 1 it cannot be. One clause by number knows nothing of it. */
    static const int32_t nowhere[14] = {1, 0, 2, 0, 1, 2, 0, -1, -2, 0, -1, 0, -2, 0};
    expect("pruned, m 0: 14 words, 6 clauses", counts(runglaet_pruned_size(pair, sizeof pair, 0, rule), 0, 14, 6));
    expect("pruned, m 0: written", says(runglaet_write_pruned(pair, sizeof pair, 0, rule, words, 30), 0, 0));
    expect("pruned, m 0: the words", memcmp(words, nowhere, sizeof nowhere) == 0);
    expect("clause 4 at m 0 gets 11", says(runglaet_clause(pair, sizeof pair, 0, rule, 4, words, 30), 11, 4));

    /* The path's middle is too far from both ends at m 0, and that is one clause. */
    static const uint8_t path[10] = {3, 1, 2, 0, 0, 1, 1, 2, 0, 2};
    static const int32_t all[6] = {-1, 0, -2, 0, -3, 0};
    expect("pruned, path, m 0: 23 words, 9 clauses", counts(runglaet_pruned_size(path, 10, 0, rule), 0, 23, 9));
    expect("pruned, path, m 0: written", says(runglaet_write_pruned(path, 10, 0, rule, words, 30), 0, 0));
    expect("pruned, path, m 0: family H", memcmp(words + 17, all, sizeof all) == 0);
}

/* The pair of document 01. */
static void one_agent(void) {
    static const int32_t formula[24] = {1,  0,  4, 0,  1,  2, 0,  3, 4, 0,  -1, -2,
                                        0, -3, -4, 0, -1,  3, 4,  0, -2, 4,  3,  0};
    int32_t words[25], before[25];
    for (int i = 0; i < 25; i++) words[i] = before[i] = 1000 + i;

    expect("a slice of 23 gets 12, place 24",
           says(runglaet_write_formula(pair, sizeof pair, 1, rule, words, 23), 12, 24));
    expect("a refusal changes nothing", memcmp(words, before, sizeof words) == 0);
    expect("a slice of 25 is enough", says(runglaet_write_formula(pair, sizeof pair, 1, rule, words, 25), 0, 0));
    expect("the words", memcmp(words, formula, sizeof formula) == 0);
    expect("nothing beyond", words[24] == 1024);

    expect("clause 7", says(runglaet_clause(pair, sizeof pair, 1, rule, 7, words, 25), 0, 4));
    expect("its words", memcmp(words, formula + 20, 4 * sizeof *words) == 0);
    expect("clause 8 gets 11", says(runglaet_clause(pair, sizeof pair, 1, rule, 8, words, 25), 11, 8));

    static const uint8_t moves[2] = {0, 1}, stays[1] = {0};
    expect("plan 0 1, cost 1", says(runglaet_check_plan(pair, sizeof pair, 1, rule, moves, 2), 0, 1));
    expect("m 0, plan 0", says(runglaet_check_plan(pair, sizeof pair, 0, rule, stays, 1), 22, 0));
    expect("m 33", says(runglaet_check_plan(pair, sizeof pair, 33, rule, moves, 2), 10, 0));

    static const int32_t satisfying[4] = {1, -2, -3, 4}, twice[4] = {1, -2, 3, 4}, nowhere[4] = {-1, -2, -3, -4},
                         displaced[4] = {1, -2, -4, 3}, lowest[4] = {INT32_MIN, -2, -3, 4};
    uint8_t plan[3] = {200, 201, 202};
    expect("24, place 5", says(runglaet_decode(pair, sizeof pair, 1, rule, twice, 4, plan, 3), 24, 5));
    expect("24, place 0", says(runglaet_decode(pair, sizeof pair, 1, rule, nowhere, 4, plan, 3), 24, 0));
    expect("23, place 2", says(runglaet_decode(pair, sizeof pair, 1, rule, displaced, 4, plan, 3), 23, 2));
    expect("23, place 0", says(runglaet_decode(pair, sizeof pair, 1, rule, lowest, 4, plan, 3), 23, 0));
    expect("the plan as it was", plan[0] == 200 && plan[1] == 201 && plan[2] == 202);
    expect("decoded", says(runglaet_decode(pair, sizeof pair, 1, rule, satisfying, 4, plan, 3), 0, 2));
    expect("the plan 0 1", plan[0] == 0 && plan[1] == 1 && plan[2] == 202);

    int32_t entries[4] = {7, 7, 7, 7};
    expect("16, place 4", says(runglaet_encode(pair, sizeof pair, 1, rule, moves, 2, entries, 3), 16, 4));
    expect("the entries as they were", entries[0] == 7 && entries[1] == 7 && entries[2] == 7 && entries[3] == 7);
    expect("encoded", says(runglaet_encode(pair, sizeof pair, 1, rule, moves, 2, entries, 4), 0, 4));
    expect("the entries 1 -2 -3 4", memcmp(entries, satisfying, sizeof entries) == 0);
    static const uint8_t jump[10] = {3, 1, 2, 0, 0, 1, 1, 2, 0, 2}, jumped[2] = {0, 2};
    expect("path: 19, place 1", says(runglaet_check_plan(jump, sizeof jump, 1, rule, jumped, 2), 19, 1));

    pruned_writer(formula);
}

int main(void) {
    for (rule = 1; rule <= 2; rule++) {
        one_agent();
        time_until_rest();
        reader();
        formula_sizes();
        null_pointers();
    }
    floors();
    layouts();
    return finished("c_check");
}
