/* The calls with a ceiling on examples worked out by hand, with refusals and with null pointers, from C, under both rules. */
#include "c_check.h"

/* The words of the pair's formula at m 1; with a ceiling come then the clauses of rest and, at c 0, the limit. Variable 5
 * is B(0,0). */
static const int32_t formula[34] = {1,  0,  4, 0, 1,  2, 0, 3, 4,  0, -1, -2, 0,  -3, -4, 0,  -1,
                                    3,  4,  0, -2, 4, 3, 0, -1, 3, 5, 0,  -2, 4,  5,  0,  -5, 0};

/* What is added at m 3 with c 1: B are 9 to 11, 12 and 13 count the last two, 14 and 15 all. */
static const int32_t added[59] = {-1,  3,  9,   0,  -2,  4,   9,  0,   -3,  5,  10,  0,  -4, 6,   10, 0,  -5, 7,  11, 0,
                                  -6,  8,  11,  0,  -10, 9,   0,  -11, 10,  0,  -11, 12, 0,  -10, 12, 0,  -10, -11, 13, 0,
                                  -12, 14, 0,   -13, 15, 0,   -9, 14,  0,   -9, -12, 15, 0,  -9,  -13, 15, 0, -15, 0};

static void fill(int32_t *words, int count) {
    for (int i = 0; i < count; i++) words[i] = 1000 + i;
}

/* Do those from this one on hold what they held? */
static int kept(const int32_t *words, int from, int count) {
    for (int i = from; i < count; i++)
        if (words[i] != 1000 + i) return 0;
    return 1;
}

static int sized(uint64_t m, uint64_t c, uint32_t number, uint64_t second, uint64_t clauses) {
    return counts(runglaet_ceiling_size(pair, sizeof pair, m, rule, c), number, second, clauses);
}

static void sizes_and_words(void) {
    int32_t words[120];
    fill(words, 120);
    expect("size, m 0, c 0: 10 words, 4 clauses", sized(0, 0, 0, 10, 4));
    expect("size, m 0, c 128: the same", sized(0, 128, 0, 10, 4));
    expect("size, m 1, c 0: 34 words, 11 clauses", sized(1, 0, 0, 34, 11));
    expect("size, m 1, c 1: 32 words, 10 clauses", sized(1, 1, 0, 32, 10));
    expect("size, m 3, c 1: 111 words, 33 clauses", sized(3, 1, 0, 111, 33));
    expect("size, m 33: 10, place 0", sized(33, 0, 10, 0, 0));
    expect("size, c 129: 32, place 0", sized(1, 129, 32, 0, 0));
    expect("size, c 129 at m 0: 32, place 0", sized(0, 129, 32, 0, 0));
    expect("size, c 2^32: 32, place 0", sized(1, (uint64_t)1 << 32, 32, 0, 0));
    expect("size, c 2^64 - 1: 32, place 0", sized(1, UINT64_MAX, 32, 0, 0));
    expect("size, m 33 and c 129: 10", sized(33, 129, 10, 0, 0));
    expect("size, rule 3 and c 129: 31",
           counts(runglaet_ceiling_size(pair, sizeof pair, 1, 3, 129), 31, 0, 0));

    expect("writer, 33 words: 12, place 34",
           says(runglaet_write_ceiling(pair, sizeof pair, 1, rule, 0, words, 33), 12, 34));
    expect("writer, the formula's words: 12, place 34",
           says(runglaet_write_ceiling(pair, sizeof pair, 1, rule, 0, words, 24), 12, 34));
    expect("writer, c 129: 32", says(runglaet_write_ceiling(pair, sizeof pair, 1, rule, 129, words, 120), 32, 0));
    expect("writer, c 129 and no words: 32", says(runglaet_write_ceiling(pair, sizeof pair, 1, rule, 129, NULL, 0), 32, 0));
    expect("writer, refusals change nothing", kept(words, 0, 120));
    expect("writer, m 1, c 0", says(runglaet_write_ceiling(pair, sizeof pair, 1, rule, 0, words, 120), 0, 0));
    expect("its words", memcmp(words, formula, sizeof formula) == 0);
    expect("nothing beyond", kept(words, 34, 120));
    fill(words, 120);
    expect("writer, m 1, c 1", says(runglaet_write_ceiling(pair, sizeof pair, 1, rule, 1, words, 32), 0, 0));
    expect("its words, without the limit", memcmp(words, formula, 32 * sizeof *words) == 0 && kept(words, 32, 120));
    fill(words, 120);
    expect("writer, m 3, c 1", says(runglaet_write_ceiling(pair, sizeof pair, 3, rule, 1, words, 111), 0, 0));
    expect("the words that are added", memcmp(words + 52, added, sizeof added) == 0 && kept(words, 111, 120));
    int32_t base[120];
    fill(base, 120);
    fill(words, 120);
    expect("the formula, m 0", says(runglaet_write_formula(pair, sizeof pair, 0, rule, base, 120), 0, 0));
    expect("writer, m 0, c 0", says(runglaet_write_ceiling(pair, sizeof pair, 0, rule, 0, words, 120), 0, 0));
    expect("nothing is added", memcmp(words, base, sizeof words) == 0);
}

/* The pair at m 3 with c 1: it moves at once and rests. */
static const int32_t right[15] = {1, -2, -3, 4, -5, 6, -7, 8, 9, -10, -11, -12, -13, 14, -15};

static int decodes(int changed, uint32_t number, uint64_t second) {
    int32_t entries[15];
    uint8_t plan[5] = {200, 201, 202, 203, 204};
    memcpy(entries, right, sizeof right);
    if (changed != 0) entries[(changed < 0 ? -changed : changed) - 1] = changed;
    runglaet_answer answer = runglaet_decode_ceiling(pair, sizeof pair, 3, rule, 1, entries, 15, plan, 5);
    static const uint8_t moved[5] = {0, 1, 1, 1, 204}, before[5] = {200, 201, 202, 203, 204};
    return says(answer, number, second) && memcmp(plan, number == 0 ? moved : before, 5) == 0;
}

static void plans_and_valuations(void) {
    static const uint8_t moves[4] = {0, 1, 1, 1}, waits[4] = {0, 0, 1, 1}, misses[4] = {0, 1, 0, 0}, last[4] = {0, 0, 0, 1};
    int32_t entries[20];
    fill(entries, 20);
    expect("encoder, 14 entries: 16, place 15",
           says(runglaet_encode_ceiling(pair, sizeof pair, 3, rule, 1, moves, 4, entries, 14), 16, 15));
    expect("encoder, cost 2: 33, place 2",
           says(runglaet_encode_ceiling(pair, sizeof pair, 3, rule, 1, waits, 4, entries, 15), 33, 2));
    expect("encoder, cost 3: 33, place 3",
           says(runglaet_encode_ceiling(pair, sizeof pair, 3, rule, 0, last, 4, entries, 20), 33, 3));
    expect("encoder, the goal missed, dear too: 22, place 3",
           says(runglaet_encode_ceiling(pair, sizeof pair, 3, rule, 1, misses, 4, entries, 15), 22, 3));
    expect("encoder, too short, dear too: 16, place 15",
           says(runglaet_encode_ceiling(pair, sizeof pair, 3, rule, 1, last, 4, entries, 14), 16, 15));
    expect("encoder, c 129: 32", says(runglaet_encode_ceiling(pair, sizeof pair, 3, rule, 129, moves, 4, entries, 20), 32, 0));
    expect("encoder, refusals change nothing", kept(entries, 0, 20));
    expect("encoded: 15", says(runglaet_encode_ceiling(pair, sizeof pair, 3, rule, 1, moves, 4, entries, 20), 0, 15));
    expect("its entries", memcmp(entries, right, sizeof right) == 0 && kept(entries, 15, 20));

    expect("decoded: 4", decodes(0, 0, 4));
    expect("the base: 24, place 0", decodes(-1, 24, 0));
    expect("rest: 24, place 16", decodes(-9, 24, 16));
    expect("chain: 24, place 23", decodes(11, 24, 23));
    expect("tree: 24, place 25", decodes(10, 24, 25));
    expect("tree: 24, place 29", decodes(-14, 24, 29));
    expect("limit: 24, place 32", decodes(15, 24, 32));
    uint8_t plan[4];
    expect("decoder, the base's entries: 14, place 8",
           says(runglaet_decode_ceiling(pair, sizeof pair, 3, rule, 1, right, 8, plan, 4), 14, 8));
    expect("decoder, a plan too short: 15, place 4",
           says(runglaet_decode_ceiling(pair, sizeof pair, 3, rule, 1, right, 15, plan, 3), 15, 4));
    int32_t lowest[15];
    memcpy(lowest, right, sizeof right);
    lowest[14] = INT32_MIN;
    expect("decoder, the lowest number: 23, place 14",
           says(runglaet_decode_ceiling(pair, sizeof pair, 3, rule, 1, lowest, 15, plan, 4), 23, 14));
    expect("decoder, c 129: 32",
           says(runglaet_decode_ceiling(pair, sizeof pair, 3, rule, 129, right, 15, plan, 4), 32, 0));
}

/* Five variables: the pair at m 1. */
static int reads(const char *text, uint32_t number, uint64_t second) {
    static const int32_t all[5] = {1, -2, -3, 4, 5};
    int32_t entries[7];
    fill(entries, 7);
    runglaet_answer answer = runglaet_read_ceiling(pair, sizeof pair, 1, rule, 1, (const uint8_t *)text, strlen(text),
                                                   entries, 7);
    int filled = number == 0 ? 5 : 0;
    return says(answer, number, second) && memcmp(entries, all, (size_t)filled * sizeof *all) == 0 &&
           kept(entries, filled, 7);
}

static void texts(void) {
    expect("reader: 5", reads("s SATISFIABLE\nv 1 -2 -3 4 5 0\n", 0, 5));
    expect("reader, any order: 5", reads("v 5 4\ns SATISFIABLE\nv -3 -2 1 0", 0, 5));
    expect("reader, 6: 27, place 14", reads("s SATISFIABLE\nv 1 -2 -3 4 6 0\n", 27, 14));
    expect("reader, UNKNOWN: 28", reads("s UNKNOWN\n", 28, 0));
    expect("reader, 5 missing: 29, place 5", reads("s SATISFIABLE\nv 1 -2 -3 4 0\n", 29, 5));
    expect("reader, 5 twice: 29, place 5", reads("s SATISFIABLE\nv 1 -2 -3 4 5 -5 0\n", 29, 5));
}

/* A null pointer with length 0 is an empty slice. */
static void null_pointers(void) {
    static const uint8_t moves[2] = {0, 1}, text[10] = "s UNKNOWN";
    static const int32_t all[5] = {1, -2, -3, 4, 5};
    int32_t words[40];
    uint8_t plan[2] = {200, 201};
    fill(words, 40);
    expect("sizes without a ceiling, no instance: 1", unsized(NULL, 0, 1, 1, 0));
    expect("size, no instance: 1", counts(runglaet_ceiling_size(NULL, 0, 1, rule, 1), 1, 0, 0));
    expect("writer, no instance: 1", says(runglaet_write_ceiling(NULL, 0, 1, rule, 1, words, 40), 1, 0));
    expect("writer, no words: 12", says(runglaet_write_ceiling(pair, sizeof pair, 1, rule, 1, NULL, 0), 12, 32));
    expect("writer, neither: 1", says(runglaet_write_ceiling(NULL, 0, 1, rule, 1, NULL, 0), 1, 0));
    expect("decoder, no instance: 1", says(runglaet_decode_ceiling(NULL, 0, 1, rule, 1, all, 5, plan, 2), 1, 0));
    expect("decoder, no entries: 14", says(runglaet_decode_ceiling(pair, sizeof pair, 1, rule, 1, NULL, 0, plan, 2), 14, 0));
    expect("decoder, no plan: 15", says(runglaet_decode_ceiling(pair, sizeof pair, 1, rule, 1, all, 5, NULL, 0), 15, 2));
    expect("decoder, nothing: 1", says(runglaet_decode_ceiling(NULL, 0, 1, rule, 1, NULL, 0, NULL, 0), 1, 0));
    expect("encoder, no instance: 1", says(runglaet_encode_ceiling(NULL, 0, 1, rule, 1, moves, 2, words, 40), 1, 0));
    expect("encoder, no plan: 13", says(runglaet_encode_ceiling(pair, sizeof pair, 1, rule, 1, NULL, 0, words, 40), 13, 0));
    expect("encoder, no entries: 16", says(runglaet_encode_ceiling(pair, sizeof pair, 1, rule, 1, moves, 2, NULL, 0), 16, 5));
    expect("encoder, nothing: 1", says(runglaet_encode_ceiling(NULL, 0, 1, rule, 1, NULL, 0, NULL, 0), 1, 0));
    expect("reader, no instance: 1", says(runglaet_read_ceiling(NULL, 0, 1, rule, 1, text, 9, words, 40), 1, 0));
    expect("reader, no text: 27", says(runglaet_read_ceiling(pair, sizeof pair, 1, rule, 1, NULL, 0, words, 40), 27, 0));
    expect("reader, no entries: 16", says(runglaet_read_ceiling(pair, sizeof pair, 1, rule, 1, text, 9, NULL, 0), 16, 5));
    expect("reader, nothing: 1", says(runglaet_read_ceiling(NULL, 0, 1, rule, 1, NULL, 0, NULL, 0), 1, 0));
    expect("the words as they were", kept(words, 0, 40));
    expect("the plan's bytes as they were", plan[0] == 200 && plan[1] == 201);
}

/* The path with two agents, 0 to 1 and 1 to 2, at m 2: agent 1 makes room, then agent 0 moves, which costs 3. */
static void two_agents(void) {
    static const uint8_t path[12] = {3, 2, 2, 0, 0, 1, 1, 2, 0, 1, 1, 2}, plan[6] = {0, 1, 0, 2, 1, 2};
    /* B are 19 to 22; each time's are counted by 2 outputs, all by 4. */
    static const int32_t behind[12] = {19, 20, 21, -22, 23, 24, 25, -26, 27, 28, 29, -30};
    int32_t entries[32];
    fill(entries, 32);
    uint64_t words = rule == 1 ? 305 : 309, clauses = rule == 1 ? 90 : 86;
    expect("two agents, c 1: the size",
           counts(runglaet_ceiling_size(path, sizeof path, 2, rule, 1), 0, words, clauses));
    expect("two agents, c 2: 33, place 3",
           says(runglaet_encode_ceiling(path, sizeof path, 2, rule, 2, plan, 6, entries, 32), 33, 3));
    expect("as they were", kept(entries, 0, 32));
    expect("two agents, c 3: encoded",
           says(runglaet_encode_ceiling(path, sizeof path, 2, rule, 3, plan, 6, entries, 32), 0, 30));
    expect("what is behind the base", memcmp(entries + 18, behind, sizeof behind) == 0 && kept(entries, 30, 32));
    uint8_t back[6];
    expect("decoded", says(runglaet_decode_ceiling(path, sizeof path, 2, rule, 3, entries, 30, back, 6), 0, 6));
    expect("the plan", memcmp(back, plan, sizeof plan) == 0);
    /* They close up in one step, which rule 2 allows, and costs 2. */
    static const uint8_t file[4] = {0, 1, 1, 2};
    expect("a file closes up",
           says(runglaet_encode_ceiling(path, sizeof path, 1, rule, 1, file, 4, entries, 32), rule == 1 ? 26 : 33, 2));
}

int main(void) {
    for (rule = 1; rule <= 2; rule++) {
        sizes_and_words();
        plans_and_valuations();
        texts();
        null_pointers();
        two_agents();
    }
    return finished("c_ceiling");
}
