/* How much stack each call uses: the calls run on a painted stack, and what is no longer painted was used.
 *
 * The inputs are the largest ones: 64 vertices, all 2016 edges, 16 agents, horizon 32. Each call is made with inputs
 * that it accepts and with some that it refuses late, and its answers are compared with those of documents 01 and 02.
 * For the floor and the pruned formula there are also the longest path, and the same in two parts. Then all agents are
 * free; at last they have their goals again, and the rule is 2. */
#include "stack.h"

/* The path 0-1-..-63: as many clauses, but shorter ones in family F. From a to 63-a is further than M for every agent, so
 * that family H rules out all. */
enum { PATH_E = N - 1, PATH_H = VARIABLES, PATH_WORDS = WORDS - 2 * M * K * (E - PATH_E) + 2 * PATH_H };

static uint8_t decoded[PLAN];
/* Agents without a goal: none, or all. Family B has no clause for them, and at time M family H rules out nothing. */
static int idle = 0;
static int32_t words[CLOSING_WORDS + 2 * H], encoded[VARIABLES];

/* The path, and the same without its middle edge. */
enum { PATH, CUT };
static uint8_t paths[2][4 + 2 * PATH_E + 2 * K];
static const size_t path_lengths[2] = {4 + 2 * PATH_E + 2 * K, 4 + 2 * (PATH_E - 1) + 2 * K};

/* Texts of the valuation of PASSES: v lines of at most 78 bytes, after an s line. ENDS_WRONG: a wrong line follows.
 * SAYS_UNKNOWN: the s line is another, and comes last. LACKS: without the last variable. LONGEST: empty lines make it as
 * long as may be, LONGER: by a byte longer. */
enum { RIGHT, ENDS_WRONG, SAYS_UNKNOWN, LACKS, LONGEST, LONGER, TEXTS };
static text texts[TEXTS];
static size_t wrong_line, unknown_line;

static void fill_texts(void) {
    for (int which = 0; which < TEXTS; which++) {
        if (which != SAYS_UNKNOWN) append(&texts[which], "s SATISFIABLE\n");
        print_literals(&texts[which], valuations[PASSES], which == LACKS ? VARIABLES - 1 : VARIABLES);
    }
    wrong_line = texts[ENDS_WRONG].length;
    append(&texts[ENDS_WRONG], "v 1\n");
    unknown_line = texts[SAYS_UNKNOWN].length;
    append(&texts[SAYS_UNKNOWN], "s UNKNOWN");
    lengthen(&texts[LONGEST], RUNGLAET_TEXT_MAX);
    lengthen(&texts[LONGER], RUNGLAET_TEXT_MAX + 1);
}

static void fill_path(int which) {
    int e = PATH_E - (which == CUT), j = 4;
    uint8_t *path = paths[which];
    path[0] = N;
    path[1] = K;
    path[2] = (uint8_t)e;
    for (int low = 0; low < N - 1; low++) {
        if (which == CUT && low == N / 2 - 1) continue;
        path[j] = (uint8_t)low;
        path[j + e] = (uint8_t)(low + 1);
        j++;
    }
    for (int a = 0; a < K; a++) {
        path[4 + 2 * e + a] = (uint8_t)a;
        path[4 + 2 * e + K + a] = (uint8_t)(N - 1 - a);
    }
}

enum {
    WRITER, CLAUSE, CHECK, DECODER, ENCODER, READER, FLOOR, PRUNED, PATH_FLOOR, PATH_PRUNED, FORMULA_SIZE, PRUNED_SIZE,
    PATH_SIZE, TALLY
};

/* Records of the tally: one that takes all these calls, and one that takes none. */
static runglaet_tally records[2] = {{0}, {.passed = 65535}};

static runglaet_size make(const run *r) {
    const uint8_t *plan = plans[r->chosen < PLANS ? r->chosen : PASSES];
    const int32_t *entries = valuations[r->chosen < PLANS ? r->chosen : PASSES];
    runglaet_answer answer = {0, 0};
    switch (r->which) {
    case WRITER: answer = runglaet_write_formula(instance, sizeof instance, r->horizon, rule, words, r->length); break;
    case CLAUSE:
        answer = runglaet_clause(instance, sizeof instance, r->horizon, rule, r->chosen, words, r->length);
        break;
    case CHECK: answer = runglaet_check_plan(instance, sizeof instance, r->horizon, rule, plan, r->length); break;
    case DECODER:
        answer = runglaet_decode(instance, sizeof instance, r->horizon, rule, entries, VARIABLES, decoded, r->length);
        break;
    case ENCODER:
        answer = runglaet_encode(instance, sizeof instance, r->horizon, rule, plan, PLAN, encoded, r->length);
        break;
    case READER:
        answer = runglaet_read_valuation(instance, sizeof instance, r->horizon, rule, (const uint8_t *)texts[r->chosen].bytes,
                                         texts[r->chosen].length, encoded, r->length);
        break;
    case FLOOR: answer = runglaet_floor(instance, sizeof instance); break;
    case PRUNED: answer = runglaet_write_pruned(instance, sizeof instance, r->horizon, rule, words, r->length); break;
    case PATH_FLOOR: answer = runglaet_floor(paths[r->chosen], path_lengths[r->chosen]); break;
    case PATH_PRUNED:
        answer = runglaet_write_pruned(paths[r->chosen], path_lengths[r->chosen], r->horizon, rule, words, r->length);
        break;
    case FORMULA_SIZE: return runglaet_formula_size(instance, sizeof instance, r->horizon, rule);
    case PRUNED_SIZE: return runglaet_pruned_size(instance, sizeof instance, r->horizon, rule);
    case PATH_SIZE: return runglaet_pruned_size(paths[r->chosen], path_lengths[r->chosen], r->horizon, rule);
    case TALLY:
        answer = runglaet_tally_plan(instance, sizeof instance, r->horizon, rule, plan, r->length,
                                     &records[r->number == 34]);
        break;
    }
    return (runglaet_size){answer.number, answer.second, 0};
}

static uint64_t clauses_of(const run *r) {
    uint64_t all = rule == 1 ? CLAUSES - idle : CLOSING_CLAUSES;
    return r->which == FORMULA_SIZE  ? all
           : r->which == PRUNED_SIZE ? all + (idle ? H / 2 : H)
           : r->which == PATH_SIZE   ? CLAUSES + PATH_H
                                     : 0;
}

/* Makes the calls; `most` is the most bytes of any call, of the reader, and of those of the pruned formula. */
static void measure_all(const run *runs, size_t count, size_t most[3]) {
    for (size_t i = 0; i < count; i++) {
        int which = runs[i].which;
        int pruned = which == PRUNED || which == PATH_PRUNED || which == PRUNED_SIZE || which == PATH_SIZE;
        size_t bytes = measured(&runs[i]);
        size_t *counted = &most[which == READER ? 1 : pruned ? 2 : 0];
        if (bytes > *counted) *counted = bytes;
    }
}

int main(void) {
    fill();
    fill_path(PATH);
    fill_path(CUT);
    fill_texts();
    const run runs[] = {
        {FORMULA_SIZE, "formula size, accepted", M, 0, 0, 0, WORDS},
        {FORMULA_SIZE, "formula size, horizon 33", M + 1, 0, 0, 10, 0},
        {WRITER, "writer, accepted", M, 0, WORDS, 0, 0},
        {WRITER, "writer, slice too short", M, 0, WORDS - 1, 12, WORDS},
        {WRITER, "writer, horizon 33", M + 1, 0, WORDS, 10, 0},
        {CLAUSE, "clause of family A", M, 0, WORDS, 0, 2},
        {CLAUSE, "clause of family B", M, A, WORDS, 0, 2},
        {CLAUSE, "clause of family C", M, A + B, WORDS, 0, N + 1},
        {CLAUSE, "clause of family D", M, A + B + C + D - 1, WORDS, 0, 3},
        {CLAUSE, "clause of family E", M, A + B + C + D + EE - 1, WORDS, 0, 3},
        {CLAUSE, "clause of family F", M, A + B + C + D + EE + F - 1, WORDS, 0, N + 2},
        {CLAUSE, "clause of family G", M, CLAUSES - 1, WORDS, 0, 3},
        {CLAUSE, "clause, no such number", M, CLAUSES, WORDS, 11, CLAUSES},
        {CLAUSE, "clause, slice too short", M, CLAUSES - 1, 2, 12, 3},
        {CHECK, "plan check, accepted", M, PASSES, PLAN, 0, K},
        {CHECK, "plan check, exchange in the last step", M, SWAPS, PLAN, 25, M * K + K - 2},
        {CHECK, "plan check, plan too short", M, PASSES, PLAN - 1, 13, PLAN - 1},
        {TALLY, "tally, accepted", M, PASSES, PLAN, 0, K},
        {TALLY, "tally, exchange in the last step", M, SWAPS, PLAN, 25, M * K + K - 2},
        {TALLY, "tally, plan too short", M, PASSES, PLAN - 1, 13, PLAN - 1},
        {TALLY, "tally, record full", M, PASSES, PLAN, 34, 65535},
        {DECODER, "decoder, accepted", M, PASSES, PLAN, 0, PLAN},
        {DECODER, "decoder, falsified clause of family G", M, SWAPS, PLAN, 24, SWAPPED},
        {DECODER, "decoder, slice too short", M, PASSES, PLAN - 1, 15, PLAN},
        {ENCODER, "encoder, accepted", M, PASSES, VARIABLES, 0, VARIABLES},
        {ENCODER, "encoder, exchange in the last step", M, SWAPS, VARIABLES, 25, M * K + K - 2},
        {ENCODER, "encoder, slice too short", M, PASSES, VARIABLES - 1, 16, VARIABLES},
        {READER, "reader, accepted", M, RIGHT, VARIABLES, 0, VARIABLES},
        {READER, "reader, slice too short", M, RIGHT, VARIABLES - 1, 16, VARIABLES},
        {READER, "reader, wrong line at the end", M, ENDS_WRONG, VARIABLES, 27, wrong_line},
        {READER, "reader, s line says otherwise", M, SAYS_UNKNOWN, VARIABLES, 28, unknown_line},
        {READER, "reader, last variable missing", M, LACKS, VARIABLES, 29, VARIABLES},
        {READER, "reader, longest text", M, LONGEST, VARIABLES, 0, VARIABLES},
        {READER, "reader, text too long", M, LONGER, VARIABLES, 27, RUNGLAET_TEXT_MAX},
        {FLOOR, "floor, accepted", 0, 0, 0, 0, 1},
        {PATH_FLOOR, "floor, longest path", 0, PATH, 0, 0, N - 1},
        {PATH_FLOOR, "floor, goal unreachable", 0, CUT, 0, 30, 4 + 2 * (PATH_E - 1) + K},
        {PRUNED_SIZE, "pruned size, accepted", M, 0, 0, 0, WORDS + 2 * H},
        {PRUNED_SIZE, "pruned size, horizon 33", M + 1, 0, 0, 10, 0},
        {PATH_SIZE, "pruned size, longest path", M, PATH, 0, 0, PATH_WORDS},
        {PATH_SIZE, "pruned size, goals unreachable", M, CUT, 0, 0, PATH_WORDS - 2 * M * K},
        {PRUNED, "pruned writer, accepted", M, 0, WORDS + 2 * H, 0, 0},
        {PRUNED, "pruned writer, slice too short", M, 0, WORDS + 2 * H - 1, 12, WORDS + 2 * H},
        {PRUNED, "pruned writer, horizon 33", M + 1, 0, WORDS, 10, 0},
        {PATH_PRUNED, "pruned writer, longest path", M, PATH, WORDS, 0, 0},
    };
    size_t most[3] = {0, 0, 0};
    measure_all(runs, sizeof runs / sizeof *runs, most);
    /* The last goal stands alone, and then none. */
    static const size_t goals = 4 + 2 * E + K;
    memset(instance + goals, 255, K - 1);
    const run last_goal[] = {
        {CLAUSE, "clause of family B, of the last agent", M, A, WORDS, 0, 2},
    };
    measure_all(last_goal, 1, most);
    instance[goals + K - 1] = 255;
    idle = K;
    enum { FREE_WORDS = WORDS - 2 * K };
    const run free_runs[] = {
        {FORMULA_SIZE, "formula size, all agents free", M, 0, 0, 0, FREE_WORDS},
        {WRITER, "writer, all agents free", M, 0, WORDS, 0, 0},
        {CLAUSE, "clause of family C, all agents free", M, A, WORDS, 0, N + 1},
        {CHECK, "plan check, all agents free", M, PASSES, PLAN, 0, K},
        {TALLY, "tally, all agents free", M, PASSES, PLAN, 0, K},
        {DECODER, "decoder, all agents free", M, PASSES, PLAN, 0, PLAN},
        {DECODER, "decoder, family G, all agents free", M, SWAPS, PLAN, 24, SWAPPED - K},
        {ENCODER, "encoder, all agents free", M, PASSES, VARIABLES, 0, VARIABLES},
        {READER, "reader, all agents free", M, RIGHT, VARIABLES, 0, VARIABLES},
        {FLOOR, "floor, all agents free", 0, 0, 0, 0, 0},
        {PRUNED_SIZE, "pruned size, all agents free", M, 0, 0, 0, FREE_WORDS + H},
        {PRUNED, "pruned writer, all agents free", M, 0, FREE_WORDS + H, 0, 0},
    };
    measure_all(free_runs, sizeof free_runs / sizeof *free_runs, most);
    for (int a = 0; a < K; a++) instance[goals + a] = (uint8_t)(N - 1 - a);
    idle = 0;
    rule = 2;
    const run closing_runs[] = {
        {FORMULA_SIZE, "formula size, rule 2", M, 0, 0, 0, CLOSING_WORDS},
        {WRITER, "writer, rule 2", M, 0, CLOSING_WORDS, 0, 0},
        {WRITER, "writer, rule 2, slice too short", M, 0, CLOSING_WORDS - 1, 12, CLOSING_WORDS},
        {CLAUSE, "clause of family F, rule 2", M, A + B + C + D + EE + F - 1, WORDS, 0, N + 2},
        {CLAUSE, "clause of family G, rule 2", M, CLOSING_CLAUSES - 1, WORDS, 0, 5},
        {CLAUSE, "clause, rule 2, no such number", M, CLOSING_CLAUSES, WORDS, 11, CLOSING_CLAUSES},
        {CHECK, "plan check, rule 2, a ring turns", M, TURNS, PLAN, 0, M * K},
        {CHECK, "plan check, rule 2, exchange in the last step", M, SWAPS, PLAN, 25, M * K + K - 2},
        {TALLY, "tally, rule 2, a ring turns", M, TURNS, PLAN, 0, M * K},
        {TALLY, "tally, rule 2, exchange in the last step", M, SWAPS, PLAN, 25, M * K + K - 2},
        {DECODER, "decoder, rule 2, a ring turns", M, TURNS, PLAN, 0, PLAN},
        {DECODER, "decoder, rule 2, clause of family G", M, SWAPS, PLAN, 24, CLOSING_SWAPPED},
        {ENCODER, "encoder, rule 2, a ring turns", M, TURNS, VARIABLES, 0, VARIABLES},
        {ENCODER, "encoder, rule 2, exchange in the last step", M, SWAPS, VARIABLES, 25, M * K + K - 2},
        {READER, "reader, rule 2", M, RIGHT, VARIABLES, 0, VARIABLES},
        {PRUNED_SIZE, "pruned size, rule 2", M, 0, 0, 0, CLOSING_WORDS + 2 * H},
        {PRUNED, "pruned writer, rule 2", M, 0, CLOSING_WORDS + 2 * H, 0, 0},
    };
    measure_all(closing_runs, sizeof closing_runs / sizeof *closing_runs, most);
    rule = 3;
    const run refused_runs[] = {
        {FORMULA_SIZE, "formula size, rule 3", M, 0, 0, 31, 0},
        {DECODER, "decoder, rule 3", M, PASSES, PLAN, 31, 0},
        {TALLY, "tally, rule 3", M, PASSES, PLAN, 31, 0},
    };
    measure_all(refused_runs, sizeof refused_runs / sizeof *refused_runs, most);
    static const char *const calls[3] = {"", "reader ", "pruned writer and size "};
    static const size_t promised[3] = {PROMISED, READER_PROMISED, PRUNED_PROMISED};
    int failed = 0;
    for (int i = 0; i < 3; i++) failed |= too_many(calls[i], most[i], promised[i]);
    return failed;
}
