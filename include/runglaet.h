/* Runglaet: shuttle formulas, valuations and plans.
 *
 * Every call takes any bytes and any numbers, checks all of them itself, keeps no pointer and allocates nothing.
 * An answer's number is 0 for accepted, or the number given by the first question answered no; `second` is then the
 * place of the refusal, and the count of an acceptance (0 where a formula was written). A refusal changes nothing that
 * was lent, but for the record in which it is counted. An accepted call fills the first places of its slice and touches
 * none beyond.
 *
 * A pointer must be valid and aligned for as many elements as its length says; with length 0 it may be NULL. A slice
 * needs, for a formula, as many words as its size call says; for a clause at most 66 words; for a plan k * (m + 1) bytes;
 * for a valuation n * k * (m + 1) entries, with a ceiling more (below). One that is too short gets 12, 15 or 16, and
 * `second` is what it needs. No two slices of a call may overlap. Each call uses less than 12 KiB of stack, but the two of
 * the pruned formula, which use less than 24 KiB, and the readers, less than 64 KiB. The calls share nothing, so several
 * threads may call at once.
 *
 * An instance is bytes: n vertices, k agents, e edges (two bytes, the low one first); the low ends of all edges, then
 * their high ends, sorted by low end and then by high end; the starts of all agents, then their goals. A goal byte of 255
 * is no goal: the agent is free and may end anywhere. Any number of agents may be free, and each still has its start.
 * Vertices, agents and times are numbered from 0. A plan has a row for each time from 0 to the horizon m, a byte for each
 * agent: byte t * k + a is the vertex of agent a at time t. Variable 1 + (a * (m + 1) + t) * n + v says that agent a is at
 * vertex v at time t; there are n * k * (m + 1) of them, an agent's in one stretch, and a valuation has an entry for each,
 * in order.
 *
 * The movement rule is a number beside the horizon, 1 or 2. In each step an agent keeps its vertex or crosses an edge,
 * and no two agents share a vertex after it. Under rule 1 an agent enters only a vertex on which none stood as the step
 * began: it is for shuttles that do not see the one ahead. Under rule 2 it may enter a vertex that another leaves in the
 * same step, so a file may close up and a ring of three or more may turn, but no two agents exchange vertices. Every call
 * that is given a horizon is given the rule too, and asks 31 just after 10: a rule that is neither 1 nor 2 gets 31, place
 * 0. What passes under rule 1 passes under 2, at the same cost, but not the other way round: a formula, its valuation and
 * the plan must be of one rule.
 *
 * Questions are numbered as in README.md. Words and entries are signed 32-bit numbers.
 */
#ifndef RUNGLAET_H
#define RUNGLAET_H

#include <stddef.h>
#include <stdint.h>

#ifdef __cplusplus
extern "C" {
#endif

typedef struct {
    uint32_t number;
    uint64_t second;
} runglaet_answer;

typedef struct {
    uint32_t number;
    uint64_t second;
    uint64_t clauses;
} runglaet_size;

/* The size of the formula. Nothing is lent.
 * Asks 1 to 10 and 31, and never gives 12. Accepted: `second` is how many words the formula has, at most 7,625,296 under
 * rule 1 and 83,565,136 under rule 2, and `clauses` how many clauses. Refused: `second` is the place, and `clauses` 0. */
runglaet_size runglaet_formula_size(const uint8_t *instance, size_t instance_len, uint64_t horizon, uint64_t rule);

/* The formula, as words: each clause is its literals and then 0. Family B, the goals, has a clause only for agents with a
 * goal: for each free agent there are one clause and two words fewer, and all clauses behind B have lower numbers. The
 * rule decides family G, the last: under 1 it has m * n * k * (k - 1) clauses of two literals, under 2 four literals in
 * each of m * e * k * (k - 1).
 * Asks 1 to 10, 31 and 12. Accepted: the words stand first in `words`, as many as runglaet_formula_size says, and
 * `second` is 0. Refusal 12 gives the words needed. So it accepts exactly where the size call does and `words` has that
 * many places or more. */
runglaet_answer runglaet_write_formula(const uint8_t *instance, size_t instance_len, uint64_t horizon, uint64_t rule,
                                       int32_t *words, size_t words_len);

/* The clause with a number, from 0, and its closing 0: at most 66 words.
 * Asks 1 to 10, 31, 11 and 12. Accepted: its words stand first in `words`, and `second` is how many they are. Refusal 11
 * gives the clause count, refusal 12 the words needed. */
runglaet_answer runglaet_clause(const uint8_t *instance, size_t instance_len, uint64_t horizon, uint64_t rule,
                                uint64_t clause_number, int32_t *words, size_t words_len);

/* The plan check.
 * Asks 1 to 10, 31, 13 and 17 to 22; 22 not of free agents. Question 20 goes by the rule. Under 1, where an agent enters
 * a vertex on which another stood, the number tells what the other one does: 20 it stays, 25 the two exchange vertices,
 * 26 it goes elsewhere. The lowest such agent of the step decides. Under 2 there is 25 alone, with the place of the
 * lowest agent of the step that takes part in an exchange; who drives onto one that stays then shares its vertex, 21.
 * Accepted: `second` is the plan's cost, the sum over its agents, free ones too, of the time until rest: the least t such
 * that the agent keeps one vertex in all rows t to m. The cost is at most m * k, and so at most 512. */
runglaet_answer runglaet_check_plan(const uint8_t *instance, size_t instance_len, uint64_t horizon, uint64_t rule,
                                    const uint8_t *plan, size_t plan_len);

/* A record of plans that were checked: how many passed, how many were refused under each number, `refused[q]` under q, and
 * the sum, the least and the greatest cost of those that passed. Least and greatest are 0 while none has passed. The empty
 * record is all zeros. */
typedef struct {
    uint64_t passed;
    uint64_t refused[36];
    uint64_t sum;
    uint64_t least;
    uint64_t greatest;
} runglaet_tally;

/* The plan check, counted in a record.
 * Asks 34 before all else, then what runglaet_check_plan asks, and answers as it does. A plan that passes adds 1 to
 * `passed` and its cost to `sum`, and sets `least` and `greatest`, the first one both. A refusal but 34 adds 1 to
 * `refused` under its number and changes nothing else. Refusal 34: `passed` and all 36 of `refused` total 65,535 or more,
 * or `sum` exceeds 512 times `passed`, which no plans counted from an empty record bring about; its place is 65,535, and
 * the record stays as it was. So from an empty record 65,535 plans are counted.
 * The record may hold anything. `tally` must not be NULL, and the record must overlap neither instance nor plan. */
runglaet_answer runglaet_tally_plan(const uint8_t *instance, size_t instance_len, uint64_t horizon, uint64_t rule,
                                    const uint8_t *plan, size_t plan_len, runglaet_tally *tally);

/* From a solver's valuation to the plan that it names. Entry i must be the variable number i + 1 or its negative.
 * Asks 1 to 10, 31, 14, 15, 23 and 24. Accepted: the plan's bytes stand first in `plan`, and `second` is how many they
 * are. Refusal 24 gives the lowest clause number without a true literal. */
runglaet_answer runglaet_decode(const uint8_t *instance, size_t instance_len, uint64_t horizon, uint64_t rule,
                                const int32_t *entries, size_t entries_len, uint8_t *plan, size_t plan_len);

/* From a plan to its valuation.
 * Asks 1 to 10, 31, 13 and 16 to 22, and gives 25 and 26, as the plan check does. Accepted: the valuation's entries stand
 * first in `entries`, and `second` is how many they are. */
runglaet_answer runglaet_encode(const uint8_t *instance, size_t instance_len, uint64_t horizon, uint64_t rule,
                                const uint8_t *plan, size_t plan_len, int32_t *entries, size_t entries_len);

/* From what a solver printed, in the SAT competition's text, to the valuation. The form that is read, of N variables:
 *
 * - At most RUNGLAET_TEXT_MAX bytes. Each byte 10 ends a line; the last line may lack it.
 * - Empty lines, and lines that begin with c, are skipped.
 * - Exactly one line is "s SATISFIABLE", "s UNSATISFIABLE" or "s UNKNOWN", byte for byte. It may stand anywhere.
 * - A line that begins "v " has one or more tokens, with one space between two and none at the end. A token is 0, or a
 *   number from 1 to N with or without "-" in front: in decimal, without leading zeros, plus signs or "-0".
 * - The token 0 is the last one of its line, and no v line follows. It is needed only with "s SATISFIABLE".
 * - Any other line is wrong: a second s line, one with a carriage return, a tab or a space too many.
 *
 * Asks 1 to 10, 31, 16 and 27 to 29. Accepted: the valuation's entries stand first in `entries`, in variable order, and
 * `second` is how many they are. Refusal 27, not of the form: RUNGLAET_TEXT_MAX for a longer text, which is asked first;
 * else the offset of the first wrong line; else, where the s line or the 0 is missing, the text's length. Refusal 28, not
 * SATISFIABLE: the offset of the s line. Refusal 29, some variable is missing or given more than once: the lowest such
 * variable. The literals may come in any order. Whether they satisfy the formula, the decoder asks. */
#define RUNGLAET_TEXT_MAX 524288
runglaet_answer runglaet_read_valuation(const uint8_t *instance, size_t instance_len, uint64_t horizon, uint64_t rule,
                                        const uint8_t *text, size_t text_len, int32_t *entries, size_t entries_len);

/* The floor, how short a plan could be: the greatest distance from an agent's start to its goal, in edges. A free agent
 * counts 0, and never gives 30. No plan with a smaller makespan passes the check.
 * Asks 1 to 9 and 30; neither horizon nor rule is given, and it holds under both rules. Accepted: `second` is the floor,
 * at most 63; where it is above 32, no horizon that the other calls accept has a plan. Refusal 30, some goal cannot be
 * reached from its start, so no plan passes at any horizon: the offset of the goal of the lowest such agent. */
runglaet_answer runglaet_floor(const uint8_t *instance, size_t instance_len);

/* The pruned formula: the words of runglaet_write_formula, then family H. For each time t from 0 to m, agent and vertex,
 * in this order, H has a clause of one literal, that the agent is not at the vertex at t, wherever the vertex is further
 * than t edges from the agent's start or further than m - t from its goal; for a free agent only the start counts.
 * Unreachable counts as further; where both hold there is one clause. The pruned formula has the formula's variables and
 * exactly its satisfying valuations, so runglaet_read_valuation and runglaet_decode serve for both.
 * Size call and writer ask and answer as those of the formula do; the words, at most 7,692,880 under rule 1 and
 * 83,632,720 under rule 2, and the clauses are those of the pruned formula. Family H is the same under both. Clause
 * numbers, in runglaet_clause and refusal 24, are those of the formula without family H. */
runglaet_size runglaet_pruned_size(const uint8_t *instance, size_t instance_len, uint64_t horizon, uint64_t rule);
runglaet_answer runglaet_write_pruned(const uint8_t *instance, size_t instance_len, uint64_t horizon, uint64_t rule,
                                      int32_t *words, size_t words_len);

/* The calls with a ceiling: plans of cost at most c, the ceiling, from 0 to 128. The formula with a ceiling is that of
 * runglaet_write_formula and more behind it. It can be satisfied exactly where a plan passes that costs at most c.
 *
 * With N = n * k * (m + 1), the added variables begin at N + 1. N + 1 + t * k + a is B(t,a), for each time t below m and
 * each agent: agent a is not yet at rest at t. A tree counts these m * k inputs, in the order of their numbers. A list of
 * two inputs or more is cut into its first half, rounded down, and the rest. A node over L inputs has min(L, c + 1)
 * outputs; output i says that i of them or more are true. Outputs are numbered behind the inputs: those of the first half,
 * those of the rest, then the node's own. One input alone is its own output. At m 0 nothing is added. So there are at most
 * 38,275 variables.
 *
 * The added clauses, in this order:
 *
 * - for each t, a, v: agent a is not at v at t, or is at v at t + 1, or B(t,a);
 * - for each t below m - 1 and each a: not B(t + 1,a), or B(t,a);
 * - of the tree, those of the first half, those of the rest, then the node's: for each i from 0 to the outputs of the
 *   first half and each j from 0 to those of the rest, but not for 0 and 0: not output i of the first half, not output j of
 *   the rest, and output min(i + j, c + 1) of the node; that of a 0 is left out;
 * - where m * k exceeds c: not output c + 1 of the whole.
 *
 * Each call asks 32 just after 31: the ceiling exceeds 128, place 0. What it asks besides, and in which order, is what the
 * call without a ceiling asks, and the encoder asks 33 at the end. Every count of variables, clauses and words takes in
 * what is added, and so does the place of a clause, an entry or a variable. There is no call with a ceiling for one clause,
 * for family H, for the floor or for the plan check, which tells the cost.
 *
 * The size: asks 1 to 10, 31 and 32. The words are at most 8,098,604 under rule 1 and 84,038,444 under rule 2. */
runglaet_size runglaet_ceiling_size(const uint8_t *instance, size_t instance_len, uint64_t horizon, uint64_t rule,
                                    uint64_t ceiling);

/* Asks 1 to 10, 31, 32 and 12. */
runglaet_answer runglaet_write_ceiling(const uint8_t *instance, size_t instance_len, uint64_t horizon, uint64_t rule,
                                       uint64_t ceiling, int32_t *words, size_t words_len);

/* Asks 1 to 10, 31, 32, 14, 15, 23 and 24, of all variables and all clauses. Accepted: the plan passes and costs at most
 * the ceiling; `second` is k * (m + 1), the bytes of the plan. Other valuations than the encoder's may name the same plan:
 * B and the outputs may be true where they need not be. */
runglaet_answer runglaet_decode_ceiling(const uint8_t *instance, size_t instance_len, uint64_t horizon, uint64_t rule,
                                        uint64_t ceiling, const int32_t *entries, size_t entries_len, uint8_t *plan,
                                        size_t plan_len);

/* Asks 1 to 10, 31, 32, 13, 16 to 22, and 33, and gives 25 and 26, as the plan check does. Refusal 33, the plan costs more
 * than the ceiling: its cost. Accepted: B and the outputs have their meaning, and `second` is how many entries there are. */
runglaet_answer runglaet_encode_ceiling(const uint8_t *instance, size_t instance_len, uint64_t horizon, uint64_t rule,
                                        uint64_t ceiling, const uint8_t *plan, size_t plan_len, int32_t *entries,
                                        size_t entries_len);

/* Asks 1 to 10, 31, 32, 16 and 27 to 29. The text is of the form that runglaet_read_valuation reads, of all variables. */
runglaet_answer runglaet_read_ceiling(const uint8_t *instance, size_t instance_len, uint64_t horizon, uint64_t rule,
                                      uint64_t ceiling, const uint8_t *text, size_t text_len, int32_t *entries,
                                      size_t entries_len);

#ifdef __cplusplus
}
#endif

#endif
