#!/usr/bin/env bash
# Compares the proved program `comparison` with the independent one on fresh cases.
#   tests/compare.sh SEED PIECES COUNT
# Each piece has its own seed, SEED and up, COUNT random instances, COUNT random plans that pass, held and reversed,
# COUNT such plans with ceilings around their costs, and COUNT plans with random records, with some histories.
# Before the pieces come all small instances (up to 4 vertices, 2 agents, horizon 2), all clauses of every nineteenth, all
# plans of tiny ones, all sign patterns of some with at most 16 variables, all short texts of some kinds for the reader,
# for the floor and the pruned writer all maps of 5 vertices with one agent, long paths at every horizon, and grids, for
# the sizes every number of vertices and agents, with a ceiling all instances of up to 3 vertices, 2 agents and horizon
# 2, every fifth at 3, with every ceiling up to m*k + 1, all walks of each, and all sign patterns of tiny ones, and for the
# tally all plans of tiny instances with records around the borders of 34, and random histories.
# RUNGLAET_COMPARISON: the program, if it is not target/bin/comparison.
set -eu
cd "$(dirname "$0")/.."
# shellcheck source=tests/common.sh
. tests/common.sh
seed=${1:-1} pieces=${2:-10} count=${3:-400}
program=$(made RUNGLAET_COMPARISON target/bin/comparison "tools/make.sh comparison")
build independent
cases=tests/independent/target/release/cases
work=$(mktemp -d)
trap 'rm -rf "$work"' EXIT

# piece MODE SEED COUNT: makes cases, runs them, and stops at a difference.
piece() {
    "$cases" "$1" "$2" "$3" "$work" >>"$work/times"
    "$program" <"$work/stdin" >"$work/got"
    if ! cmp -s "$work/stdout" "$work/got"; then
        echo "$1, seed $2, count $3: the first differing lines, expected (<) and printed (>):"
        diff "$work/stdout" "$work/got" | head -20
        exit 1
    fi
    grep -c skip "$work/stdout" >>"$work/skips" || :
}

: >"$work/times"
: >"$work/skips"
for mode in small clauses plans valuations texts floors sizes ceilings tallies; do
    piece "$mode" "$seed" 0
done
i=0
while [ "$i" -lt "$pieces" ]; do
    piece random $((seed + i)) "$count"
    i=$((i + 1))
done
awk '{ times[$1, $2] += $3 }
    END {
        kinds = split("writer clause plan decoder encoder reader floor pruned size pruned-size ceiling-size " \
            "ceiling-writer ceiling-decoder ceiling-encoder ceiling-reader tally", name, " ")
        for (kind = 1; kind <= kinds; kind++) {
            line = ""
            for (number = 0; number <= 34; number++)
                if ((kind, number) in times) line = line " " number ":" times[kind, number]
            print name[kind] line
        }
    }' "$work/times"
echo "$(awk '{ s += $3 } END { print s + 0 }' "$work/times") cases agree," \
    "$(awk '{ s += $1 } END { print s + 0 }' "$work/skips") skipped as expected"
