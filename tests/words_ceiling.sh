# shellcheck shell=bash
# Read by tests/words.sh: the cost ceiling. Every number and every line here is worked out by hand.
# shellcheck disable=SC2154,SC2016  # That sets the names used here; what stands in single quotes is for its solvers.

# placed PLACE: the refusal has this place.
placed() { result "$(grep -q "(place $1)\$" lines || cat lines)" "the place: $1"; }

# What is no ceiling: 32, just after 31 and before all else that a call asks. A number is handed on whole.
for ceiling in 129 130 256 257 4294967296 4294967424 18446744073709551615 18446744073709551616 -1 01 +2 1.0 x '' --numbers; do
    refuse 32 "\"$ceiling\" was given" "$shuttles" size path.txt 2 --ceiling "$ceiling"
    placed 0
done
for ceiling in 129 05 ''; do
    refuse 32 "\"$ceiling\" was given" "$shuttles" encode path.txt --ceiling "$ceiling" 1  0
    for text in 's UNSATISFIABLE\n' x; do
        refuse 32 "\"$ceiling\" was given" fed "$text" "$shuttles" decode --numbers --ceiling "$ceiling" path.txt 1
    done
    aside 32 "\"$ceiling\" was given" "$shuttles" formula path.txt 1 --ceiling "$ceiling" --rule 2
    placed 0
    aside 31 '"3" was given' "$shuttles" formula path.txt 1 --ceiling "$ceiling" --rule 3
    refuse 31 '"0" was given' "$shuttles" size --rule 0 path.txt 1 --ceiling "$ceiling"
    refuse 10 '"33" was given' "$shuttles" encode path.txt 33 --ceiling "$ceiling" --rule 3  0
    refuse 10 '"33" was given' fed x "$shuttles" decode path.txt 33 --ceiling "$ceiling"
done
expect 'refusal 32' 0 "$shuttles" refusal 32 0
told 'the place is always 0'
expect 'refusal 32' 0 "$shuttles" refusal 32 0 path.txt 2 --ceiling 200
told '"200" was given'

# The option stands anywhere, once. Commands that have no ceiling say so, and nothing on standard output.
for words in 'size --ceiling' 'size path.txt 2 --ceiling' 'size path.txt 2 --ceiling 3 --ceiling 3' '--ceiling 3' 'help --ceiling 3' \
    'size path.txt 2 --ceiling --rule 2' 'size path.txt 2 --rule --ceiling 3' 'clause path.txt 2 3 --ceiling 3' 'size --ceiling 3 path.txt'; do
    # shellcheck disable=SC2086  # Words of the command.
    expect Usage 2 "$shuttles" $words
done
# bounded_not COMMAND WORDS...: the error names the command.
bounded_not() {
    expect NoCeiling 2 "$shuttles" "$@"
    result "$(grep -q "^shuttles: a cost ceiling was given with a command that has none: \`$1\`: " errors || cat errors)" "who has none: $*"
    result "$(head -c 100 said)" "nothing on standard output: $*"
}
for words in 'check path.txt 1 0 1 0 1' 'floor path.txt' 'pruned path.txt 1' 'input path.txt 1' 'hold path.txt 1 2 0 1 0 1' \
    'reverse path.txt 1 0 1 0 1' 'exchange path.txt' 'instance path.txt' 'show path.txt 0 1' 'check absent.txt'; do
    # shellcheck disable=SC2086  # Words of the command.
    bounded_not $words --ceiling 3
    # shellcheck disable=SC2086
    bounded_not $words --rule 2 --ceiling 129
done
expect NoCeiling 2 "$shuttles" check path.txt 1 0 1 0 1 --ceiling 3
result "$(grep -q ': `check`: it tells the cost of a plan$' errors || cat errors)" 'what check does instead'
expect NoCeiling 2 "$shuttles" pruned path.txt 1 --ceiling 3
result "$(grep -q ': `pruned`: `formula` has one, without family H$' errors || cat errors)" 'what stands in for pruned'
expect NoFile 2 "$shuttles" size absent.txt 2 --ceiling 3
expect Output 2 full "$shuttles" formula path.txt 2 --ceiling 3
expect PlanWord 2 "$shuttles" encode path.txt 2 --ceiling 3 0 x

# Sizes. With m * k inputs: n clauses of 4 words for each, one of 3 for each but the k last, and where m * k exceeds c one
# of 2. A node over two inputs has 3 clauses, 10 words, and two outputs, of ceiling 0 one; over two such nodes 8 clauses,
# 28 words.
# bounded_size TEXT WORD...: just this is said of the formula with a ceiling.
bounded_size() { says "$1" "$shuttles" size "${@:2}"; }
bounded_size 'formula with cost ceiling 0: 2 variables, 4 clauses, 10 words' home.txt 0 --ceiling 0
bounded_size 'formula with cost ceiling 128: 1 variable, 3 clauses, 6 words' stay.txt 0 --ceiling 128
bounded_size 'formula with cost ceiling 0: 5 variables, 11 clauses, 34 words' pair.txt 1 --ceiling 0
bounded_size 'formula with cost ceiling 1: 5 variables, 10 clauses, 32 words' pair.txt 1 --ceiling 1
bounded_size 'formula with cost ceiling 0: 25 variables, 85 clauses, 287 words' --ceiling 0 path.txt 2
bounded_size 'formula with cost ceiling 1: 28 variables, 90 clauses, 305 words' path.txt --ceiling 1 2
bounded_size 'formula with cost ceiling 2: 29 variables, 90 clauses, 305 words' path.txt 2 --ceiling 2 --rule 1
bounded_size 'formula with cost ceiling 4: 30 variables, 89 clauses, 303 words' path.txt 2 --ceiling 4
bounded_size 'formula with cost ceiling 128: 30 variables, 89 clauses, 303 words' path.txt 2 --ceiling 128
bounded_size 'formula with cost ceiling 2 under rule 2: 29 variables, 86 clauses, 309 words' path.txt --rule 2 2 --ceiling 2
bounded_size 'formula with cost ceiling 128: 38275 variables, 1962276 clauses, 8098604 words' complete.txt 32 --ceiling 128
bounded_size 'formula with cost ceiling 128 under rule 2: 38275 variables, 16953636 clauses, 84038444 words' complete.txt 32 --ceiling 128 --rule 2

# Formulas: that without a ceiling, and behind it what is added.
# bounded_formula VARIABLES CLAUSES ADDED WORD...: these are the added clauses, a line each.
bounded_formula() {
    local words=("${@:4}") without
    # Without the option, which comes last.
    without=("${words[@]:0:${#words[@]}-2}")
    { echo "p cnf $1 $2"; "$shuttles" formula "${without[@]}" | tail -n +2; printf '%s 0\n' "$3" | sed 's/; / 0\n/g'; } >wanted
    result "$("$shuttles" formula "${words[@]}" 2>&1 | diff - wanted)" "the formula: ${words[*]}"
    read -r _ _ variables clauses <wanted
    says "formula with cost ceiling ${words[-1]}: $variables variables, $clauses clauses, $(($(wc -w <wanted) - 4)) words" \
        "$shuttles" size "${words[@]}"
}
result "$("$shuttles" formula home.txt 0 --ceiling 0 | cmp - <("$shuttles" formula home.txt 0) 2>&1)" 'at horizon 0 nothing is added'
bounded_formula 5 11 '-1 3 5; -2 4 5; -5' pair.txt 1 --ceiling 0
bounded_formula 5 10 '-1 3 5; -2 4 5' pair.txt 1 --ceiling 1
bounded_formula 10 21 '-1 3 7; -2 4 7; -3 5 8; -4 6 8; -8 7; -8 9; -7 9; -7 -8 10; -10' pair.txt 2 --ceiling 1
bounded_formula 9 21 '-1 3 7; -2 4 7; -3 5 8; -4 6 8; -8 7; -8 9; -7 9; -7 -8 9; -9' pair.txt 2 --ceiling 0
# Three inputs: one on the left, two on the right.
moves='-1 3 9; -2 4 9; -3 5 10; -4 6 10; -5 7 11; -6 8 11; -10 9; -11 10'
bounded_formula 15 33 "$moves; -11 12; -10 12; -10 -11 13; -12 14; -13 15; -9 14; -9 -12 15; -9 -13 15; -15" pair.txt 3 --ceiling 1
bounded_formula 16 32 "$moves; -11 12; -10 12; -10 -11 13; -12 14; -13 15; -9 14; -9 -12 15; -9 -13 16" pair.txt 3 --ceiling 3
moves='-1 4 19; -2 5 19; -3 6 19; -10 13 20; -11 14 20; -12 15 20; -4 7 21; -5 8 21; -6 9 21; -13 16 22; -14 17 22; -15 18 22'
tree='-20 23; -19 23; -19 -20 24; -22 25; -21 25; -21 -22 26; -25 27; -26 28; -23 27; -23 -25 28; -23 -26 29; -24 28; -24 -25 29'
bounded_formula 29 90 "$moves; -21 19; -22 20; $tree; -24 -26 29; -29" path.txt 2 --ceiling 2

# Plans and valuations. An agent's variable is true until it rests, an output where so many inputs are true.
# The path: agent 0 rests from time 2 on, agent 1 from time 1 on. So 19 to 21 hold, and 22 does not.
path_drive='0 1  0 2  1 2'
path_rows=$'t=0: agent0@0 agent1@1\nt=1: agent0@0 agent1@2\nt=2: agent0@1 agent1@2'
path_values='1 -2 -3 4 -5 -6 -7 8 -9 -10 11 -12 -13 -14 15 -16'
path_more='-17 18 19 20 21 -22 23 24 25 -26 27 28 29 -30'
# shellcheck disable=SC2086  # Words of the plan.
{
    says "s SATISFIABLE"$'\n'"v $path_values"$'\n'"v $path_more"$'\nv 0' "$shuttles" encode path.txt 2 --ceiling 3 $path_drive
    says "s SATISFIABLE"$'\n'"v $path_values"$'\n'"v $path_more"$'\nv 0' "$shuttles" encode --ceiling 128 path.txt 2 $path_drive
    refuse 33 'it costs 3, and the ceiling is 2' "$shuttles" encode path.txt 2 --ceiling 2 $path_drive
    placed 3
    refuse 33 'it costs 3, and the ceiling is 0' "$shuttles" encode path.txt 2 --ceiling 0 --rule 2 $path_drive
    placed 3
}
says "$path_rows"$'\nplan passes: makespan 2, cost 3, ceiling 3' fed "s SATISFIABLE\nv $path_values\nv $path_more 0\n" \
    "$shuttles" decode path.txt 2 --ceiling 3
says $'0 1\n0 2\n1 2' fed "s SATISFIABLE\nv $path_values\nv $path_more 0\n" "$shuttles" decode --numbers path.txt 2 --ceiling 128
says $'s SATISFIABLE\nv 1 -2\nv 0' "$shuttles" encode home.txt 0 --ceiling 0  0
says $'s SATISFIABLE\nv 1 -2 -3 4 5\nv 0' "$shuttles" encode pair.txt 1 --ceiling 1  0 1
says $'t=0: agent0@0\nt=1: agent0@1\nplan passes under rule 2: makespan 1, cost 1, ceiling 1' \
    fed 's SATISFIABLE\nv 1 -2 -3 4 5 0\n' "$shuttles" decode pair.txt 1 --ceiling 1 --rule 2
refuse 33 'it costs 1, and the ceiling is 0' "$shuttles" encode pair.txt 1 --ceiling 0  0 1
placed 1
refuse 33 'it costs 4, and the ceiling is 3' "$shuttles" encode home.txt 4 --ceiling 3  0 1 1 1 0
# Whatever else is wrong with a plan comes first.
refuse 22 'agent 0 (line 4) at time 2: at vertex 0, its goal is vertex 1' "$shuttles" encode path.txt 2 --ceiling 0  0 1  0 2  0 2
refuse 13 '3 vertices given, 2 agents at times 0 to 1 need 4' "$shuttles" encode path.txt 1 --ceiling 0  0 1  0
expect 'refusal 33' 0 "$shuttles" refusal 33 7
told 'it costs 7'
expect 'refusal 33' 0 "$shuttles" refusal 33 7 path.txt 2 --ceiling 5
told 'it costs 7, and the ceiling is 5'
# More may be true than need be: the agent moves in the first step and counts as busy until the last.
says $'t=0: agent0@0\nt=1: agent0@1\nt=2: agent0@1\nplan passes: makespan 2, cost 1, ceiling 2' \
    fed 's SATISFIABLE\nv 1 -2 -3 4 -5 6 7 8 9 10 0\n' "$shuttles" decode pair.txt 2 --ceiling 2

# Clauses that are false: of a family as without a ceiling, then of each sort that is added.
# bounded_valuation TERMS ENTRIES M CEILING: a clause of the pair is false.
bounded_valuation() { refuse 24 "$1" fed "s SATISFIABLE\nv $2 0\n" "$shuttles" decode pair.txt "$3" --ceiling "$4"; }
moving='moves (an agent that moves is not yet at rest), for agent'
chain='chain (an agent not yet at rest was not at rest before), for agent'
tree='counting tree (how many times agents are not yet at rest), for'
limit='limit (the cost is at most the ceiling), for'
bounded_valuation 'clause 0 of family A (each agent begins at its start), for agent 0 (line 3) at vertex 0 at time 0' '-1 -2 -3 -4 -5' 1 0
bounded_valuation 'clause 5 of family D (no agent is at two vertices at one time), for agent 0 (line 3) at vertices 0 and 1 at time 1' '1 -2 3 4 -5' 1 0
bounded_valuation "clause 8 of the ceiling's $moving 0 (line 3) from vertex 0 at time 0 to another at time 1" '1 -2 -3 4 -5' 1 0
placed 8
bounded_valuation "clause 10 of the ceiling's $limit 1 or more of variable 5" '1 -2 -3 4 5' 1 0
bounded_valuation "clause 14 of the ceiling's $moving 0 (line 3) from vertex 0 at time 1 to another at time 2" '1 -2 3 -4 -5 6 7 -8 9 -10' 2 1
bounded_valuation "clause 16 of the ceiling's $chain 0 (line 3) at times 0 and 1" '1 -2 3 -4 -5 6 -7 8 9 -10' 2 1
bounded_valuation "clause 18 of the ceiling's $tree 1 or more of variable 7, so 1 or more of variables 7 to 8" '1 -2 -3 4 -5 6 7 -8 -9 -10' 2 1
bounded_valuation "clause 19 of the ceiling's $tree 1 or more of variable 7 and 1 or more of variable 8, so 2 or more of variables 7 to 8" \
    '1 -2 3 -4 -5 6 7 8 9 -10' 2 1
bounded_valuation "clause 20 of the ceiling's $limit 2 or more of variables 7 to 8" '1 -2 3 -4 -5 6 7 8 9 10' 2 1
placed 20
expect 'refusal 24' 0 "$shuttles" refusal 24 85 path.txt 2 --ceiling 2
told "clause 85 of the ceiling's $tree 1 or more of variables 19 to 20 and 2 or more of variables 21 to 22, so 3 or more of variables 19 to 22"
expect 'refusal 24' 0 "$shuttles" refusal 24 85 path.txt 2 --ceiling 2 --rule 2
told "clause 85 of the ceiling's $limit 3 or more of variables 19 to 22"
for subject in '90 path.txt 2 --ceiling 2' '61 path.txt 2' '4 home.txt 0 --ceiling 0' '61 path.txt --ceiling 2'; do
    # shellcheck disable=SC2086  # Words of the command.
    expect 'refusal 24' 0 "$shuttles" refusal 24 $subject
    told 'the place is a clause'
done

# Variables behind the others, and how many there are.
expect 'refusal 23' 0 "$shuttles" refusal 23 4 pair.txt 1 --ceiling 0
told 'entry 4 must be 5 or -5, for agent 0 (line 3) not yet at rest at time 0'
expect 'refusal 23' 0 "$shuttles" refusal 23 21 path.txt 2 --ceiling 2
told 'entry 21 must be 22 or -22, for agent 1 (line 5) not yet at rest at time 1'
expect 'refusal 23' 0 "$shuttles" refusal 23 25 path.txt 2 --ceiling 2
told 'entry 25 must be 26 or -26, for 2 or more of variables 21 to 22'
for subject in '29 path.txt 2 --ceiling 2' '4 pair.txt 1'; do
    # shellcheck disable=SC2086  # Words of the command.
    expect 'refusal 23' 0 "$shuttles" refusal 23 $subject
    told 'the place is an entry of the valuation'
done
expect 'refusal 29' 0 "$shuttles" refusal 29 29 path.txt 2 --ceiling 2
told 'variable 29, for 3 or more of variables 19 to 22'
expect 'refusal 29' 0 "$shuttles" refusal 29 30 path.txt 2 --ceiling 2
told 'the formula has no such variable'
expect 'refusal 14' 0 "$shuttles" refusal 14 4 pair.txt 1 --ceiling 0
told '4 entries given, 1 agent on 2 vertices at times 0 to 1 with cost ceiling 0 need 5'
expect 'refusal 12' 0 "$shuttles" refusal 12 34 pair.txt 1 --ceiling 0
told '34 words of 32 bits are needed'
expect 'refusal 16' 0 "$shuttles" refusal 16 5 pair.txt 1 --ceiling 0
told '5 entries of 32 bits needed'

# What a solver printed. bounded_text NUMBER TERMS TEXT: refused so, of the pair at horizon 1, which has five variables.
bounded_text() { refuse "$1" "$2" fed "$3" "$shuttles" decode pair.txt 1 --ceiling 1; }
bounded_text 29 'variable 5, for agent 0 (line 3) not yet at rest at time 0, is missing' 's SATISFIABLE\nv 1 -2 -3 4 0\n'
bounded_text 29 'variable 5, for agent 0 (line 3) not yet at rest at time 0, is there 2 times: 5 in line 2, -5 in line 3 of the text' \
    's SATISFIABLE\nv 1 -2 -3 4 5\nv -5 0\n'
bounded_text 27 'line 2: "6" at column 15 names a variable that does not exist, the highest is 5: "v 1 -2 -3 4 5 6 0"' 's SATISFIABLE\nv 1 -2 -3 4 5 6 0\n'
bounded_text 27 'the closing 0 is missing, the text was probably cut short: 4 of 5 literals are there' 's SATISFIABLE\nv 1 -2 -3 4\n'
bounded_text 28 'line 1: the solver gave up, so there may be a plan or none: "s UNKNOWN"' 's UNKNOWN\n'
# ends_so STATUS LINE COMMAND...: just this line, and this status.
ends_so() { result "$([ "$("${@:3}" 2>&1) $?" = "$2 $1" ] || echo otherwise)" "$2"; }
ends_so 3 'no plan of makespan 1 and cost at most 0' fed 's UNSATISFIABLE\n' "$shuttles" decode pair.txt 1 --ceiling 0
ends_so 3 'no plan of makespan 1 and cost at most 0 under rule 2' fed 's UNSATISFIABLE\n' "$shuttles" decode --rule 2 pair.txt --ceiling 0 1

# solve.sh: at a horizon and from the floor on, always by the tool's formula. The pair with ceiling 0 has 4m+1 variables and
# 10m+1 clauses.
pair_plan='printf "SAT\n1 -2 -3 4 5 0\n" >$3; exit 10'
pair_rows=$'t=0: agent0@0\nt=1: agent0@1\nplan passes: makespan 1, cost 1, ceiling 1'
pair_line='pair.txt, cost at most 1, horizon 1: 5 variables, 10 clauses, minisat'
for words in '--ceiling 1 pair.txt 1' 'pair.txt 1 --ceiling 1 --rule 1'; do
    rm -rf last
    # shellcheck disable=SC2086  # Words of the command.
    shows 0 1 "$pair_plan" "$pair_line"$'\n'"$pair_rows" env RUNGLAET_PROGRAM=absent KEEP=last "$solve" $words
    result "$("$shuttles" formula pair.txt 1 --ceiling 1 | diff - last/formula.cnf)" "the formula kept: $words"
done
shows 0 1 "$pair_plan" "$pair_line: a plan"$'\n'"$pair_rows" env RUNGLAET_PROGRAM=absent "$solve" --ceiling 1 pair.txt
shows 0 1 "$pair_plan" "${pair_line/pair.txt/pair.txt under rule 2}"$'\n'"${pair_rows/passes/passes under rule 2}" "$solve" --ceiling 1 --rule 2 pair.txt 1
shows 3 0 'echo s UNSATISFIABLE >$3; exit 20' "$pair_line"$'\nno plan of makespan 1 and cost at most 1' "$solve" --ceiling 1 pair.txt 1
none_free=$(for m in {1..32}; do echo "pair.txt, cost at most 0, horizon $m: $((4 * m + 1)) variables, $((10 * m + 1)) clauses, minisat: no plan"; done)
shows 3 0 'echo s UNSATISFIABLE >$3; exit 20' "$none_free"$'\nno plan of makespan 0 to 32 and cost at most 0' "$solve" pair.txt --ceiling 0
shows 3 0 'echo s UNSATISFIABLE >$3; exit 20' "${none_free//pair.txt/pair.txt under rule 2}"$'\nno plan of makespan 0 to 32 and cost at most 0 under rule 2' \
    "$solve" pair.txt --ceiling 0 --rule 2
rm -f asked
for ceiling in 129 x ''; do
    for words in pair.txt 'pair.txt 1' line33.txt "$root/examples/apart.txt"; do
        # shellcheck disable=SC2086  # Words of the command.
        refuse 32 "\"$ceiling\" was given" with "touch $folder/asked" "$solve" --ceiling "$ceiling" $words
    done
    refuse 31 '"3" was given' with "touch $folder/asked" "$solve" --ceiling "$ceiling" --rule 3 pair.txt
done
result "$(ls asked 2>/dev/null)" 'no solver is asked where there is no ceiling'
for words in '--ceiling 2' 'pair.txt --ceiling' 'pair.txt 1 --ceiling' '--ceiling 2 pair.txt --ceiling 2' '--ceiling 2 pair.txt 1 2'; do
    # shellcheck disable=SC2086  # Words of the command.
    expect solve-words 2 with "$pair_plan" "$solve" $words
done
note=minisat refuse 24 "clause 10 of the ceiling's $limit 1 or more of variable 5" with "$pair_plan" "$solve" --ceiling 0 pair.txt 1

# least_cost.sh: the pair at horizon 1 costs 1. With ceiling 0 it has 11 clauses, else 10.
least=$root/examples/least_cost.sh
dear='read -r _ _ _ c <$2; [ $c != 11 ] || { echo s UNSATISFIABLE >$3; exit 20; }; '$pair_plan
first_line='pair.txt, cost at most 128, horizon 1: 5 variables, 10 clauses, minisat'
least_lines="$first_line: a plan of cost 1"$'\npair.txt, cost at most 0, horizon 1: 5 variables, 11 clauses, minisat: no plan\n'
least_lines+=${pair_rows/ceiling 1/ceiling 128}$'\nleast cost of makespan 1: 1; minisat finds none of cost 0 or less'
shows 0 1 "$dear" "$least_lines" env RUNGLAET_PROGRAM=absent "$least" pair.txt 1
of_2=${least_lines//pair.txt/pair.txt under rule 2}
of_2=${of_2/passes/passes under rule 2}
shows 0 1 "$dear" "${of_2/makespan 1: 1/makespan 1 under rule 2: 1}" "$least" --rule 2 pair.txt 1
note=minisat solves 0 "$dear" 'least cost of makespan 1: 1; minisat finds none of cost 0 or less' env KEEP=last "$least" <(cat pair.txt) 1
shows 0 1 'printf "SAT\n1 -2 0\n" >$3; exit 10' \
    $'home.txt, cost at most 128, horizon 0: 2 variables, 4 clauses, minisat: a plan of cost 0\nt=0: agent0@0\nplan passes: makespan 0, cost 0, ceiling 128\nleast cost of makespan 0: 0' \
    "$least" home.txt 0
shows 3 0 'echo s UNSATISFIABLE >$3; exit 20' "$first_line: no plan"$'\nno plan of makespan 1' env RUNGLAET_PROGRAM=absent "$least" pair.txt 1
# A plan of the grid at horizon 9 costs at most 144, so it is asked once more without a ceiling. Under rule 2 that formula
# has 16 + 16 + 160 + 322,560 + 76,800 + 9,216 + 241,920 clauses.
grid=$root/examples/grid8.txt
grid_lines=$'grid8.txt under rule 2, cost at most 128, horizon 9: 11409 variables, 671369 clauses, minisat: no plan\n'
grid_lines+=$'grid8.txt under rule 2, horizon 9: 10240 variables, 650688 clauses, minisat: no plan\nno plan of makespan 9 under rule 2'
shows 3 0 'echo s UNSATISFIABLE >$3; exit 20' "$grid_lines" "$least" --rule 2 "$grid" 9
from grid.plan "$shuttles" encode --rule 2 "$grid" 9 - >dear.txt
dearer="read -r _ _ n _ <\$2; [ \$n = 10240 ] || { echo s UNSATISFIABLE >\$3; exit 20; }; cat $folder/dear.txt >\$3; exit 10"
solves 3 "$dearer" 'no plan of makespan 9 under rule 2 costs at most 128, the highest ceiling; this one costs 128' "$least" --rule 2 "$grid" 9
# What solve.sh refuses or complains of ends the search as it ended solve.sh.
refuse 10 '"33" was given' with "$dear" "$least" pair.txt 33
refuse 31 '"3" was given' with "$dear" "$least" --rule 3 pair.txt 1
refuse 27 'the text is empty' with 'exit 10' "$least" pair.txt 1
expect NoFile 2 with "$dear" "$least" absent.txt 1
expect solve-status 2 with 'exit 1' "$least" pair.txt 1
expect solve-time 2 with 'exec sleep 9' env LIMIT=1 "$least" pair.txt 1
expect solve-unknown-solver 2 with "$dear" env SOLVER=glucose "$least" pair.txt 1
for words in '' pair.txt 'pair.txt 1 2' '--rule 2 pair.txt' 'pair.txt 1 --rule' '--rule 2 pair.txt 1 --rule 2' 'pair.txt 1 --ceiling'; do
    # shellcheck disable=SC2086  # Words of the command.
    expect least-words 2 with "$dear" "$least" $words
done
expect least-temporary 2 with "$dear" env TMPDIR=absent "$least" pair.txt 1
expect least-closed 2 closed with "$dear" "$least" pair.txt 1
for way in full gone; do note=minisat expect least-output 2 "$way" with "$dear" "$least" pair.txt 1; done
# A tool that tells another cost, or none.
tool decode 'echo "plan passes: makespan $3, cost 129, ceiling 128"'
expect least-above 2 with "$pair_plan" other/examples/least_cost.sh pair.txt 1
tool decode 'echo "plan passes: makespan $3"'
expect least-not-understood 2 with "$pair_plan" other/examples/least_cost.sh pair.txt 1
# A signal ends the solver too.
rm -f solver
ended() {
    (exec env FAKE="echo \$\$ >$folder/solver; exec sleep 9" PATH="$folder/fake:$folder/bare" "$least" pair.txt 1) &
    for _ in {1..60}; do
        [ ! -s solver ] || break
        sleep 0.05
    done
    kill "-$1" "$!"
    wait "$!"
}
for signal in TERM HUP; do
    rm -f solver
    expect least-signal 2 ended "$signal"
    for _ in {1..40}; do
        kill -0 "$(cat solver)" 2>/dev/null || break
        sleep 0.05
    done
    result "$(kill -0 "$(cat solver)" 2>/dev/null && echo 'it outlived its run')" "the solver of a search ended by $signal"
done
