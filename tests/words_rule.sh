# shellcheck shell=bash
# Read by tests/words.sh: the movement rules. Every number and every line here is worked out by hand.
# shellcheck disable=SC2154,SC2016  # That sets the names used here; what stands in single quotes is for its solvers.

# What is no rule: 31, just after 10 and before all else that a call asks. A number is handed on whole.
none_given='4294967297 4294967298 18446744073709551615'
for rule in 0 3 257 258 $none_given 18446744073709551617 -1 01 +2 1.0 x '' --numbers; do
    refuse 31 "\"$rule\" was given" "$shuttles" check --rule "$rule" path.txt 1  0 9
    result "$(grep -q '(place 0)$' lines || cat lines)" "the place of 31: $rule"
done
for rule in 0 3 02 ''; do
    refuse 31 "\"$rule\" was given" "$shuttles" size path.txt 2 --rule "$rule"
    refuse 31 "\"$rule\" was given" "$shuttles" encode path.txt --rule "$rule" 1  0
    for text in 's UNSATISFIABLE\n' x; do
        refuse 31 "\"$rule\" was given" fed "$text" "$shuttles" decode --numbers --rule "$rule" path.txt 1
    done
    for call in input formula pruned; do
        aside 31 "\"$rule\" was given" "$shuttles" "$call" path.txt 1 --rule "$rule"
        aside 10 '"33" was given' "$shuttles" "$call" --rule "$rule" path.txt 33
    done
    refuse 10 '"33" was given' "$shuttles" check --rule "$rule" path.txt 33  0
done
expect 'refusal 31' 0 "$shuttles" refusal 31 0
told 'the place is always 0'
expect 'refusal 31' 0 "$shuttles" refusal 31 0 path.txt 2 --rule 7
told '"7" was given'

# The option stands anywhere, once, with the commands that take a horizon. The formula program knows rule 1 alone.
for words in 'check --rule' 'check path.txt 1 --rule' 'check --rule 2 --rule 2 path.txt 1' '--rule 2' 'floor --rule 2 path.txt' \
    'instance path.txt --rule 1' 'show --rule 2 path.txt 0 1' 'help --rule 1' 'size --rule 2 path.txt' 'formula path.txt 1 2'; do
    # shellcheck disable=SC2086  # Words of the command.
    expect Usage 2 "$shuttles" $words
done
for words in '--rule 2 check path.txt 1 0 1 1 2' 'check path.txt 1 --rule 2 0 1 1 2' 'check path.txt 1 0 1 1 2 --rule 2'; do
    # shellcheck disable=SC2086  # Words of the command.
    says 'plan passes under rule 2: makespan 1, cost 2' "$shuttles" $words
done
expect ProgramRule 2 "$shuttles" input --rule 2 path.txt 2
result "$(head -c 100 said)" 'nothing on standard output: input --rule 2'
expect ProgramRule 2 "$shuttles" input "$root/examples/path.txt" 32 --rule 2
result "$(cmp <("$shuttles" input path.txt 2) <("$shuttles" input path.txt 2 --rule 1) 2>&1)" 'the input of rule 1'

# Plans. Who enters a vertex that another leaves closes up, who enters one where another stays drives into it; each is a
# fault of condition 2 under rule 1 alone. An exchange is one under both.
# faulty NUMBER PLACE TERMS WORD...: check and encode refuse so, with this place.
faulty() {
    local call
    for call in check encode; do
        refuse "$1" "$3" "$shuttles" "$call" "${@:4}"
        result "$(grep -q "(place $2)\$" lines || cat lines)" "the place: $call ${*:4}"
    done
}
# follows COST MAKESPAN DESCRIPTION PLAN...: under rule 2 the plan passes, and that is its cost.
follows() { says "plan passes under rule 2: makespan $2, cost $1" "$shuttles" check --rule 2 "$3" "$2" "${@:4}"; }
follows 2 1 path.txt  0 1  1 2
faulty 26 2 "$entered which agent 1 (line 5) leaves for vertex 2" path.txt 1 --rule 1  0 1  1 2
for rule in 1 2; do
    faulty 25 2 "$entered which agent 1 (line 5) leaves for vertex 0" path.txt 1 --rule "$rule"  0 1  1 0
done
faulty 20 2 "$entered where agent 1 (line 5) stays" path.txt 1 --rule 1  0 1  1 1
faulty 21 3 'agent 1 (line 5) at time 1: at vertex 1, and so is agent 0 (line 4)' path.txt 1 --rule 2  0 1  1 1
# Other questions are as they were: a jump before an exchange, and what passes under rule 1 passes.
faulty 19 2 'agent 0 (line 4) at time 1: from vertex 0 to vertex 2' path.txt 1 --rule 2  0 1  2 0
faulty 22 2 'agent 0 (line 4) at time 1: at vertex 0, its goal is vertex 1' path.txt 1 --rule 2  0 1  0 1
follows 3 2 path.txt  0 1  0 2  1 2
# A ring of three turns, and four in a file move on.
description ring.txt 'vertices 3' 'edge 0 1' 'edge 1 2' 'edge 0 2' 'agent 0 1' 'agent 1 2' 'agent 2 0'
follows 3 1 ring.txt  0 1 2  1 2 0
faulty 26 3 'agent 0 (line 5) at time 1: from vertex 0 to vertex 1, which agent 1 (line 6) leaves for vertex 2' ring.txt 1  0 1 2  1 2 0
train=$root/examples/train.txt
follows 4 1 "$train"  0 1 2 3  1 2 3 4
costs 10 4 "$train"  0 1 2 3  0 1 2 4  0 1 3 4  0 2 3 4  1 2 3 4
# Of several that exchange in a step the lowest is named, whoever follows before it or drives into one that stays.
description meet.txt 'grid 1 5' 'agent 0 -' 'agent 1 -' 'agent 3 -' 'agent 4 -'
from3='agent 2 (line 4) at time 1: from vertex 3 to vertex 4, which agent 3 (line 5) leaves for vertex 3'
faulty 25 6 "$from3" meet.txt 1 --rule 2  0 1 3 4  1 2 4 3
faulty 25 6 "$from3" meet.txt 1 --rule 2  0 1 3 4  1 1 4 3
faulty 26 4 'agent 0 (line 2) at time 1: from vertex 0 to vertex 1, which agent 1 (line 3) leaves for vertex 2' meet.txt 1  0 1 3 4  1 2 4 3
faulty 25 4 'agent 0 (line 2) at time 1: from vertex 0 to vertex 1, which agent 1 (line 3) leaves for vertex 0' meet.txt 1 --rule 2  0 1 3 4  1 0 4 3
faulty 25 10 "${from3/time 1/time 2}" meet.txt 2 --rule 2  0 1 3 4  0 1 3 4  0 1 4 3
# West and east of the grid change places two rows at a time, as examples/grid8.txt says. In each row one rests from time 7
# on and one from time 9: cost 8 * 16.
for ((t = 0; t < 10; t++)); do
    west=() east=()
    for ((row = 0; row < 64; row += 16)); do
        if [ "$t" -eq 0 ]; then turning=($((row + 8)) $((row + 7)))
        elif [ "$t" -lt 8 ]; then turning=($((row + t - 1)) $((row + 16 - t)))
        else turning=($((row + t + 6)) $((row + 9 - t)))
        fi
        driven=$((t < 7 ? t : 7))
        west+=($((row + driven)) "${turning[0]}")
        east+=("${turning[1]}" $((row + 15 - driven)))
    done
    echo "${west[*]} ${east[*]}"
done >grid.plan
says 'plan passes under rule 2: makespan 9, cost 128' from grid.plan "$shuttles" check --rule 2 "$root/examples/grid8.txt" 9 -
expect 'refusal 26' 1 from grid.plan "$shuttles" check "$root/examples/grid8.txt" 9 -

# Sizes: family G has m * e * k * (k - 1) clauses of 5 words. Of one agent it has none under either rule.
# sizes_of_2 DESCRIPTION M VARIABLES FORMULA WITH-H: likewise, under rule 2.
sizes_of_2() {
    says "formula under rule 2: $3, $4"$'\n'"with family H under rule 2: $3, $5" "$shuttles" size --rule 2 "$1" "$2"
}
description exchange.txt 'vertices 2' 'edge 0 1' 'agent 0 1' 'agent 1 0'
sizes_of_2 stay.txt 0 '1 variable' '3 clauses, 6 words' '3 clauses, 6 words'
sizes_of_2 pair.txt 1 '4 variables' '8 clauses, 24 words' '10 clauses, 28 words'
sizes_of_2 line32.txt 32 '1089 variables' '18515 clauses, 58614 words' '19571 clauses, 60726 words'
sizes_of_2 path.txt 0 '6 variables' '15 clauses, 43 words' '21 clauses, 55 words'
sizes_of_2 exchange.txt 1 '8 variables' '22 clauses, 70 words' '26 clauses, 78 words'
sizes_of_2 path.txt 2 '18 variables' '57 clauses, 205 words' '67 clauses, 225 words'
sizes_of_2 "$idle" 2 '24 variables' '85 clauses, 312 words' '97 clauses, 336 words'
sizes_of_2 "$train" 1 '40 variables' '224 clauses, 816 words' '256 clauses, 880 words'
{
    echo 'vertices 64'
    for ((v = 0; v < 64; v++)); do for ((w = v + 1; w < 64; w++)); do echo "edge $v $w"; done; done
    for ((a = 0; a < 16; a++)); do echo "agent $a $((63 - a))"; done
} >complete.txt
sizes_of_2 complete.txt 32 '33792 variables' '16834096 clauses, 83565136 words' '16836112 clauses, 83569168 words'
says "$("$shuttles" size path.txt 2)" "$shuttles" size path.txt 2 --rule 1

# Formulas. That of rule 1 is the formula program's. Under rule 2 it has the same clauses before family G, which follow here:
# agent 0 has the variables 1 to 3 at time 0 and 4 to 6 at time 1, agent 1 has 7 to 9 and 10 to 12.
for words in 'pair.txt 1' 'path.txt 2' 'four.txt 3' "$idle 3" "$root/examples/grid4.txt 6"; do
    # shellcheck disable=SC2086  # Words of the command.
    result "$("$shuttles" formula $words | cmp - <("$shuttles" input $words | "$program") 2>&1)" "the formula of rule 1: $words"
done
"$shuttles" formula path.txt 1 >base
{
    echo 'p cnf 12 36'
    sed -n 2,33p base
    printf '%s 0\n' '-1 -5 -8 -10' '-7 -11 -2 -4' '-2 -6 -9 -11' '-8 -12 -3 -5'
} >wanted
result "$("$shuttles" formula path.txt 1 --rule 2 | diff - wanted)" 'the formula of rule 2'
{ sed 's/ 36$/ 44/' wanted; printf -- '-%s 0\n' 2 3 7 9 4 6 10 11; } >with-h
result "$("$shuttles" pruned path.txt 1 --rule 2 | diff - with-h)" 'the formula of rule 2 with family H'
result "$("$shuttles" pruned path.txt 1 --rule 1 | cmp - <("$shuttles" pruned path.txt 1) 2>&1)" 'rule 1, with family H'
# The sizes told are those of the texts.
for words in 'four.txt 3' "$idle 3" "$root/examples/grid8.txt 9"; do
    # shellcheck disable=SC2086  # Words of the command.
    { "$shuttles" formula --rule 2 $words >base && "$shuttles" pruned --rule 2 $words >with-h; } 2>&1
    # shellcheck disable=SC2086
    result "$({ text_size 'formula under rule 2' base; text_size 'with family H under rule 2' with-h; } |
        diff - <("$shuttles" size --rule 2 $words))" "the sizes of the texts under rule 2: $words"
done

# Valuations: both agents of the path move in one step.
both='1 -2 -3 -4 5 -6 -7 8 -9 -10 -11 12'
both_rows=$'t=0: agent0@0 agent1@1\nt=1: agent0@1 agent1@2\nplan passes under rule 2: makespan 1, cost 2'
says "s SATISFIABLE"$'\n'"v $both"$'\nv 0' "$shuttles" encode --rule 2 path.txt 1  0 1  1 2
says "$both_rows" fed "s SATISFIABLE\nv $both 0\n" "$shuttles" decode --rule 2 path.txt 1
says $'0 1\n1 2' fed "s SATISFIABLE\nv $both 0\n" "$shuttles" decode --rule 2 --numbers path.txt 1
into1='family G (no agent enters a vertex where another stood as the step began), for agent 0'
swap='family G (no two agents exchange vertices in one step), for agent'
refuse 24 "clause 33 of $into1 (line 4) at vertex 1 at time 1, where agent 1 (line 5) is at time 0" \
    fed "s SATISFIABLE\nv $both 0\n" "$shuttles" decode path.txt 1
refuse 24 "clause 21 of $into1 (line 3) at vertex 1 at time 1, where agent 1 (line 4) is at time 0" \
    fed 's SATISFIABLE\nv 1 -2 -3 4 -5 6 7 -8 0\n' "$shuttles" decode exchange.txt 1
refuse 24 "clause 20 of $swap 0 (line 3) from vertex 0 at time 0 to vertex 1 at time 1, and agent 1 (line 4) the other way" \
    fed 's SATISFIABLE\nv 1 -2 -3 4 -5 6 7 -8 0\n' "$shuttles" decode --rule 2 exchange.txt 1
expect 'refusal 24' 0 "$shuttles" refusal --rule 2 24 35 path.txt 1
told "clause 35 of $swap 1 (line 5) from vertex 1 at time 0 to vertex 2 at time 1, and agent 0 (line 4) the other way"
expect 'refusal 24' 0 "$shuttles" refusal --rule 2 24 36 path.txt 1
told 'the place is a clause'
result "$([ "$(fed 's UNSATISFIABLE\n' "$shuttles" decode --rule 2 path.txt 1) $?" = 'no plan of makespan 1 under rule 2 3' ] || echo otherwise)" \
    'no plan under rule 2'

# solve.sh.
both_plan="printf \"SAT\n$both 0\n\" >\$3; exit 10"
at1_of_2='path.txt under rule 2, horizon 1: 12 variables, '
shows 0 1 "$both_plan" "${at1_of_2}44 clauses, minisat: a plan"$'\n'"$both_rows" env RUNGLAET_PROGRAM=absent "$solve" --rule 2 path.txt
for words in '--rule 2 path.txt 1' 'path.txt --rule 2 1' 'path.txt 1 --rule 2'; do
    rm -rf last
    # shellcheck disable=SC2086  # Words of the command.
    shows 0 1 "$both_plan" "${at1_of_2}36 clauses, minisat"$'\n'"$both_rows" \
        env RUNGLAET_PROGRAM=absent KEEP=last "$solve" $words
    result "$(cd last && diff <(printf '%s\n' *) <(printf '%s\n' formula.cnf instance.bin output.txt))" "what KEEP keeps: $words"
    result "$(diff last/formula.cnf wanted)" "the formula kept: $words"
done
shows 3 0 'echo s UNSATISFIABLE >$3; exit 20' "${at1_of_2}36 clauses, minisat"$'\nno plan of makespan 1 under rule 2' "$solve" --rule 2 path.txt 1
shows 3 0 'echo s UNSATISFIABLE >$3; exit 20' "${none//pair.txt/pair.txt under rule 2} under rule 2" "$solve" --rule 2 pair.txt
shows 0 1 "$(after "$path_plan")" "${at1}no plan"$'\n'"${at2}a plan"$'\n'"$rows" "$solve" --rule 1 path.txt
note=minisat solves 0 "$plan" "$passes" "$solve" pair.txt 1 --rule 1
shows 3 0 "touch $folder/asked" 'no plan of makespan 0 to 32: the floor is 33, the greatest distance from a start to its goal' "$solve" --rule 2 line33.txt
refuse 30 "agent 0 (line 6) from vertex 0 to vertex 3, $nowhere" with "touch $folder/asked" "$solve" --rule 2 "$root/examples/apart.txt"
# What is no rule, before the floor is asked.
for rule in 0 3 x ''; do
    for words in pair.txt 'pair.txt 1' line33.txt "$root/examples/apart.txt"; do
        # shellcheck disable=SC2086  # Words of the command.
        refuse 31 "\"$rule\" was given" with "touch $folder/asked" "$solve" --rule "$rule" $words
    done
    refuse 10 '"33" was given' with "touch $folder/asked" "$solve" --rule "$rule" pair.txt 33
done
result "$(ls asked 2>/dev/null)" 'no solver is asked where there is no rule or the floor tells'
for words in '--rule 2' 'pair.txt --rule' 'pair.txt 1 --rule' '--rule 2 pair.txt --rule 2' '--rule 2 pair.txt 1 2'; do
    # shellcheck disable=SC2086  # Words of the command.
    expect solve-words 2 with "$plan" "$solve" $words
done
expect NoFile 2 with "$plan" "$solve" --rule 2 absent.txt
# The tool, where it fails.
tool size 'kill -9 $$'
expect solve-no-answer 2 with "$plan" other/examples/solve.sh --rule 2 pair.txt
tool formula 'exit 1'
expect solve-no-answer 2 with "$plan" other/examples/solve.sh --rule 2 pair.txt 1
tool formula '"$shuttles" "$@" | head -n 5'
expect solve-not-whole 2 with "$plan" other/examples/solve.sh --rule 2 pair.txt 1
