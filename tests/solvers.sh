#!/usr/bin/env bash
# Solvers from Debian's packages on formulas that the formula program and the tool printed; outside the gate.
#
# Solves every example of the table in examples/README.md and the cases below with each solver installed, and compares
# with the answer known beforehand: at single horizons by the base formula and by the formula with family H, which must
# get the same verdict, and without a horizon, from the floor on. Under rule 2 likewise, but the formula with family H is
# solved only from the floor on. A plan must pass the plan check, and its own valuation must decode to it again. One of
# rule 1 must pass under rule 2 too; one of rule 2 must pass under rule 1 or get 26. What cadical and picosat print is
# read as it is, and kissat is held to that where it is installed. Of minisat's output, and of cryptominisat's where a v
# line ends with a space, a note says that it was brought into the form that is read. Nothing else is said on standard
# error. By examples/least_cost.sh, which asks with ceilings, the least costs known beforehand.
# INSTALL=yes installs the solvers first (as root). RUNGLAET_LIB and RUNGLAET_PROGRAM as in examples/solve.sh.
# Status 77: no solver is installed, and the table alone was read.
set -u
root=$(cd "$(dirname "$0")/.." && pwd)
# shellcheck source=examples/solver_commands.sh
. "$root/examples/solver_commands.sh" || exit 2
folder=$(mktemp -d)
trap 'rm -rf "$folder"' EXIT
# Seconds that a solver may take for a case; the slowest takes one or two.
limit=120
failed=0

fail() {
    echo "FAILED: $*"
    failed=$((failed + 1))
}

# Descriptions for this test only.
cp "$root"/examples/*.txt "$folder"
printf '%s\n' 'vertices 1' 'agent 0 0' >"$folder/stay.txt"
printf '%s\n' 'vertices 2' 'agent 1 -' 'agent 0 -' >"$folder/waiting.txt"
printf '%s\n' 'vertices 2' 'edge 0 1' 'agent 1 -' 'agent 0 1' >"$folder/blocked.txt"
ring=('vertices 4' 'edge 0 1' 'edge 1 2' 'edge 2 3' 'edge 0 3')
printf '%s\n' "${ring[@]}" 'agent 0 1' 'agent 1 2' 'agent 2 3' >"$folder/ring.txt"
printf '%s\n' "${ring[@]}" 'agent 0 1' 'agent 1 -' 'agent 2 -' >"$folder/push.txt"
printf '%s\n' "${ring[@]}" 'agent 0 1' 'agent 1 2' 'agent 2 3' 'agent 3 0' >"$folder/turn.txt"
printf '%s\n' "${ring[@]}" 'agent 0 1' 'agent 1 0' 'agent 2 2' 'agent 3 3' >"$folder/knot.txt"
{
    echo 'vertices 64'
    for ((v = 0; v < 64; v++)); do for ((w = v + 1; w < 64; w++)); do echo "edge $v $w"; done; done
    for ((a = 0; a < 16; a++)); do echo "agent $a $((63 - a))"; done
} >"$folder/complete.txt"

# The table's lines under its heading.
table() {
    awk '/^\| *Description *\|.*Has a plan at horizon *\| *Under rule 2 *\|$/ { inside = 1; next }
        inside && !/^\|/ { exit }
        inside && !/^[-| ]*$/' "$root/examples/README.md"
}

# table_cases: for each line of the table, rule, example, horizon and answer in "$folder/cases", and in "$folder/climbs"
# rule, example, floor (or "unreachable") and first horizon (or "none").
# "h and above": no plan at any horizon below h, one at h, at h + 1 and at the highest; under rule 2 none just below h and
# one at h. "none": none at some, up to the highest.
table_cases() {
    local line example horizon floor first second
    local number='0|[1-9][0-9]?'
    local horizons="(none|($number) and above)"
    # shellcheck disable=SC2016  # The backquotes are the table's.
    local pattern='^\| `([A-Za-z0-9_-]+)\.txt` \| [^|]+ \| ('$number'|unreachable) \| '$horizons' \| '$horizons' \|$'
    while IFS= read -r line; do
        if ! [[ $line =~ $pattern ]] || [ "${BASH_REMATCH[4]:-0}" -gt 32 ] || [ "${BASH_REMATCH[6]:-0}" -gt 32 ]; then
            fail "examples/README.md: this line of the table cannot be read: $line"
            continue
        fi
        example=${BASH_REMATCH[1]} floor=${BASH_REMATCH[2]} first=${BASH_REMATCH[4]} second=${BASH_REMATCH[6]}
        echo "$example" >>"$folder/named"
        printf '%s\n' "1 $example $floor ${first:-none}" "2 $example $floor ${second:-none}" >>"$folder/climbs"
        if [ ! -f "$root/examples/$example.txt" ]; then
            fail "examples/README.md: the table names $example.txt, which is not there"
            continue
        fi
        {
            if [ -z "$first" ]; then
                for horizon in 0 1 2 5 12 32; do echo "1 $example $horizon UNSAT"; done
            else
                for ((horizon = 0; horizon < first; horizon++)); do echo "1 $example $horizon UNSAT"; done
                printf '%s\n' "$first" $((first < 32 ? first + 1 : 32)) 32 | sort -nu | sed "s/.*/1 $example & SAT/"
            fi
            if [ -z "$second" ]; then
                for horizon in 1 32; do echo "2 $example $horizon UNSAT"; done
            else
                [ "$second" -eq 0 ] || echo "2 $example $((second - 1)) UNSAT"
                echo "2 $example $second SAT"
            fi
        } >>"$folder/cases"
    done < <(table)
}

: >"$folder/named"
: >"$folder/cases"
: >"$folder/climbs"
table_cases
[ -s "$folder/named" ] || fail "examples/README.md: no table with the columns 'Has a plan at horizon' and 'Under rule 2'"
for file in "$root"/examples/*.txt; do
    example=$(basename "$file" .txt)
    times=$(grep -cxF -e "$example" "$folder/named")
    [ "$times" -eq 1 ] || fail "examples/README.md: $example.txt stands $times times in the table, not once"
done
echo "table: $(wc -l <"$folder/named") examples, $failed failed"

# Cases that the table does not have.
grep -v '^ *#' >>"$folder/cases" <<'END'
# The start is the goal.
1 stay 0 SAT
1 stay 32 SAT
2 stay 32 SAT
# No agent has a destination.
1 waiting 0 SAT
1 waiting 32 SAT
2 waiting 32 SAT
# The other one cannot leave the goal, although it has no destination: both vertices are always occupied.
1 blocked 1 UNSAT
1 blocked 32 UNSAT
2 blocked 32 UNSAT
# Four vertices in a ring, three agents move on by one: only one can move in a step, so three steps. Under rule 2 one.
1 ring 1 UNSAT
1 ring 2 UNSAT
1 ring 3 SAT
2 ring 0 UNSAT
2 ring 1 SAT
# The same ring, and the two in front have no destination: each must make room for the one behind it all the same.
1 push 1 UNSAT
1 push 2 UNSAT
1 push 3 SAT
2 push 0 UNSAT
2 push 1 SAT
# The same ring with four agents: under rule 1 none can ever move, under rule 2 only all at once, the same way round.
1 turn 1 UNSAT
1 turn 32 UNSAT
2 turn 0 UNSAT
2 turn 1 SAT
2 turn 2 SAT
2 turn 32 SAT
1 knot 32 UNSAT
2 knot 1 UNSAT
2 knot 32 UNSAT
# The largest formula of rule 1. Every vertex is one step from every other, and all goals are vacant.
1 complete 0 UNSAT
1 complete 1 SAT
1 complete 32 SAT
2 complete 1 SAT
END
cat >>"$folder/climbs" <<'END'
1 stay 0 0
1 waiting 0 0
1 blocked 1 none
2 blocked 1 none
1 ring 1 3
2 ring 1 1
1 push 1 3
2 push 1 1
1 turn 1 none
2 turn 1 1
1 complete 1 1
2 complete 1 1
END

# Rule, example, horizon and least cost of a plan, or none. In the train one agent moves in a step, the front one first; in
# the grids each agent needs its distance, and in the larger one under rule 2 every second one two steps more.
cat >"$folder/costs" <<'END'
1 stay 3 0
1 pair 5 1
1 path 3 3
2 path 3 2
1 idle 4 4
2 idle 4 3
1 train 5 10
2 train 5 4
1 grid4 6 24
2 grid4 8 24
2 grid8 9 128
1 exchange 5 none
END

if [ "${INSTALL:-no}" = yes ]; then
    export DEBIAN_FRONTEND=noninteractive
    apt-get update >"$folder/apt.log" 2>&1 || { tail -n 3 "$folder/apt.log"; echo "solvers.sh: apt-get update failed"; }
    for package in minisat cadical picosat cryptominisat kissat; do
        if [ -z "$(apt-cache madison "$package" 2>/dev/null)" ]; then
            echo "package $package: not in this Debian"
        elif apt-get install -y --no-install-recommends "$package" >"$folder/apt.log" 2>&1; then
            echo "package $package $(dpkg-query -W -f '${Version}' "$package")"
        else
            tail -n 3 "$folder/apt.log"
            echo "package $package: not installed"
        fi
    done
fi

installed=
for solver in $solvers; do
    if command -v "$solver" >/dev/null; then installed="$installed $solver"; fi
done
if [ -z "$installed" ]; then
    [ "$failed" -eq 0 ] || exit 1
    echo "solvers: skipped, none is installed of: $solvers (INSTALL=yes installs Debian's)"
    exit 77
fi

# Builds first, so that the runs below have nothing to say on standard error.
shuttles=$("$root/tools/shuttles/build.sh") || exit 1
if [ -n "${RUNGLAET_PROGRAM:-}" ]; then
    RUNGLAET_PROGRAM=$(realpath -e "$RUNGLAET_PROGRAM") || exit 1
else
    RUNGLAET_PROGRAM=$("$root/tools/formula_program/build.sh") || exit 1
fi
export RUNGLAET_PROGRAM

# In the formula program's place: reads the byte m and the instance as it does, and prints the formula with family H.
cat >"$folder/with-h" <<END
#!/bin/sh
cat >"$folder/given" && tail -c +2 "$folder/given" >"$folder/given.bin" &&
    exec "$shuttles" pruned "$folder/given.bin" \$(od -A n -t u1 -N 1 "$folder/given")
END
chmod +x "$folder/with-h"

# own_form SOLVER OUTPUT: the solver whose form the output has, or nothing. Cryptominisat ends every v line but its last
# with a space; one line alone is read as it is.
own_form() {
    case $1 in
    minisat) echo minisat ;;
    cryptominisat5) if grep -q '^v .* $' "$2"; then echo cryptominisat; fi ;;
    esac
}

# noted FORM ERRORS [MOST]: of what was said, a fault unless it is the note for this form, or nothing where there is no
# form. Of a climb there may be more notes than one, all different.
noted() {
    if [ -z "$1" ]; then
        [ ! -s "$2" ] || echo "not read as printed"
    elif [ ! -s "$2" ] || [ "$(wc -l <"$2")" -gt "${3:-1}" ] || [ -n "$(sort "$2" | uniq -d)" ] ||
        grep -qv "^note: the text is in $1's form and was brought into" "$2"; then
        echo "not the note for $1's form alone"
    fi
}

# solve FOLDER EXAMPLE [HORIZON]: runs solve.sh with the solver, under `rule`; sets `run`, `status`, `took`, `last`, `form`.
solve() {
    local begin
    run=$1
    rm -rf "$run"
    mkdir "$run"
    begin=$(date +%s%N)
    status=0
    SOLVER=$solver LIMIT=$limit KEEP=$run "$root/examples/solve.sh" --rule "$rule" "$folder/$2.txt" "${@:3}" \
        </dev/null >"$run/shown" 2>"$run/errors" || status=$?
    took=$((($(date +%s%N) - begin) / 1000000))
    last=$(tail -n 1 "$run/shown")
    form=$(own_form "$solver" "$run/output.txt")
    ran=$((ran + 1))
}

# What is said of a formula or a plan of the rule.
under() { [ "$rule" = 1 ] || echo " under rule $rule"; }

# plan_fault HORIZON: what is wrong with the plan of the run, if something is.
plan_fault() {
    local given=("$run/instance.bin" "$1" --rule "$rule") other
    [[ $last == "plan passes$(under): makespan $1, cost "* ]] || echo "wrong last line"
    "$shuttles" decode --numbers "${given[@]}" <"$run/output.txt" >"$run/plan" 2>"$run/said" || echo "does not decode"
    noted "$form" "$run/said"
    [ "$("$shuttles" check "${given[@]}" - <"$run/plan")" = "$last" ] || echo "does not pass"
    "$shuttles" encode "${given[@]}" - <"$run/plan" >"$run/valuation" || echo "does not encode"
    "$shuttles" decode --numbers "${given[@]}" <"$run/valuation" 2>"$run/said" |
        cmp -s - "$run/plan" || echo "decodes to another plan"
    noted '' "$run/said"
    other=$("$shuttles" check "${given[@]:0:3}" $((3 - rule)) - <"$run/plan")
    case "$rule $other" in
    "1 ${last/passes/passes under rule 2}" | "2 ${last/ under rule 2/}") ;;
    "2 refused 26: "*) echo "$solver $example $1" >>"$folder/following" ;;
    *) echo "by the other rule: $other" ;;
    esac
}

# told WHAT FAULT: a line for the run that was made.
told() {
    echo "$solver $1 ($took ms)${2:+ FAILED: ${2//$'\n'/, }: $last $(head -c 300 "$run/errors")}"
    [ -z "$2" ] || failed=$((failed + 1))
}

# at_horizon FORMULA EXAMPLE HORIZON EXPECTED: base or with-h.
at_horizon() {
    local answer fault
    solve "$folder/$1.run" "$2" "$3"
    case $status in
    0) answer=SAT ;;
    3) answer=UNSAT ;;
    *) answer="status $status" ;;
    esac
    fault=$(noted "$form" "$run/errors")
    if [ "$answer" != "$4" ]; then
        fault="expected $4"
    elif [ -n "$fault" ]; then
        :
    elif [ "$answer" = UNSAT ]; then
        [ "$last" = "no plan of makespan $3$(under)" ] || fault="wrong last line"
    else
        plans=$((plans + 1))
        fault=$(plan_fault "$3")
    fi
    told "$1 $2 $3$(under): $answer" "$fault"
    if [ -n "$form" ]; then brought=$((brought + 1)); fi
}

# extends: a fault unless the formula with family H is the base formula with clauses of one negative literal behind it.
extends() {
    local base=$folder/base.run/formula.cnf pruned=$folder/with-h.run/formula.cnf lines
    lines=$(wc -l <"$base")
    [ "$(head -n 1 "$base" | cut -d ' ' -f 1-3)" = "$(head -n 1 "$pruned" | cut -d ' ' -f 1-3)" ] || echo "other variables"
    tail -n +2 "$base" | cmp -s - <(head -n "$lines" "$pruned" | tail -n +2) || echo "other clauses before family H"
    ! tail -n +$((lines + 1)) "$pruned" | LC_ALL=C grep -qvxE -e '-[1-9][0-9]* 0' || echo "other clauses in family H"
}

# climb EXAMPLE FLOOR FIRST: without a horizon; each horizon from the floor to the first with a plan, or to 32.
climb() {
    local fault='' expected top=$3 own=''
    solve "$folder/run" "$1"
    [ "$3" != none ] || top=32
    # What each line tells: the horizon and its outcome.
    sed -n "s/^$1\.txt$(under), horizon \([0-9]*\): .* clauses, $solver: \(.*\)\$/\1 \2/p" "$run/shown" >"$run/outcomes"
    if [ "$2" = unreachable ]; then
        expected=1
        [[ $last == "refused 30: "* ]] && [ "$(wc -l <"$run/shown")" -eq 1 ] || fault="not refused 30 alone"
        [ ! -s "$run/errors" ] || fault="something said on standard error"
    else
        case $3 in none) expected=3 ;; *) expected=0 ;; esac
        for ((horizon = $2; horizon <= top; horizon++)); do
            if [ "$horizon" = "$3" ]; then echo "$horizon a plan"; else echo "$horizon no plan"; fi
        done | cmp -s - "$run/outcomes" || fault="not these horizons: $(tr '\n' ',' <"$run/outcomes")"
        case $solver in minisat) own=minisat ;; cryptominisat5) own=$form ;; esac
        fault=$fault$(noted "$own" "$run/errors" 2)
        if [ "$3" = none ]; then
            [ "$last" = "no plan of makespan 0 to 32$(under)" ] || fault="wrong last line"
        elif [ -z "$fault" ]; then
            plans=$((plans + 1))
            fault=$(plan_fault "$3")
        fi
    fi
    [ "$status" -eq "$expected" ] || fault="status $status, not $expected"
    told "climb $1$(under): $(wc -l <"$run/outcomes") horizons from $2, $3" "$fault"
}

# cheapest EXAMPLE HORIZON COST: the least cost, and a plan that has it.
cheapest() {
    local fault='' status=0 begin
    begin=$(date +%s%N)
    SOLVER=$solver LIMIT=$limit "$root/examples/least_cost.sh" --rule "$rule" "$folder/$1.txt" "$2" \
        </dev/null >"$run/shown" 2>"$run/errors" || status=$?
    took=$((($(date +%s%N) - begin) / 1000000))
    last=$(tail -n 1 "$run/shown")
    if [ "$3" = none ]; then
        [ "$status $last" = "3 no plan of makespan $2$(under)" ] || fault="not none"
    elif [ "$status ${last%%;*}" != "0 least cost of makespan $2$(under): $3" ] ||
        [[ $(tail -n 2 "$run/shown" | head -n 1) != "plan passes$(under): makespan $2, cost $3, ceiling "* ]]; then
        fault="status $status, expected cost $3"
    fi
    told "cheapest $1 $2$(under): $3, $(grep -c ', cost at most ' "$run/shown") ceilings" "$fault"
    ran=$((ran + 1))
}

ran=0
plans=0
compared=0
# The formulas are the same for every solver, so they are compared for one.
one=${installed# }
one=${one%% *}
for solver in $installed; do
    brought=0
    while read -r rule example horizon expected; do
        at_horizon base "$example" "$horizon" "$expected"
        if [ "$rule" = 1 ]; then
            RUNGLAET_PROGRAM=$folder/with-h at_horizon with-h "$example" "$horizon" "$expected"
        elif [ "$solver" = "$one" ]; then
            "$shuttles" pruned --rule 2 "$folder/$example.txt" "$horizon" >"$folder/with-h.run/formula.cnf"
        fi
        if [ "$solver" = "$one" ]; then
            compared=$((compared + 1))
            fault=$(extends)
            [ -z "$fault" ] || fail "$example $horizon$(under): ${fault//$'\n'/, }"
        fi
    done <"$folder/cases"
    while read -r rule example floor first; do
        climb "$example" "$floor" "$first"
    done <"$folder/climbs"
    while read -r rule example horizon cost; do
        cheapest "$example" "$horizon" "$cost"
    done <"$folder/costs"
    case $solver in
    minisat | cryptominisat5)
        echo "$solver: $brought outputs brought into the form that is read"
        [ "$brought" -gt 0 ] || fail "$solver: no output had a form of its own"
        ;;
    esac
done
[ -s "$folder/following" ] || fail "no plan of rule 2 was refused under rule 1"
echo "solvers:$installed; $ran runs, $plans plans, $compared pairs of formulas, $failed failed"
[ "$failed" -eq 0 ]
