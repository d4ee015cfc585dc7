#!/usr/bin/env bash
# What family H saves the solvers on the examples: tests/pruning.sh [--write]. With --write, what is printed also replaces
# the table between the marks in docs/BENCHMARK.md.
#
# Each example without an unreachable goal, each solver installed: at the last horizon without a plan, the first with one
# and 32 (without any plan, 32 alone), the base formula beside the formula with family H. Then the whole climb to the first
# plan: from horizon 1 and from the floor with base formulas, and from the floor with family H.
# A time is that of the solver's process, which reads the formula too; making the formula is not in it. It is the best of
# 5 runs, and of short ones of up to 25, the two formulas in turn. Every verdict is held against the first horizon with a
# plan that examples/solve.sh finds.
# RUNGLAET_LIB and RUNGLAET_PROGRAM as in examples/solve.sh.
set -euo pipefail
export LC_ALL=C
write=0
case "$#,${1:-}" in
0,) ;;
1,--write) write=1 ;;
*)
    echo "usage: tests/pruning.sh [--write]" >&2
    exit 2
    ;;
esac
root=$(realpath "$(dirname "$0")/..")
# shellcheck source=examples/solver_commands.sh
. "$root/examples/solver_commands.sh"
document=$root/docs/BENCHMARK.md
# Runs of each formula: at least so many, and at most so many as long as they take less than so many microseconds.
runs=5 most=25 enough=300000
# Seconds of a processor that a solver may take for one formula.
limit=120

stop() {
    echo "pruning.sh: $*" >&2
    exit 1
}

# written FILE: the document with this file between its marks.
written() {
    awk -v printed="$1" '
        /^<!-- pruning ends/ { inside = 0 }
        !inside
        /^<!-- pruning begins/ {
            inside = found = 1
            print "```"
            while ((getline line <printed) > 0) print line
            print "```"
        }
        END { exit inside || !found }' "$document"
}
[ "$write" = 0 ] || written /dev/null >/dev/null || stop "there are no marks for the table in $document"

installed=()
for solver in $solvers; do
    if command -v "$solver" >/dev/null; then installed+=("$solver"); fi
done
[ ${#installed[@]} -gt 0 ] || stop "no solver is installed of: $solvers"
shuttles=$("$root/tools/shuttles/build.sh")
program=$(realpath "${RUNGLAET_PROGRAM:-$("$root/tools/formula_program/build.sh")}")
folder=$(mktemp -d)
trap 'rm -rf "$folder"' EXIT

# formulas EXAMPLE HORIZON: base and with-h, where they are not there yet.
formulas() {
    local file=$folder/$1.$2 description=$root/examples/$1.txt
    [ ! -f "$file.base" ] || return 0
    "$shuttles" input "$description" "$2" | "$program" >"$file.base"
    "$shuttles" pruned "$description" "$2" >"$file.with-h"
}

clauses() {
    sed -n '1s/.* //p;1q' "$folder/$1"
}

# once FORMULA VERDICT: runs the solver, whose exit status must be the verdict; the microseconds, in `took`.
once() {
    local command printed status=0 begin
    solver_command "$solver" "$1" "$folder/output"
    begin=${EPOCHREALTIME/./}
    (ulimit -t "$limit" && exec "${command[@]}" >"$printed" 2>/dev/null) || status=$?
    took=$((${EPOCHREALTIME/./} - begin))
    [ "$status" -eq "$2" ] || stop "$solver ended with $status, not $2: $(basename "$1")"
}

# least KEY: keeps `took` where it is the least under this key.
declare -A best
least() {
    if [ -z "${best[$1]:-}" ] || [ "$took" -lt "${best[$1]}" ]; then best[$1]=$took; fi
}

# measure EXAMPLE HORIZON VERDICT: the times of both formulas, for every solver.
measure() {
    local solver run kind spent
    formulas "$1" "$2"
    for solver in "${installed[@]}"; do
        [ -z "${best[$1.$2.base $solver]:-}" ] || continue
        spent=0
        for ((run = 0; run < runs || (run < most && spent < enough); run++)); do
            for kind in base with-h; do
                once "$folder/$1.$2.$kind" "$3"
                least "$1.$2.$kind $solver"
                spent=$((spent + took))
            done
        done
    done
}

# row HEADING TIME...: the times in seconds, and the ratio of the last to the first.
row() {
    awk 'BEGIN {
        printf "%s", ARGV[1]
        for (i = 2; i < ARGC; i++) printf " %10.4f", ARGV[i] / 1e6
        printf " %6.2f\n", ARGV[ARGC - 1] / ARGV[2]
    }' "$@"
}

# verdict EXAMPLE HORIZON: 10 with a plan, 20 without.
verdict() {
    if [ -n "${first[$1]}" ] && [ "$2" -ge "${first[$1]}" ]; then echo 10; else echo 20; fi
}

# versions: each solver with that of its package.
versions() {
    local solver package
    for solver in "${installed[@]}"; do
        package=$(dpkg-query -S "$(realpath "$(command -v "$solver")")" 2>/dev/null | cut -d : -f 1) || package=''
        echo "$solver${package:+ $(dpkg-query -W -f '${Version}' "$package")}"
    done | paste -s -d , | sed 's/,/, /g'
}

# The examples, with the floor and the first horizon that has a plan, as a solver finds it.
examples=()
declare -A floor first
for file in "$root"/examples/*.txt; do
    example=$(basename "$file" .txt)
    if ! answer=$("$shuttles" floor "$file"); then
        [[ $answer == "refused 30:"* ]] && continue
        echo "pruning.sh: there is no floor for $file: $answer" >&2
        exit 1
    fi
    examples+=("$example")
    floor[$example]=${answer##* }
    status=0
    answer=$(LIMIT=$limit SOLVER=${installed[0]} "$root/examples/solve.sh" "$file" 2>/dev/null) || status=$?
    case $status in
    0) first[$example]=$(sed -n 's/^plan passes: makespan \([0-9]*\),.*/\1/p' <<<"$answer") ;;
    3) first[$example]='' ;;
    *) stop "solve.sh ended with $status: $file" ;;
    esac
done

# process: what the start and the end of a process take.
process() {
    local i begin took
    for ((i = 0; i < 40; i++)); do
        begin=${EPOCHREALTIME/./}
        (exec true)
        took=$((${EPOCHREALTIME/./} - begin))
        least process
    done
    awk 'BEGIN { printf "%.4f", ARGV[1] / 1e6 }' "${best[process]}"
}

# at_horizons: the first table.
at_horizons() {
    local example solver h plan heading key
    printf '%-9s %7s %4s %9s %9s %-14s %10s %10s %6s\n' \
        example horizon plan clauses 'with H' solver without 'with H' ratio
    for example in "${examples[@]}"; do
        h=${first[$example]}
        for h in $(printf '%d\n' ${h:+$((h - 1)) "$h"} 32 | grep -v - | sort -nu); do
            measure "$example" "$h" "$(verdict "$example" "$h")"
            case $(verdict "$example" "$h") in 10) plan=yes ;; *) plan=no ;; esac
            key=$example.$h
            for solver in "${installed[@]}"; do
                heading=$(printf '%-9s %7d %4s %9d %9d %-14s' "$example" "$h" "$plan" \
                    "$(clauses "$key.base")" "$(clauses "$key.with-h")" "$solver")
                row "$heading" "${best[$key.base $solver]}" "${best[$key.with-h $solver]}"
            done
        done
    done
}

# climbs: the second table.
climbs() {
    local example solver h heading from1 from_floor with
    printf '%-9s %5s %5s %-14s %10s %10s %10s %6s\n' \
        example floor first solver 'from 1' 'from floor' 'with H' ratio
    for example in "${examples[@]}"; do
        [ "${first[$example]:-0}" -gt 0 ] || continue
        for ((h = 1; h <= first[$example]; h++)); do
            measure "$example" "$h" "$(verdict "$example" "$h")"
        done
        for solver in "${installed[@]}"; do
            from1=0 from_floor=0 with=0
            for ((h = 1; h <= first[$example]; h++)); do
                from1=$((from1 + ${best[$example.$h.base $solver]}))
                [ "$h" -ge "${floor[$example]}" ] || continue
                from_floor=$((from_floor + ${best[$example.$h.base $solver]}))
                with=$((with + ${best[$example.$h.with-h $solver]}))
            done
            heading=$(printf '%-9s %5d %5d %-14s' "$example" "${floor[$example]}" "${first[$example]}" "$solver")
            row "$heading" "$from1" "$from_floor" "$with"
        done
    done
}

measurements() {
    echo "$now. $(nproc) processors ($model), $memory GiB, load $load before."
    echo "$(versions)."
    echo "Seconds of the solver alone, the best of $runs to $most runs in turn. A process that does nothing takes $(process)."
    echo
    at_horizons
    echo
    echo "The climb to the first plan: from horizon 1 and from the floor with base formulas, from the floor with family H."
    echo
    climbs
}

now=$(date -u '+%-d %B %Y, %H:%M UTC')
model=$(awk -F': ' '/model name/ {print $2; exit}' /proc/cpuinfo)
memory=$(awk '/MemTotal/ {printf "%.0f", $2 / 1048576}' /proc/meminfo)
load=$(cut -d ' ' -f 1 /proc/loadavg)
measurements | tee "$folder/printed"
if [ "$write" = 1 ]; then
    written "$folder/printed" >"$folder/document"
    cat "$folder/document" >"$document"
fi
