#!/usr/bin/env bash
# least_cost.sh [--rule R] DESCRIPTION HORIZON: the least cost of a plan of this makespan, and such a plan.
#
# A SAT solver is asked by way of solve.sh: first for a plan that costs at most 128, the highest ceiling, then for cheaper
# ones. Each plan halves what is left below its cost, and so does each ceiling without a plan. A line a ceiling tells the
# outcome. That a plan passes and what it costs is the library's word, and the cost is held against the ceiling here once
# more; that there is none is the solver's.
# Where no plan costs at most 128, and one could cost more, it is asked without a ceiling, to tell dear plans from none.
#
# SOLVER, LIMIT, RUNGLAET_LIB, RUNGLAET_PROGRAM: as in solve.sh; the last is needed only for that last question.
# No files are kept.
#
# Exit status: 0 the least cost is found; 3 no plan of this makespan, or none that costs at most 128; 1 refused by the
# library; 2 anything else, a signal too.
set -u
highest=128
root=$(realpath "$(dirname "$(realpath "$0")")/..") || exit 2

stop() {
    printf 'least_cost.sh: %s\n' "$*" >&2
    exit 2
}

say() {
    printf '%s\n' "$*" 2>/dev/null || stop "standard output takes no more, so the least cost is not shown"
}

# Another signal also ends the run of solve.sh, which ends its solver.
trap '' PIPE XFSZ
exec 4>&2
# shellcheck disable=SC2317  # A trap calls it.
interrupted() {
    # shellcheck disable=SC2046  # One job at most.
    kill $(jobs -pr) 2>/dev/null
    # While the script waits, the shell's words go nowhere; this line does not.
    exec 2>&4
    stop "the search for the least cost was ended by a signal: $1"
}
for signal in HUP INT TERM; do
    # shellcheck disable=SC2064  # The name is meant as it is now.
    trap "interrupted $signal" "$signal"
done
{ true 9>&1; } 2>/dev/null || stop "standard output is closed, so no least cost could be shown"

given=$# words=() rule=()
while [ $# -gt 0 ]; do
    if [ "$1" = --rule ] && [ $# -ge 2 ] && [ ${#rule[@]} -eq 0 ]; then
        rule=(--rule "$2")
        shift
    else
        words+=("$1")
    fi
    shift
done
set -- "${words[@]}"
if [ $# -ne 2 ] || [[ $1 == --* ]] || [[ $2 == --* ]]; then
    stop "a description and a horizon are needed, and --rule R once; words given: $given"
fi
description=$1 horizon=$2 under=
[ "${rule[1]:-1}" = 1 ] || under=" under rule ${rule[1]}"

folder=$(mktemp -d 2>/dev/null) || stop "no temporary folder can be made; set TMPDIR to a folder for them: ${TMPDIR:-/tmp}"
trap 'rm -rf "$folder"' EXIT
# A description from a pipe can be read only once.
if [ -p "$description" ]; then
    name=$folder/$(basename -- "$description")
    cat -- "$description" >"$name" || exit 2
    description=$name
fi

# ask WORD...: solve.sh with these words; sets `status`, `first`, its first line, and `answer`, what it said of plans. A
# note is said once in a run. Whatever is neither a plan nor none ends this run as it ended that one.
notes=$'\n'
ask() {
    local note
    status=0
    KEEP=$folder/run "$root/examples/solve.sh" "${rule[@]}" "$@" "$description" "$horizon" \
        >"$folder/said" 2>"$folder/errors" 4>&- &
    { wait "$!"; } 2>/dev/null || status=$?
    while IFS= read -r note; do
        [[ $notes == *$'\n'"$note"$'\n'* ]] || printf '%s\n' "$note" >&2
        notes+=$note$'\n'
    done <"$folder/errors"
    if [ "$status" -ne 0 ] && [ "$status" -ne 3 ]; then
        cat "$folder/said" 2>/dev/null
        exit "$status"
    fi
    first=$(head -n 1 "$folder/said")
    answer=$(tail -n +2 "$folder/said")
}

# found: sets `cost`, from the plan check's line, which comes last, and says it.
found() {
    local last=${answer##*$'\n'}
    if ! [[ $last =~ ^plan\ passes.*:\ makespan\ $horizon,\ cost\ (0|[1-9][0-9]{0,2})(,|$) ]]; then
        stop "what solve.sh said of a plan is not understood: $last"
    fi
    cost=${BASH_REMATCH[1]}
    say "$first: a plan of cost $cost"
}

# most: the highest cost that a plan could have, every agent busy at every time. Byte 1 of the instance is k.
most() {
    echo $((horizon * $(od -A n -t u1 -j 1 -N 1 "$folder/run/instance.bin")))
}

# No plan costs at most `low`; one costs `high`, and `plan` shows it.
low=-1 high='' plan='' ceiling=$highest
while [ -z "$high" ] || [ $((low + 1)) -lt "$high" ]; do
    ask --ceiling "$ceiling"
    if [ "$status" -eq 3 ]; then
        say "$first: no plan"
        low=$ceiling
        [ -n "$high" ] || break
    else
        found
        [ "$cost" -le "$ceiling" ] || stop "the plan that was decoded costs more than its ceiling: cost $cost, ceiling $ceiling"
        high=$cost plan=$answer
    fi
    ceiling=$(((low + high) / 2))
done

if [ -z "$high" ]; then
    if [ "$(most)" -gt "$highest" ]; then
        ask
        if [ "$status" -eq 0 ]; then
            found
            say "$answer"
            say "no plan of makespan $horizon$under costs at most $highest, the highest ceiling; this one costs $cost"
            exit 3
        fi
        say "$first: no plan"
    fi
    say "no plan of makespan $horizon$under"
    exit 3
fi
below=
[ "$high" -eq 0 ] || below="; ${first##*, } finds none of cost $((high - 1)) or less"
say "$plan"
say "least cost of makespan $horizon$under: $high$below"
