#!/usr/bin/env bash
# solve.sh [--rule R] [--ceiling C] DESCRIPTION [HORIZON]: from a description to a checked plan, by way of a SAT solver.
#
# The movement rule R is 1 where none is given: an agent enters only a vertex on which none stood as the step began. Under
# rule 2 it may follow another in the same step, and every line says so.
# Without a horizon it begins at the floor, below which no plan passes, and climbs to 32 until there is a plan: a line a
# horizon, which tells its outcome when the solver has ended. The solver gets the formula with family H, from the tool.
# With a horizon it asks for a plan of that makespan alone, by the formula without family H: that of the formula program,
# which keeps to rule 1, or under rule 2 that of the tool. What comes back is read, decoded and checked in the same way.
# With a ceiling C, from 0 to 128, only plans that cost at most C count, and every line says so. The formula is then always
# the tool's, without family H, which has no ceiling.
#
# SOLVER            the solver to use; otherwise the first one installed, in the order of solver_commands.sh
# LIMIT             the seconds that the solver may take at each horizon; otherwise as long as it needs
# RUNGLAET_LIB      the static library; otherwise the repository's own
# RUNGLAET_PROGRAM  the formula program; otherwise the repository's own; needed only with a horizon under rule 1, without
#                   a ceiling
# KEEP              a folder for instance.bin, formula.cnf and output.txt, the last two of the last horizon, and where the
#                   formula program is asked also input.bin; otherwise they are removed
#
# Exit status: 0 a plan that passes; 1 refused by the library; 3 no plan of this makespan, or without a horizon of any up
# to 32; 2 anything else, a signal too.
#
# A refusal is a line on standard output, any other failure one on standard error. The first forty characters of either
# tell its kind; details come behind, and a path comes last. A line "note: ..." on standard error says that what the
# solver printed was brought into the form that the library reads: minisat's result file, and cryptominisat's output
# where a v line ends with a space. No note is said twice in a run.
set -u
highest=32
root=$(realpath "$(dirname "$(realpath "$0")")/..") || exit 2
# shellcheck source=examples/solver_commands.sh
. "$root/examples/solver_commands.sh" || exit 2

# Whether a line on standard output has begun and lacks its outcome.
begun=no

stop() {
    [ "$begun" = no ] || printf 'no verdict\n' 2>/dev/null
    printf 'solve.sh: %s\n' "$*" >&2
    exit 2
}

put() {
    printf '%s' "$1" 2>/dev/null || stop "standard output takes no more, so the result is not shown"
}

say() {
    put "$*"$'\n'
}

# begin WORDS: the beginning of a line. end OUTCOME: its end, where one has begun.
begin() {
    put "$*: "
    begun=yes
}
end() {
    [ "$begun" = yes ] || return 0
    begun=no
    say "$*"
}

# quietly COMMAND...: without the shell's own words about a command that was killed.
quietly() {
    { "$@" 2>&3 3>&-; } 3>&2 2>/dev/null
}

# A reader of standard output that has gone is a write that fails, and so is a file that may not grow. Another signal also
# ends the solver, once it runs.
trap '' PIPE XFSZ
exec 4>&2
# shellcheck disable=SC2317  # A trap calls it.
interrupted() {
    # The job as the shell has it: a signal may come before a variable could take its number. There is one at most.
    # shellcheck disable=SC2046
    kill $(jobs -pr) 2>/dev/null
    # While the script waits, the shell's words go nowhere; this line does not.
    exec 2>&4
    stop "this run was ended by a signal before its result: $1"
}
for signal in HUP INT TERM; do
    # shellcheck disable=SC2064  # The name is meant as it is now.
    trap "interrupted $signal" "$signal"
done
{ true 9>&1; } 2>/dev/null || stop "standard output is closed, so no result could be shown"

# What was given. `rule` and `ceiling` have the tool's words for them, `under`, `within` and `cost` what is said of them.
given=$# words=() rule=() ceiling=()
while [ $# -gt 0 ]; do
    if [ "$1" = --rule ] && [ $# -ge 2 ] && [ ${#rule[@]} -eq 0 ]; then
        rule=(--rule "$2")
        shift
    elif [ "$1" = --ceiling ] && [ $# -ge 2 ] && [ ${#ceiling[@]} -eq 0 ]; then
        ceiling=(--ceiling "$2")
        shift
    else
        words+=("$1")
    fi
    shift
done
set -- "${words[@]}"
if [ $# -lt 1 ] || [ $# -gt 2 ] || [[ $1 =~ ^--(rule|ceiling)$ ]] || [[ ${2:-} =~ ^--(rule|ceiling)$ ]]; then
    stop "a description is needed, and a horizon may follow, and --rule R and --ceiling C once; words given: $given"
fi
description=$1
under='' within='' cost=''
[ "${rule[1]:-1}" = 1 ] || under=" under rule ${rule[1]}"
[ ${#ceiling[@]} -eq 0 ] || within=", cost at most ${ceiling[1]}" cost=" and cost at most ${ceiling[1]}"
options=("${rule[@]}" "${ceiling[@]}")
# by_program: the formula program is asked for the formula.
by_program() { [ $# -eq 2 ] && [ -z "$under$within" ]; }
limit=()
if [ -n "${LIMIT:-}" ]; then
    [[ $LIMIT =~ ^[1-9][0-9]{0,8}$ ]] || stop "LIMIT must be a whole number of seconds, 1 or more: $LIMIT"
    limit=(timeout --foreground -k 10 "$LIMIT")
fi
if [ -n "${SOLVER:-}" ]; then
    [[ $SOLVER =~ ^(${solvers// /|})$ ]] || stop "SOLVER must be one of the solvers known here ($solvers): $SOLVER"
    command -v "$SOLVER" >/dev/null || stop "the solver asked for is not installed: $SOLVER"
else
    for SOLVER in $solvers none; do
        command -v "$SOLVER" >/dev/null && break
    done
    [ "$SOLVER" != none ] || stop "no SAT solver is installed; apt-get install minisat brings one; looked for: $solvers"
fi

# What is needed. The scripts that build it say themselves what went wrong.
shuttles=$("$root/tools/shuttles/build.sh") || exit 2
if by_program "$@"; then
    if [ -z "${RUNGLAET_PROGRAM:-}" ]; then
        RUNGLAET_PROGRAM=$("$root/tools/formula_program/build.sh") || exit 2
    fi
    if [ ! -f "$RUNGLAET_PROGRAM" ] || [ ! -x "$RUNGLAET_PROGRAM" ]; then
        stop "there is no program that can be run at the path given: $RUNGLAET_PROGRAM"
    fi
    RUNGLAET_PROGRAM=$(realpath "$RUNGLAET_PROGRAM")
fi

# Where the files go.
if [ -n "${KEEP:-}" ]; then
    mkdir -p -- "$KEEP" 2>/dev/null || stop "the folder that KEEP names cannot be made: $KEEP"
    folder=$(realpath -- "$KEEP")
else
    folder=$(mktemp -d 2>/dev/null) || stop "no temporary folder can be made; set TMPDIR to a folder for them: ${TMPDIR:-/tmp}"
    trap 'rm -rf "$folder"' EXIT
fi
instance=$folder/instance.bin
input=$folder/input.bin
formula=$folder/formula.cnf
output=$folder/output.txt
files=("$instance" "$formula" "$output")
! by_program "$@" || files+=("$input")
for file in "${files[@]}"; do
    { true >"$file"; } 2>/dev/null || stop "the files of this run cannot be written into their folder: $folder"
done

# room: there is still room for files of this run; where there is none, what was written last may be cut short.
room() {
    head -c 8192 /dev/zero >"$folder/room" 2>/dev/null || stop "there is no room left for the files of this run; free some or set TMPDIR: $folder"
    rm -f "$folder/room"
}

# judged STATUS ANSWER: goes on where the tool has done its work. It said itself what went wrong, unless it was killed.
judged() {
    case "$1 $2" in
    "0 "*) ;;
    "1 refused "*)
        say "$2"
        exit 1
        ;;
    "2 "?*)
        printf '%s\n' "$2" >&2
        exit 2
        ;;
    *) no_answer "$1" ;;
    esac
}

no_answer() {
    stop "the tool ended without an answer and without a reason: status $1: $shuttles"
}

# write FILE WORD...: what the tool prints for these words, into the file.
write() {
    local status=0 answer
    answer=$(quietly "$shuttles" "${@:2}" 2>&1 >"$1") || status=$?
    [ "$status" -eq 1 ] || room
    judged "$status" "$answer"
}

# known_options: goes on where the rule and the ceiling are ones. The floor does not ask for them.
known_options() {
    local status=0 answer
    answer=$(quietly "$shuttles" size "$description" 0 "${options[@]}" 2>&1) || status=$?
    judged "$status" "$answer"
}

# find_floor: sets `floor`.
find_floor() {
    local status=0 answer
    answer=$(quietly "$shuttles" floor "$description" 2>&1) || status=$?
    judged "$status" "$answer"
    [[ $answer =~ ^makespan\ at\ least\ ([0-9]{1,9})$ ]] || no_answer "$status"
    floor=${BASH_REMATCH[1]}
}

# base_formula: without family H, from the program. It refuses nothing that the library accepts, but it is asked all the same.
base_formula() {
    local status=0 first='' second='' number='' place=''
    write "$input" input "$description" "$horizon" "${rule[@]}"
    quietly "$RUNGLAET_PROGRAM" <"$input" >"$formula" || status=$?
    room
    [ "$status" -le 1 ] || stop "the formula program failed, so there is no formula: status $status: $RUNGLAET_PROGRAM"
    read -r first second number place <"$formula"
    case "$status $first $second" in
    "0 p cnf") ;;
    [01]" c refused")
        say "$("$shuttles" refusal "$number" "$place" "$description" "$horizon")"
        exit 1
        ;;
    *) stop "the formula program gave neither a formula nor a refusal: $RUNGLAET_PROGRAM" ;;
    esac
}

# tool_formula WORD: from the tool: `formula`, or `pruned` with family H.
tool_formula() {
    write "$formula" "$1" "$description" "$horizon" "${options[@]}"
}

# whole CLAUSES LINES: some solvers take a formula that was cut short. It is whole when every clause of the header has a
# line that ends in 0.
whole() {
    [[ $1 =~ ^[1-9][0-9]{0,8}$ ]] &&
        [ "$2" -eq $(($1 + 1)) ] &&
        [ "$(tail -n +2 "$formula" | LC_ALL=C grep -c ' 0$')" -eq "$1" ] &&
        [ "$(tail -c 1 "$formula" | wc -l)" -eq 1 ]
}

# measure MAKER: sets `sizes`, from the header of a formula that is whole.
measure() {
    local variables='' clauses='' lines
    read -r _ _ variables clauses <"$formula"
    lines=$(wc -l <"$formula")
    whole "$clauses" "$lines" ||
        stop "the formula is not whole, so no solver was asked: $clauses clauses in its header, $lines lines in all: $1"
    sizes="$variables variables, $clauses clauses"
}

# run_solver: sets `solved`, its exit status. It runs beside this script, which can so be ended.
run_solver() {
    local command printed
    solver_command "$SOLVER" "$formula" "$output"
    # Nothing that an earlier run printed may be read as this one's.
    true >"$output"
    solved=0
    SECONDS=0
    (exec "${limit[@]}" "${command[@]}" >"$printed" 4>&-) &
    { wait "$!"; } 2>/dev/null || solved=$?
    room
    [ "$solved" -eq 10 ] || [ "$solved" -eq 20 ] || no_verdict
}

# no_verdict: why the solver ended without a verdict, and what to do.
no_verdict() {
    local signal='' another="try another SOLVER: $SOLVER"
    [ "$solved" -le 128 ] || signal=$(kill -l $((solved - 128)) 2>/dev/null)
    if [[ $solved == 124 || $signal == KILL ]] && [ -n "${LIMIT:-}" ] && [ "$SECONDS" -ge "$LIMIT" ]; then
        stop "the solver ran out of time before its verdict; raise LIMIT, which is $LIMIT, or $another"
    elif [ "$signal" = XCPU ]; then
        stop "the solver ran out of time before its verdict; raise the shell's limit, ulimit -t, or $another"
    elif [ -n "$signal" ]; then
        stop "the solver was killed before its verdict, by signal $signal; see to memory and limits (ulimit -a) or $another"
    elif [ "$solved" -eq 0 ] || grep -qx -e INDET -e 's UNKNOWN' -e 's INDETERMINATE' "$output"; then
        stop "the solver gave up before its verdict, so there may be a plan or none; give it more memory or $another"
    elif [ "$solved" -eq 126 ] || [ "$solved" -eq 127 ]; then
        stop "the solver could not be started; install it again or $another"
    fi
    stop "the solver ended with a status that is no verdict, $solved; $another"
}

# read_back: the plan that the solver's valuation names, decoded and checked; sets `answer` and its `status`: 0 a plan,
# 1 a refusal, 3 no plan. What the solver printed is the library's to accept or to refuse, whichever verdict its exit
# status gives.
notes=$'\n'
read_back() {
    local note='' outcome
    status=0
    answer=$(quietly "$shuttles" decode "$description" "$horizon" "${options[@]}" 2>&1 <"$output") || status=$?
    # There is one note at most, and it comes first.
    if [[ $answer == "note: "* ]]; then
        note=${answer%%$'\n'*}
        answer=${answer#"$note"}
        answer=${answer#$'\n'}
    fi
    case "$solved $status $answer" in
    "10 0 "?*) outcome="a plan" ;;
    "20 3 "?*) outcome="no plan" ;;
    [12]"0 1 refused "*) outcome="its output is refused" ;;
    *) outcome="no verdict" ;;
    esac
    end "$outcome"
    if [[ -n $note && $notes != *$'\n'"$note"$'\n'* ]]; then
        printf '%s\n' "$note" >&2
        notes+=$note$'\n'
    fi
    [ "$outcome" = "no verdict" ] || return 0
    case $status in
    0 | 3) stop "the solver's exit status and its output do not agree, $solved and \"${answer##*$'\n'}\": $SOLVER" ;;
    *) judged "$status" "$answer" ;;
    esac
}

# A description from a pipe can be read only once.
if [ -p "$description" ]; then
    cat -- "$description" >"$folder/description.txt" || exit 2
    description=$folder/description.txt
fi
name=$(basename -- "$description")
room
write "$instance" instance "$description"

# One horizon.
if [ $# -eq 2 ]; then
    horizon=$2
    if by_program "$@"; then
        base_formula
        measure "$RUNGLAET_PROGRAM"
    else
        tool_formula formula
        measure "$shuttles"
    fi
    say "$name$under$within, horizon $horizon: $sizes, $SOLVER"
    run_solver
    read_back
    say "$answer"
    exit "$status"
fi

# From the floor on.
[ ${#options[@]} -eq 0 ] || known_options
find_floor
if [ "$floor" -gt "$highest" ]; then
    say "no plan of makespan 0 to $highest: the floor is $floor, the greatest distance from a start to its goal"
    exit 3
fi
wanted=pruned
[ ${#ceiling[@]} -eq 0 ] || wanted=formula
for ((horizon = floor; horizon <= highest; horizon++)); do
    tool_formula "$wanted"
    measure "$shuttles"
    begin "$name$under$within, horizon $horizon: $sizes, $SOLVER"
    run_solver
    read_back
    [ "$status" -ne 3 ] || continue
    say "$answer"
    exit "$status"
done
say "no plan of makespan 0 to $highest$cost$under"
exit 3
