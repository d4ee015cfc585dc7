# shellcheck shell=bash
# The SAT solvers known here, and how each is asked. Read by solve.sh, tests/solvers.sh and tests/pruning.sh.
# shellcheck disable=SC2034  # Those use what is set here.
solvers="cadical kissat minisat picosat cryptominisat5"

# solver_command SOLVER FORMULA OUTPUT: sets `command`, and in `printed` the file for its standard output, so that OUTPUT
# gets its result. Its exit status is 10 for satisfiable and 20 for unsatisfiable.
solver_command() {
    printed=$3
    case $1 in
    cadical | kissat) command=("$1" -q "$2") ;;
    minisat) command=(minisat -verb=0 "$2" "$3") printed=/dev/null ;;
    picosat) command=(picosat "$2") ;;
    cryptominisat5) command=(cryptominisat5 --verb 0 "$2") ;;
    esac
}
