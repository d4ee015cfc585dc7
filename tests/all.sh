#!/usr/bin/env bash
# All tests outside the gate, a line each, and at the end how many passed: tests/all.sh [--install].
#
# It builds what is missing. It installs nothing; --install lets tests/solvers.sh install Debian's solvers (as root).
# Not in it: `rt ci`, the gate; tests/benchmark.sh, which measures; tests/remake.sh, which writes files of the gate.
# RUNGLAET_LIB, RUNGLAET_PROGRAM, RUNGLAET_COMPARISON: as in the scripts.
set -u
install=no
case "$#,${1:-}" in
0,) ;;
1,--install) install=yes ;;
*)
    echo "usage: tests/all.sh [--install]" >&2
    exit 2
    ;;
esac
cd "$(dirname "$0")/.." || exit 2
# shellcheck source=tests/common.sh
. tests/common.sh
logs=$PWD/target/tests
mkdir -p "$logs" || exit 2
passed=0 failed=0 skipped=0

# step NAME COMMAND...: runs it, and tells its result, its time and its last line. Status 77 is a test that was skipped.
step() {
    local name=$1 log=$logs/${1//[\/ ]/_}.log status=0 begin=$SECONDS result count
    shift
    printf '%-26s' "$name"
    "$@" </dev/null >"$log" 2>&1 || status=$?
    count=$(tail -n 1 "$log")
    case $status in
    0) result=ok passed=$((passed + 1)) ;;
    77) result=skipped skipped=$((skipped + 1)) ;;
    *) result=FAILED failed=$((failed + 1)) count="status $status; the end of $log:" ;;
    esac
    printf '%-8s%4d s  %s\n' "$result" $((SECONDS - begin)) "$count"
    [ "$result" != FAILED ] || tail -n 20 "$log" | sed 's/^/    /'
}

# cargo_test FOLDER TARGET: the tests of a package; at least one must have run.
cargo_test() {
    cargo test --release --offline --manifest-path "$1/Cargo.toml" --target-dir "$2" >"$logs/cargo" 2>&1
    local status=$?
    cat "$logs/cargo"
    awk '/^test result:/ { passed += $4; failed += $6 }
        END { print passed + 0 " tests passed, " failed + 0 " failed"; exit passed == 0 }' "$logs/cargo" || return 1
    return "$status"
}

# What several tests need, so that its time is not theirs; the paths are then known wherever a test goes. Where rt is at
# hand, all is proved first, on all processors.
built() {
    if command -v rt >/dev/null; then
        rt all check || return 1
    fi
    RUNGLAET_LIB=$(made RUNGLAET_LIB target/staticlib/librunglaet.a "tools/make.sh runglaet") &&
        RUNGLAET_COMPARISON=$(made RUNGLAET_COMPARISON target/bin/comparison "tools/make.sh comparison") &&
        program=$(status_program) && tools/shuttles/build.sh && build independent && build interface || return 1
    if [ -n "${RUNGLAET_PROGRAM:-}" ]; then
        RUNGLAET_PROGRAM=$program
    else
        made RUNGLAET_PROGRAM target/bin/formula_program "tools/make.sh formula_program" || return 1
    fi
    export RUNGLAET_LIB RUNGLAET_COMPARISON
    echo "all is built"
}

echo "what each test prints: $logs; what is not built yet is built first, some minutes from nothing"
step 'build' built
if [ "$failed" -eq 0 ]; then
    passed=0
    step 'tools/shuttles' cargo_test tools/shuttles target/shuttles
    step 'tests/independent' cargo_test tests/independent tests/independent/target
    step 'tests/interface.sh' tests/interface.sh
    step 'tests/program.sh' tests/program.sh
    step 'tests/compare.sh' tests/compare.sh
    step 'tests/failures.sh' tests/failures.sh
    step 'tests/words.sh' tests/words.sh
    INSTALL=$install step 'tests/solvers.sh' tests/solvers.sh
fi
count="$passed passed, $failed failed"
[ "$skipped" -eq 0 ] || count="$count, $skipped skipped"
echo "$count"
[ "$failed" -eq 0 ]
