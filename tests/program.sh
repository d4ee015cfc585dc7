#!/usr/bin/env bash
# The proved formula program against the independent one, byte for byte: tests/program.sh [SEED [COUNT]].
# COUNT random inputs, after the stored ones and those around the input's limit. First the program with a status of its
# own, which must be 0 for a formula and 1 for a refusal, then the one of the language alone, which ends with 0.
# RUNGLAET_PROGRAM: a formula program with a status, to be compared alone.
set -eu
cd "$(dirname "$0")/.."
# shellcheck source=tests/common.sh
. tests/common.sh
build independent
release=tests/independent/target/release
program=$(status_program)
"$release/program_cases" compare "$release/formula_text" "$program" "$@"
if [ -z "${RUNGLAET_PROGRAM:-}" ]; then
    program=$(made RUNGLAET_PROGRAM target/bin/formula_program "tools/make.sh formula_program")
    "$release/program_cases" compare --no-status "$release/formula_text" "$program" "$@"
fi
