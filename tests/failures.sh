#!/usr/bin/env bash
# The formula program where reading or writing fails: tests/failures.sh. What fails and what is asked of the program
# stands in tests/independent/failures.py. First the program with a status of its own, then the one of the language
# alone, which ends with the error that its main returns.
# RUNGLAET_PROGRAM: a formula program with a status, to be tested alone.
set -eu
cd "$(dirname "$0")/.."
# shellcheck source=tests/common.sh
. tests/common.sh
build independent
text=tests/independent/target/release/formula_text
program=$(status_program)
status=0
python3 tests/independent/failures.py "$text" "$program" || status=1
if [ -z "${RUNGLAET_PROGRAM:-}" ]; then
    program=$(made RUNGLAET_PROGRAM target/bin/formula_program "tools/make.sh formula_program")
    python3 tests/independent/failures.py --no-status "$text" "$program" || status=1
fi
exit "$status"
