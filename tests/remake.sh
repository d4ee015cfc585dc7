#!/usr/bin/env bash
# Remakes the stored input and output of the test programs: tests/remake.sh.
# All comes from the independent program, but for instance_runs, whose answers tests/cases/instance.py has by hand.
set -euo pipefail
cd "$(dirname "$0")/.."
# shellcheck source=tests/common.sh
. tests/common.sh
build independent
release=tests/independent/target/release
"$release/cases" gate crates/comparison | awk '{ all += $3 } END { print "comparison: " all " answers" }'
"$release/program_cases" stored "$release/formula_text" crates
python3 tests/cases/instance.py
wc -c crates/{comparison,formula_program,program_runs,instance_runs}/std{in,out}
