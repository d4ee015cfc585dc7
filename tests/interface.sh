#!/usr/bin/env bash
# The library against the independent program, through the C interface: tests/interface.sh [SEED [COUNT [FIRST]]].
# Before it, from C: document 01's examples, null pointers and layouts (c_check.c), several agents and both movement rules
# (c_agents.c), ceilings on the cost (c_ceiling.c), the tally (c_tally.c), and the stack that the calls use (stack.c,
# stack_ceiling.c).
# RUNGLAET_LIB: the library, if it is not target/staticlib/librunglaet.a.
set -eu
cd "$(dirname "$0")/.."
. tests/interface/library.sh
build interface
for name in c_check c_agents c_ceiling c_tally stack stack_ceiling; do
    gcc -std=c11 -O2 -Wall -Wextra -Wpedantic -Werror -Iinclude -pthread "tests/interface/$name.c" "$RUNGLAET_LIB" \
        -o "tests/interface/target/$name"
    "tests/interface/target/$name"
done
tests/interface/target/release/compare "$@"
