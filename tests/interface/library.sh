# shellcheck shell=bash
# Read by tests/interface.sh and tests/benchmark.sh after they went to the repository's top folder: finds the library.
# shellcheck source=tests/common.sh
. tests/common.sh

# Environment for the builds.
RUNGLAET_LIB=$(made RUNGLAET_LIB target/staticlib/librunglaet.a "tools/make.sh runglaet")
export RUNGLAET_LIB
