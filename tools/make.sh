#!/usr/bin/env bash
# Proves what is named and puts it into target/: tools/make.sh runglaet|formula_printer|comparison|formula_program.
# The two libraries become target/staticlib/libNAME.a, the programs target/bin/NAME. CC names the C compiler, for the second.
set -eu
cd "$(dirname "$0")/.."
for name in "$@"; do
    case $name in
    runglaet)
        (cd crates/runglaet && rt lib)
        mkdir -p target/staticlib
        cp crates/runglaet/out/librunglaet.a target/staticlib/librunglaet.a
        ;;
    formula_printer)
        # The library for C over the library of the same name, and the function that reads for it.
        (cd crates/formula_printer_c && rt lib)
        mkdir -p target/staticlib
        "${CC:-cc}" -std=c11 -O2 -Wall -Wextra -Werror -D_POSIX_C_SOURCE=200809L -c tools/formula_program/program.c -o target/staticlib/program.o
        cp crates/formula_printer_c/out/libformula_printer_c.a target/staticlib/made.a
        ar r target/staticlib/made.a target/staticlib/program.o
        mv target/staticlib/made.a target/staticlib/libformula_printer.a
        ;;
    *)
        # rt builds a program to run it: here on no input.
        (cd "crates/$name" && rt run </dev/null >/dev/null)
        mkdir -p target/bin
        cp "crates/$name/out/$name" "target/bin/$name"
        ;;
    esac
done
