#!/usr/bin/env bash
# Builds the formula program, with an exit status, over the proved library and prints its path. A program that was built
# from this source and this library is taken as it is.
# CC names the C compiler, cc if it is not set.
#
# Exit status: 0 the program is there; 2 it is not, and a line on standard error says why.
set -u

stop() {
    printf 'formula_program/build.sh: %s\n' "$*" >&2
    exit 2
}

here=$(dirname "$(realpath "$0")") || exit 2
root=$(realpath "$here/../..") || exit 2
library=$root/target/staticlib/libformula_printer.a
program=$root/target/formula_program/formula_program
stamp=$root/target/formula_program/built-from
mkdir -p "$root/target/formula_program" 2>/dev/null ||
    stop "no folder can be made for what is built: $root/target/formula_program"

# shellcheck source=tools/common.sh
. "$root/tools/common.sh"

cc=${CC:-cc}
no_compiler="no C compiler of this name, and the program is yet to be linked: $cc"
if older "$library" || [ "$here/program.c" -nt "$library" ]; then
    log=$root/target/formula_printer.log
    command -v rt >/dev/null || stop "rt is missing on the path, and the program is yet to be proved: $library"
    command -v "$cc" >/dev/null || stop "$no_compiler"
    echo "proving the formula program, which takes some minutes; log: $log" >&2
    "$root/tools/make.sh" formula_printer >"$log" 2>&1 ||
        stop "proving it failed, see what rt said: $log"
fi

# A sum over the source, the library and the program.
sum() { cat "$here/main.c" "$here/program.c" "$library" "$program" 2>/dev/null | cksum; }

if [ ! -x "$program" ] || [ "$(sum)" != "$(cat "$stamp" 2>/dev/null)" ]; then
    log=$root/target/formula_program.log
    command -v "$cc" >/dev/null || stop "$no_compiler"
    command -v rt >/dev/null || stop "linking needs rt, which is not on the path: $program"
    # The toolchain's C code behind the library that reads and writes.
    behind=$(dirname "$(rt doc)")/c/liblibc_c.a
    "$cc" -std=c11 -O2 -Wall -Wextra -Werror "$here/main.c" "$library" "$behind" -o "$program" >"$log" 2>&1 ||
        stop "linking it failed, see what the C compiler said: $log"
    sum >"$stamp"
fi
echo "$program" || exit 2
