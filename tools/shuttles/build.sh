#!/usr/bin/env bash
# Builds `shuttles` over the proved library and prints the path of the tool. A tool that was built from these sources
# and this library is taken as it is, without cargo.
# RUNGLAET_LIB names another library than the repository's own.
#
# Exit status: 0 the tool is there; 2 it is not, and a line on standard error says why.
set -u

stop() {
    printf 'shuttles/build.sh: %s\n' "$*" >&2
    exit 2
}

root=$(realpath "$(dirname "$(realpath "$0")")/../..") || exit 2
tool=$root/target/shuttles/release/shuttles
stamp=$root/target/shuttles/built-from
no_cargo="cargo is not on the path, and the tool is yet to be built: $tool"
mkdir -p "$root/target/shuttles" 2>/dev/null || stop "the folder for what is built cannot be made: $root/target/shuttles"

# shellcheck source=tools/common.sh
. "$root/tools/common.sh"

if [ -z "${RUNGLAET_LIB:-}" ]; then
    RUNGLAET_LIB=$root/target/staticlib/librunglaet.a
    if older "$RUNGLAET_LIB"; then
        log=$root/target/staticlib.log
        command -v rt >/dev/null || stop "rt is not on the path, and the library is yet to be proved: $RUNGLAET_LIB"
        command -v cargo >/dev/null || stop "$no_cargo"
        echo "proving the library, which takes some minutes; log: $log" >&2
        "$root/tools/make.sh" runglaet >"$log" 2>&1 ||
            stop "the library could not be proved, see what rt said: $log"
    fi
fi
if [ ! -f "$RUNGLAET_LIB" ] || [ ! -r "$RUNGLAET_LIB" ]; then
    stop "there is no library that can be read at the path given: $RUNGLAET_LIB"
fi
head -c 7 "$RUNGLAET_LIB" | grep -aqx '!<arch>' || stop "the file given as library is no static library: $RUNGLAET_LIB"
RUNGLAET_LIB=$(realpath "$RUNGLAET_LIB")
export RUNGLAET_LIB

# A sum over the sources, the library and the tool.
sum() {
    {
        find "$root/tools/shuttles" "$root/tools/binding" -name target -prune -o -type f -print0 | sort -z | xargs -0 cat
        cat "$RUNGLAET_LIB" "$tool"
    } 2>/dev/null | cksum
}

if [ ! -x "$tool" ] || [ "$(sum)" != "$(cat "$stamp" 2>/dev/null)" ]; then
    log=$root/target/shuttles.log
    command -v cargo >/dev/null || stop "$no_cargo"
    cargo build --quiet --release --offline --manifest-path "$root/tools/shuttles/Cargo.toml" \
        --target-dir "$root/target/shuttles" >"$log" 2>&1 || stop "the tool could not be built, see what cargo said: $log"
    sum >"$stamp"
fi
echo "$tool" || exit 2
