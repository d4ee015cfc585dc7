#!/usr/bin/env bash
# The library's times beside those of plain Rust: tests/benchmark.sh [--before LIBRARY] [--write]. With --before, also
# beside those of an earlier commit's library, from S-7 on, in the same run, under rule 1; one from before S-10 is called
# without a rule. With --write, what is printed also replaces the table in docs/BENCHMARK.md.
# RUNGLAET_LIB, RUNGLAET_PROGRAM: the library and the formula program, if they are not in target/.
set -euo pipefail
usage() {
    echo "usage: tests/benchmark.sh [--before LIBRARY] [--write]" >&2
    exit 2
}
write=0
before=
while [ $# -gt 0 ]; do
    case $1 in
    --write) write=1 ;;
    --before)
        before=${2:-}
        [ -n "$before" ] || usage
        shift
        ;;
    *) usage ;;
    esac
    shift
done
if [ -n "$before" ]; then
    if [ ! -f "$before" ]; then
        echo "--before: no such file: $before" >&2
        exit 1
    fi
    before=$(realpath "$before")
fi
cd "$(dirname "$0")/.."
. tests/interface/library.sh
program=$(status_program)
build interface
build independent
programs=("$program" tests/interface/target/release/best_text tests/independent/target/release/formula_text)
if [ -n "$before" ]; then
    # The benchmark's program with each library. The functions begin at pages: else what the linker puts before them
    # changes their times by some hundredths.
    folder=$PWD/tests/interface/target/before
    mkdir -p "$folder"
    for side in now before; do
        if [ "$side" = now ]; then library=$RUNGLAET_LIB; else library=$before; fi
        objcopy --set-section-alignment '.text*=4096' "$library" "$folder/$side.a"
        # A library from before S-12 has no calls with a ceiling, one from before S-13 no tally; they are not measured
        # beside it, but linked.
        names=$(nm "$library" 2>/dev/null) || :
        lacking=()
        for call in ceiling_size write_ceiling decode_ceiling encode_ceiling read_ceiling tally_plan; do
            grep -q " T runglaet_$call\$" <<<"$names" || lacking+=("$call")
        done
        if [ ${#lacking[@]} -gt 0 ]; then
            printf 'void runglaet_%s(void) { __builtin_trap(); }\n' "${lacking[@]}" |
                cc -x c -c -o "$folder/lacking.o" -
            ar q "$folder/$side.a" "$folder/lacking.o"
        fi
        RUNGLAET_LIB=$folder/$side.a cargo build --quiet --release --offline --bin benchmark \
            --manifest-path tests/interface/Cargo.toml --target-dir "$folder"
        cp "$folder/release/benchmark" "$folder/$side"
        programs+=("$folder/$side")
    done
fi
now=$(LC_ALL=C date -u '+%-d %B %Y, %H:%M UTC')
model=$(awk -F': ' '/model name/ {print $2; exit}' /proc/cpuinfo)
memory=$(awk '/MemTotal/ {printf "%.0f", $2 / 1048576}' /proc/meminfo)
load=$(cut -d' ' -f1 /proc/loadavg)
printed=$(mktemp)
trap 'rm -f "$printed" "$printed.md"' EXIT
{
    echo "$now. $(nproc) processors ($model), $memory GiB, load $load before. $(rustc --version)."
    tests/interface/target/release/benchmark "${programs[@]}"
    if [ -n "$before" ] && cmp -s "$before" "$RUNGLAET_LIB"; then
        echo "The two libraries are the same, byte for byte."
    fi
} | tee "$printed"
if [ "$write" = 1 ]; then
    awk -v printed="$printed" '
        /^<!-- table ends/ { inside = 0 }
        !inside
        /^<!-- table begins/ {
            inside = found = 1
            print "```"
            while ((getline line <printed) > 0) print line
            print "```"
        }
        END { exit inside || !found }' docs/BENCHMARK.md >"$printed.md"
    cat "$printed.md" >docs/BENCHMARK.md
fi
