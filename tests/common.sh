# shellcheck shell=bash
# Read by the scripts here after they went to the repository's top folder: finds what `rt` makes, builds what cargo
# does.

# older PATH: it is not there, or a source of the crates has changed since.
older() {
    [ ! -f "$1" ] || [ -n "$(find crates \( -name '*.rt' -o -name '*.antt' \) -newer "$1" -print -quit)" ]
}

# made VARIABLE PATH COMMAND: the file that VARIABLE names, else PATH, made by COMMAND where it is missing or older.
made() {
    local given=${!1:-}
    local path=${given:-$PWD/$2}
    # A given path is meant from where the script was started.
    case $path in /*) ;; *) path=$OLDPWD/$path ;; esac
    if [ -z "$given" ] && command -v rt >/dev/null && older "$path"; then
        echo "$2 is missing or older than a source; running: $3 (minutes when nothing is proved yet)" >&2
        if ! $3 >&2; then
            echo "$2 could not be made: '$3' failed" >&2
            exit 1
        fi
        # Where the change was none, rt leaves the file as it is.
        touch -c "$path"
    fi
    if [ ! -f "$path" ]; then
        if [ -n "$given" ]; then
            echo "$1: no such file: $path" >&2
        else
            echo "$2 is missing: run '$3' in $PWD, or set $1 to the file" >&2
        fi
        exit 1
    fi
    realpath "$path"
}

# status_program: the formula program with a status of its own, the one that RUNGLAET_PROGRAM names or the repository's.
status_program() {
    if [ -n "${RUNGLAET_PROGRAM:-}" ]; then
        made RUNGLAET_PROGRAM "" tools/formula_program/build.sh
    else
        tools/formula_program/build.sh
    fi
}

# build PACKAGE: its release programs, in its own target folder.
build() {
    cargo build --quiet --release --offline --manifest-path "tests/$1/Cargo.toml" --target-dir "tests/$1/target"
}
