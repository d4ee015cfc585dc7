# shellcheck shell=bash
# Read by the scripts that build the tool and the formula program, where `root` is the repository's top folder and
# target/ is there.

# One build at a time.
if { exec 9>>"${root:?}/target/building"; } 2>/dev/null; then
    flock 9 2>/dev/null
fi

# older PATH: it is not there, or a source of the crates has changed since and rt can make it anew.
older() {
    [ -e "$1" ] || return 0
    [ -n "$(find "$root/crates" \( -name '*.rt' -o -name '*.antt' \) -newer "$1" -print -quit 2>/dev/null)" ] || return 1
    command -v rt >/dev/null && return 0
    echo "note: a source has changed since, and rt is not on the path to make this anew: $1" >&2
    return 1
}
