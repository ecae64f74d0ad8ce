# shellcheck shell=sh disable=SC2154
# Read in by bin/embed and bin/bench, which set `root` to the repository and `room` to a temporary folder.
library=$root/crates/embed/out/libembed.a

# Whether the file $1 is missing or older than a file of the others named, or in them.
stale() {
    made=$1
    shift
    [ ! -f "$made" ] || [ -n "$(find "$@" -type f -newer "$made")" ]
}

# Runs a command in the folder $1, and prints what it said only if it failed.
quietly() {
    (cd "$1" && shift && "$@") >"$room/said" 2>&1 || { cat "$room/said" >&2; exit 1; }
}

# Builds the library, where it is missing or older than the sources of a crate; $1 is who says so.
build_library() {
    if stale "$library" "$root"/crates/*/src; then
        echo "$1: building the library, which takes a while the first time" >&2
        quietly "$root/crates/embed" rt lib
    fi
}
