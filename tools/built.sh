# shellcheck shell=sh disable=SC2154 # (root is set by the reader)
# What the programs wst, test_rows, test_devices, test_loops and test_refusals were built from, for the launchers and the
# test command, which read this file with the variable `root` set to the top of the repository. The stamp of a program
# says from which sources it was built: a checksum of their paths and contents, and one of the program. Times are not
# looked at.

# The file of a program.
program_of() {
    echo "$root/crates/$1/out/$1"
}

# The checksum of the sources of all crates. Fails where it can't be taken.
sources_sum() {
    sums=$(
        cd "$root" && find crates.txt HANDLES crates \( -name out -o -name must-fail \) -prune \
            -o -type f -exec sha256sum {} +
    ) || return 1
    echo "$sums" | LC_ALL=C sort -k 2 | sha256sum | cut -d ' ' -f 1
}

# What the stamp of a program says, built from sources with this checksum.
stamp_for() {
    echo "$2 $(sha256sum <"$(program_of "$1")" | cut -d ' ' -f 1)"
}

# Whether a program was built from the sources as they stand.
is_built() {
    [ -x "$(program_of "$1")" ] && [ -f "$root/out/$1.built" ] || return 1
    sources=$(sources_sum) && [ "$(cat "$root/out/$1.built")" = "$(stamp_for "$1" "$sources")" ]
}

# Notes that a program was built from sources with this checksum. Fails where the sources are no longer those.
mark_built() {
    stamp=$root/out/$1.built
    [ -x "$(program_of "$1")" ] && [ "$(sources_sum)" = "$2" ] || return 1
    mkdir -p "$root/out" && stamp_for "$1" "$2" >"$stamp.$$" && mv "$stamp.$$" "$stamp"
}

# Proves and builds programs. Where checks have left their work beside one of them, as a developer's do, that goes on
# from it, one crate after the other; else all is built from nothing, side by side.
make_programs() {
    for name in "$@"; do
        if [ -d "$root/crates/$name/out/incremental" ]; then
            go_on "$@"
            return
        fi
    done
    "$root/tools/build" "$@"
}

# Has rt build the programs, and run each once: `wst` with a word that makes it end.
go_on() {
    for name in "$@"; do
        case $name in
        wst) (cd "$root/crates/$name" && rt run -- --help) ;;
        *) (cd "$root/crates/$name" && rt run) ;;
        esac || return 1
    done
}

# Whether the command rt is there. Where it isn't, says so, and what therefore was not done.
has_rt() {
    command -v rt >/dev/null || {
        echo "wst: $1: the command rt of the Rattle kit is not found" >&2
        return 1
    }
}

# Removes what was built of a program, and its stamp.
remove_built() {
    built=$(program_of "$1")
    rm -f "$built" "$built.o" "$built.stamp" "$root/out/$1.built"
}
