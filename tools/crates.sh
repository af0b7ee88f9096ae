# shellcheck shell=sh disable=SC2154
# Sourced by the scripts of shell: the crates of crates.txt, and whether something that is made of them is fresh. The
# script sets `top`, the folder of the repository.

# the crate $1 after those that it uses, by crates.txt
crates_of() {
    awk -v top="$1" '
        function visit(crate,    used, count, at) {
            if (!(crate in uses) || seen[crate]++) return
            count = split(uses[crate], used, " ")
            for (at = 1; at <= count; at++) visit(used[at])
            print crate
        }
        { sub(/#.*/, "") }
        split($0, half, ":") == 2 { split(half[1], word, " "); uses[word[1]] = half[2] }
        END { visit(top) }
    ' "$top/crates.txt"
}

# whether the file $1 is there, and nothing is newer than it in the parts $2 (as "src specs") of the crates $3..
is_fresh() {
    [ -f "$1" ] || return 1
    made=$1
    parts=$2
    shift 2
    crates=$*
    set -- "$top/crates.txt"
    for crate in $crates; do
        for part in $parts; do
            [ ! -e "$top/crates/$crate/$part" ] || set -- "$@" "$top/crates/$crate/$part"
        done
    done
    newer=$(find "$@" -newer "$made" -print)
    [ -z "$newer" ]
}
