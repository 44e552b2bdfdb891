# What the program is made of. `apa` reads this file where it is asked for, and tools/prove_crates does.
# shellcheck shell=sh disable=SC2154 # variables of apa

# crates ROOT NAME: that crate and those that it is made of, each after those that it stands on.
crates() {
    awk -F: -v top="$2" '
        function visit(name, parts, count, at) {
            if (!(name in below) || seen[name]++) return
            count = split(below[name], parts, " ")
            for (at = 1; at <= count; at++) visit(parts[at])
            print name
        }
        { sub(/#.*/, "") }
        NF > 1 { split($1, head, " "); below[head[1]] = $2 }
        END { visit(top) }' "$1/crates.txt"
}

# sum_of ROOT NAME PART..: the parts, and a sum of the names and the contents of these parts of the crates that NAME is made of, and of
# their lines in crates.txt.
sum_of() (
    root=$1
    needed=$(crates "$1" "$2")
    shift 2
    parts=$*
    set --
    for crate in $needed; do
        for part in $parts; do set -- "$@" "$crate/$part"; done
    done
    cd -- "$root/crates" || exit
    echo "$parts $({
        # shellcheck disable=SC2086 # in one line
        awk -v needed=" $(echo $needed) " '{ sub(/#.*/, "") } index(needed, " " substr($1, 1, length($1) - ($1 ~ /:$/)) " ")' ../crates.txt
        find "$@" -type f -print0 2>/dev/null | LC_ALL=C sort -z | xargs -0 sha256sum
    } | sha256sum)"
)

# is_newest FILE NAME: it stands, and nothing of the crates that NAME is made of is newer.
is_newest() {
    [ -f "$1" ] || return
    newer=$(
        cd -- "$top/crates" || exit
        made=$1
        name=$2
        set -- ../crates.txt
        for crate in $(crates "$top" "$name"); do set -- "$@" "$crate/src" "$crate/specs" "$crate/proofs"; done
        find "$@" -newer "$made" 2>/dev/null
    )
    [ -z "$newer" ]
}
