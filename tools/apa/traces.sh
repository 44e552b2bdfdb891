# What is wrong with a file, before the program reads it. `apa` reads this part where it is asked for.
# shellcheck shell=sh disable=SC2154 # variables of apa

# Why this is not a file that can be read.
cannot_read() {
    if [ -z "$1" ]; then
        echo 'the name of the file is empty'
    elif [ -d "$1" ]; then
        echo "$1 is a folder, and not a file that can be read"
    elif [ -e "$1" ]; then
        echo "$1 is not a file that can be read"
    else
        echo "$1 is not a file that can be read: there is none of this name"
    fi
}

# tell_outside WORD FILE FROM: whether a picture is empty, since its window begins after the end of the schedule.
tell_outside() {
    [ -f "$2" ] || return 0
    LC_ALL=C awk -v word="$1" -v from="$3" '
        $1 == "history" { is_there = 1; end = word == "steps" ? $2 : 0; next }
        word == "draw" && $2 == "tick" { end += $3 }
        END { if (is_there && from + 0 > end + 0) printf "apa: the schedule ends at %.0f, before this window, so the picture is empty\n", end }' <"$2" >&2
}

# refuse FILE WHY: of a trace that is none, before any answer. The status is that of a text that is refused.
refuse() {
    tell "apa: $1 $2"
    exit 3
}

# A recorder's own file, a packed one or an empty one has no line that is read, and an answer of zeros would be a wrong one.
refuse_other_files() {
    [ -f "$1" ] || return 0
    [ -s "$1" ] || refuse "$1" 'is empty; a trace is what `cat trace` of tracefs, `trace-cmd report -N` or `perf script` prints'
    case $(head -c 12 -- "$1" | od -A n -c | tr -d ' \n') in
    '027\bDtracing'*) refuse "$1" "is trace-cmd's own file; \`trace-cmd report -N -i $1\` prints the text that is read" ;;
    PERFILE2*) refuse "$1" "is perf's own file; \`perf script -i $1\` prints the text that is read" ;;
    '037213'*) refuse "$1" "is packed by gzip; \`gunzip $1\` unpacks it" ;;
    BZh* | '375'7zXZ* | '('265/375*) refuse "$1" 'is a packed file; unpack it first' ;;
    177ELF*) refuse "$1" 'is a program, and not a trace' ;;
    esac
    [ "$(head -c 4096 -- "$1" | tr -d '\000' | wc -c)" -eq "$(head -c 4096 -- "$1" | wc -c)" ] || refuse "$1" 'is a binary file, and not the text of a trace'
}

# The widest picture that a reader can look at.
most_bars=20000

# show_trace show TASKS TRACE [A B], or show A B of standard input. A bound that is a stamp, with a point, becomes the moment that it is.
show_trace() {
    case $2:${3-} in
    *[!0-9:]* | :* | *:) ;;
    *)
        [ -e "$2" ] || { run_stdin "$@"; return; }
        ;;
    esac
    window=''
    [ $# -eq 3 ] || window="$(moment_of "$2" "$3" "$4") $(moment_of "$2" "$3" "$5")" || exit
    make_folder
    picture=$folder/picture
    # shellcheck disable=SC2086 # two words or none
    (run_traced show "$2" "$3" $window) >"$picture" || return
    bars=$(grep -c '<title>' "$picture")
    [ "$bars" -le "$most_bars" ] || fail "the picture has $bars bars, more than $most_bars that can be looked at: apa show TASKS TRACE A B shows those from A to B"
    cat "$picture"
}

# moment_of TASKS TRACE BOUND: the microseconds from moment 0, by `lost`, where the bound is a stamp.
moment_of() {
    case $3 in
    *.*) run_traced lost "$1" "$2" | LC_ALL=C awk -v bound="$3" '$1 == "span" { split($4, first, "."); split(bound, at, ".")
        printf "%.0f", (at[1] - first[1]) * 1000000 + substr(at[2] "000000", 1, 6) - first[2]; exit }' ;;
    *) printf '%s' "$3" ;;
    esac
}
