# The table of weakjobs. `apa` reads this file where it is asked for.
# shellcheck shell=sh disable=SC2034,SC2154 # variables of apa

read_part traces

# table_of [FILE]: reads a text of jobs, of standard input where no file is named, and writes what weakjobs says of each task as a table.
table_of() {
    make_folder
    if [ $# -eq 0 ]; then
        cat >"$folder/jobs" || fail "cannot write to $folder"
    else
        { [ -r "$1" ] && [ ! -d "$1" ]; } || fail "$(cannot_read "$1")"
        input=$1
        cat <"$1" >"$folder/jobs" || fail "cannot write to $folder"
    fi
    run_program weakjobs <"$folder/jobs" >"$folder/finishes" || exit
    LC_ALL=C awk -f "$parts/table.awk" "$folder/jobs" "$folder/finishes" 2>/dev/null || {
        echo 'write fault' >&2
        exit 5
    }
}
