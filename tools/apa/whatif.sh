# The word whatif, which is made of three of the program's words. `apa` reads this file where it is asked for.
# shellcheck shell=sh disable=SC2154 # variables of apa

# Reads a trace, and writes a table of the responses of its jobs: those of the trace, and those under weak and strong scheduling.
what_if() {
    [ -n "${folder-}" ] || make_folder
    cat >"$folder/trace" || fail "cannot write to $folder"
    run_program importjobs <"$folder/trace" >"$folder/jobs" || exit
    run_program import <"$folder/trace" >"$folder/events" || exit
    run_program weakjobs <"$folder/jobs" >"$folder/finishes" || exit
    print_responses "$folder/events" "$folder/jobs" "$folder/finishes" 2>/dev/null || {
        echo 'write fault' >&2
        exit 5
    }
}

# print_responses EVENTS JOBS FINISHES: the table, from the texts that import, importjobs and weakjobs wrote of one trace.
print_responses() {
    LC_ALL=C awk -f "$parts/responses.awk" "$1" "$2" "$3"
}
