# The word masks, which is made of weakjobs. `apa` reads this file where it is asked for.
# shellcheck shell=sh disable=SC2154 # variables of apa

read_part traces

# masks_of_jobs FILE: of each task that is late, each mask that is wider by one processor, and how many jobs are late then.
masks_of_jobs() {
    { [ -r "$1" ] && [ ! -d "$1" ]; } || fail "$(cannot_read "$1")"
    make_folder
    cat <"$1" >"$folder/jobs" || fail "cannot write to $folder"
    # shellcheck disable=SC2034 # of a refusal
    input=$1
    run_program weakjobs <"$folder/jobs" >"$folder/finishes" || exit
    what=late
    which=''
    try_masks
    if [ -s "$folder/asked" ]; then
        print_table 'late: jobs of all tasks that are due by the horizon and not done then'
    elif awk '$1 == "task" && $8 + $12 { late = 1 } END { exit !late }' "$folder/finishes" >/dev/null; then
        print_table 'each task that is late may run on all processors already'
    else
        print_table 'no job is late'
    fi
}

# masks_of_trace TASKS TRACE: of each task that was lost, and its worst response.
masks_of_trace() {
    run_traced lost "$1" "$2" >/dev/null || exit
    { cat "$folder/head" && cat <"$2"; } >"$folder/trace" || fail "cannot write to $folder"
    run_program lost <"$folder/trace" >"$folder/lost" || exit
    run_program importjobs <"$folder/trace" >"$folder/jobs" || exit
    run_program weakjobs <"$folder/jobs" >"$folder/finishes" || exit
    which=$(LC_ALL=C awk '$2 == "ready" { for (i = 2; i < NF; i += 2) if ($i == "lost" && $(i + 1) > 0) print $1 }' "$folder/lost")
    what=worst
    try_masks
    if [ -s "$folder/asked" ]; then
        print_table 'worst: the worst response of the task, with the jobs of the trace'
    elif [ -z "$which" ]; then
        print_table 'no task was lost'
    else
        print_table 'each task that was lost may run on all processors already'
    fi
}

# print_table LINE: what came of the masks, and this line below it.
print_table() {
    printf '%s\n' "$1" >>"$folder/table" || fail "cannot write to $folder"
    cat -- "$folder/table" 2>/dev/null || {
        tell 'write fault'
        exit 5
    }
}

# Tries each mask, and makes the table of what came of them.
try_masks() {
    LC_ALL=C awk -v mode=ask -v what="$what" -v which="$which" -f "$parts/masks.awk" "$folder/jobs" "$folder/finishes" >"$folder/asked"
    while read -r task mask; do
        echo "tried $task $mask"
        LC_ALL=C awk -v mode=set -v task="$task" -v mask="$mask" -f "$parts/masks.awk" "$folder/jobs" | "$program" weakjobs || exit
    done <"$folder/asked" >"$folder/tried"
    LC_ALL=C awk -v mode=table -v what="$what" -f "$parts/masks.awk" "$folder/jobs" "$folder/finishes" "$folder/tried" >"$folder/table" || fail "cannot write to $folder"
}
