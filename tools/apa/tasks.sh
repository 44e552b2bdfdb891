# The word tasks. `apa` reads this file where it is asked for.
# shellcheck shell=sh disable=SC2086 # ids

# Where the kernel shows its threads. The tests have a folder of their own.
proc=${APA_PROC:-/proc}

# by_priority THREAD..: which of these folders are of threads of SCHED_FIFO, SCHED_RR or SCHED_EXT, each with the priority that a trace
# prints: 99 less the real-time one, or 120 plus the nice value. One process reads them all. After the name, which may have blanks and
# parentheses, comes the third field.
by_priority() {
    awk 'BEGIN {
        RS = "\001"
        for (n = 1; n < ARGC; n++) {
            file = ARGV[n] "/stat"
            if ((getline line < file) > 0) {
                sub(/^.*\)/, "", line)
                split(line, field, " ")
                if (field[39] == 1 || field[39] == 2) print ARGV[n], 99 - field[38]
                if (field[39] == 7) print ARGV[n], 120 + field[17]
            }
            close(file)
        }
    }' "$@"
}

# threads PID..: NAME PRIORITY LIST ID of each thread of these classes in these processes. The name is the thread's own, with `_` for
# each byte that a name may not have.
threads() {
    (
        cd -- "$proc" || exit
        for process in "$@"; do set -- "$@" "$process/task"/[0-9]* && shift; done
        by_priority "$@" | while read -r thread priority; do
            name=$(tr -c 'A-Za-z0-9_.\n-' _ <"$thread/comm" | tr '\n' _ | sed 's/_$//; s/^[^A-Za-z_]/_&/; s/^$/_/') || continue
            list=$(sed -n 's/^Cpus_allowed_list:[[:space:]]*//p' "$thread/status") || continue
            echo "$name $priority $list ${thread##*/}"
        done
    ) 2>/dev/null
}

# The ids of the processes that these words are or name, a name as pidof takes it. The kernel keeps 15 bytes of a name.
processes() {
    for word in "$@"; do
        case $word in
        '') fail 'the name of a process is empty' ;;
        *[!0-9]*)
            found=$(cd -- "$proc" && for file in $(grep -lxF -e "$(printf '%.15s' "$word")" -- [0-9]*/comm 2>/dev/null); do
                ! is_other "${file%/comm}" "$word" || continue
                echo "${file%/comm}"
            done)
            [ -n "$found" ] || fail "there is no process of the name $word"
            printf '%s\n' "$found"
            ;;
        *)
            [ -d "$proc/$word" ] || fail "there is no process $word"
            echo "$word"
            ;;
        esac
    done
}

# is_other PROCESS NAME: the first 15 bytes of the name are those of the process, and the rest is not.
is_other() {
    [ ${#2} -gt 15 ] || return
    first=$(tr '\0' '\n' <"$1/cmdline" 2>/dev/null | head -n 1)
    [ -n "$first" ] && [ "${first##*/}" != "$2" ]
}

# Makes task lines of the threads on standard input, which are in the order of their ids. A name has at most 32 bytes, and one that
# several threads have is made distinct by the thread's id.
name_tasks() {
    awk '
        { name[NR] = substr($1, 1, 32); rest[NR] = $2 " " $3; id[NR] = $4; count[name[NR]]++ }
        END {
            for (n = 1; n <= NR; n++) {
                own = name[n]
                mark = ""
                if (count[own] > 1) do {
                    mark = mark "." id[n]
                    own = substr(name[n], 1, 32 - length(mark)) mark
                } while (own in count || own in used)
                used[own]
                print "task", own, rest[n], id[n]
            }
        }'
}

# The task lines of these processes, or of all, by thread id.
print_tasks() {
    among=${1:+ among these}
    # Words are numbers here.
    # shellcheck disable=SC2046
    if [ $# -eq 0 ]; then
        tell 'apa: no NAME or PID is given, so the threads of the whole machine are listed'
        set -- $(cd -- "$proc" && echo [0-9]*)
    else
        ids=$(processes "$@") || exit
        set -- $ids
    fi
    lines=$(threads "$@" | LC_ALL=C sort -n -k 4 | name_tasks)
    [ -n "$lines" ] || fail "there is no thread of SCHED_FIFO, SCHED_RR or SCHED_EXT$among"
    say "$lines"
}
