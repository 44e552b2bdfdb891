# The word record: a trace of this machine, and the tasks that go with it. `apa` reads this file where it is asked for.
# shellcheck shell=sh disable=SC2154 # variables of apa

read_part tasks
read_part govern

tracing=/sys/kernel/tracing

# record SECONDS NAME|PID..: standard output is a file, NAME.trace; the tasks go to NAME.tasks beside it.
record() {
    seconds=$1
    shift
    case $seconds in
    '' | *[!0-9.]* | *.*.* | .) fail "\`$seconds\` is no number of seconds; apa record 2 NAME > app.trace" ;;
    esac
    awk -v seconds="$seconds" 'BEGIN { exit !(seconds > 0 && seconds <= 3600) }' || fail "$seconds seconds are not recorded: more than 0, and 3600 at most"
    find_output
    [ $# -eq 0 ] || processes "$@" >/dev/null || exit
    overwritten=0
    if [ -x "$(recorder)" ]; then
        record_by_bpf "$@"
    else
        record_by_tracefs "$@"
    fi
    tell_changes
    write_tasks
    [ "$overwritten" -eq 0 ] ||
        fail "$overwritten events did not fit into the buffer, so the trace has gaps: record for a shorter time, or make less run meanwhile"
}

# By the recorder of c/agent, which goes when this is ended.
record_by_bpf() {
    recorder=''
    known=$(list_threads "$@")
    trap 'kill $recorder 2>/dev/null; wait; exit 130' HUP INT TERM
    "$(recorder)" "$seconds" &
    recorder=$!
    wait "$recorder" || {
        [ "$(id -u)" -eq 0 ] || tell 'apa: record as root'
        exit 1
    }
    trap - HUP INT TERM
    later=$(list_threads "$@")
}

# Where the recorder of c/agent is not built: by ftrace.
record_by_tracefs() {
    make_instance
    known=$(list_threads "$@")
    trace_for "$seconds" || fail 'the recorder did not start'
    later=$(list_threads "$@")
    cat -- "$instance/trace" || exit
    overwritten=$(sed -n 's/^overrun: //p; s/^dropped events: //p' "$instance"/per_cpu/cpu*/stats | awk '{ n += $1 } END { print n + 0 }')
    remove_instance
}

# Sets tasks, the file beside standard output.
find_output() {
    output=$(readlink -- "/proc/$$/fd/1" 2>/dev/null)
    [ -f "$output" ] || fail 'standard output is to be a file, as in apa record 2 NAME > app.trace; the tasks go to app.tasks beside it'
    tasks=${output%.trace}.tasks
}

# An instance of its own in tracefs, so that no other tracing is touched. It goes when this ends.
make_instance() {
    [ ! -d "$tracing" ] || [ -x "$tracing" ] || fail "$tracing is not to be read; record as root"
    [ -d "$tracing/instances" ] || fail "$tracing is empty; as root: mount -t tracefs nodev $tracing"
    [ -w "$tracing/instances" ] || fail "$tracing/instances is not to be written; record as root"
    instance=$tracing/instances/apa.$$
    sleeper=''
    mkdir -- "$instance" 2>/dev/null || fail "an instance in $tracing/instances was not made; record as root"
    trap remove_instance EXIT
    trap 'exit 130' HUP INT TERM
}

remove_instance() {
    [ -z "$sleeper" ] || kill "$sleeper" 2>/dev/null
    [ -d "$instance" ] || return 0
    echo 0 >"$instance/tracing_on"
    echo 0 >"$instance/events/enable"
    rmdir -- "$instance"
}

# Records for so many seconds. The buffer has room for some 50,000 events a second of each processor, within a quarter of the memory.
trace_for() {
    room=$(awk -v seconds="$1" -v count="$(nproc --all)" '
        /^MemAvailable:/ { most = $2 / 4 / count; wanted = 4096 * (1 + int(seconds)); print int(wanted < most ? wanted : most) }' /proc/meminfo)
    echo 0 >"$instance/tracing_on" && echo "$room" >"$instance/buffer_size_kb" && echo global >"$instance/trace_clock" || return
    for event in sched_switch sched_wakeup sched_wakeup_new; do
        echo 1 >"$instance/events/sched/$event/enable" || return
    done
    echo 1 >"$instance/tracing_on" || return
    sleep "$1" &
    sleeper=$!
    wait "$sleeper" || return
    sleeper=''
    echo 0 >"$instance/tracing_on"
}

# The real-time threads of these processes as they are now, or of all.
list_threads() {
    if [ $# -eq 0 ]; then
        # shellcheck disable=SC2046 # ids
        set -- $(cd -- "$proc" && echo [0-9]*)
    else
        # shellcheck disable=SC2046 # ids
        set -- $(processes "$@" 2>/dev/null)
    fi
    threads "$@"
}

# Says which threads were not there all the time, or had another priority or other processors in the end.
tell_changes() {
    printf '%s\n\n%s\n' "$known" "$later" | awk '
        $0 == "" { is_later = 1; next }
        !is_later { before[$4] = $0; next }
        { after[$4] }
        !($4 in before) { print "apa: the thread " $4 " (" $1 ") came during the recording" }
        ($4 in before) && before[$4] != $0 { print "apa: the thread " $4 " changed during the recording: it was `" before[$4] "` and is `" $0 "`" }
        END { for (id in before) if (!(id in after)) { split(before[id], field, " "); print "apa: the thread " id " (" field[1] ") went during the recording" } }' >&2
}

# as_word NAME: as a shell reads it.
as_word() {
    case $1 in
    *[!A-Za-z0-9_./-]*) printf "'%s'\n" "$(printf '%s' "$1" | sed "s/'/'\\\\''/g")" ;;
    *) printf '%s\n' "$1" ;;
    esac
}

# The head of the trace: all threads that were there at one of the two ends, as they were last.
write_tasks() {
    {
        echo trace 1
        echo "processors $(nproc --all)"
        printf '%s\n%s\n' "$later" "$known" | grep . | LC_ALL=C sort -s -n -k 4,4 -u | name_tasks
    } >"$tasks" || fail "cannot write to $tasks"
    count=$(grep -c '^task ' "$tasks")
    [ "$count" -gt 0 ] || fail "no thread of SCHED_FIFO, SCHED_RR or SCHED_EXT is there to be listed, so $tasks has none"
    tell "apa: real-time threads in $tasks: $count; next is: apa lost $(as_word "$tasks") $(as_word "$output")"
}
