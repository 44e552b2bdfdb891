# Why a trace names no task of its head: no thread is listed, no line is of the scheduler, the window has none of these, or threads
# of the same names have other ids. Where it is none of these, nothing is written.
#
#     LC_ALL=C awk -f nobody.awk HEAD TRACE

# The name that a line of TASKS may have for a thread that calls itself so.
function name_of(comm) {
    gsub(/[^A-Za-z0-9_.-]/, "_", comm)
    return comm
}

# Notes the thread after `comm=` and its id, where the line has these two as `key` and the field after it.
function note(key, id,    from, rest, comm) {
    if (!(from = index($0, " " key "="))) return
    rest = substr($0, from + length(key) + 2)
    if (!match(rest, " " id "=[0-9]+")) return
    comm = name_of(substr(rest, 1, RSTART - 1))
    if (!(comm in seen)) seen[comm] = substr(rest, RSTART + length(id) + 2, RLENGTH - length(id) - 2) + 0
}

!is_trace && $1 == "task" { listed[++count] = $2; own[count] = $5 + 0 }
!is_trace && $1 == "window" { from = $2; to = $3 }
!is_trace { is_trace = $1 == "events" && NF == 1; next }
!/sched_(switch|wakeup|wakeup_new|waking):/ { next }
{
    for (at = 1; at < NF; at++) {
        if ($at !~ /^[0-9]+\.[0-9]+:$/ || $(at + 1) !~ /^(sched:)?sched_(switch|wakeup|wakeup_new|waking):$/) continue
        last = substr($at, 1, length($at) - 1)
        if (!lines++) first = last
        if (from == "" || (last + 0 >= from + 0 && last + 0 <= to + 0)) used++
        note("prev_comm", "prev_pid"); note("next_comm", "next_pid"); note("comm", "pid")
        break
    }
}
END {
    if (!count) print "    = TASKS lists no thread; `apa tasks NAME` writes the lines of a program that runs"
    else if (!lines) print "    = no line of the trace is one of the scheduler, as `1044.100091: sched_wakeup: comm=..`"
    else if (!used) print "    = no line of the scheduler is in the window; the stamps of the trace go from " first " to " last
    else for (at = 1; at <= count && told < 3; at++) {
        name = listed[at]
        if (!(name in seen)) sub("\\." own[at] "$", "", name)
        if (name in seen && seen[name] != own[at]) { told++; print "    = in the trace " name " is the thread " seen[name] ", and in TASKS " own[at] ": the list is of another run" }
    }
}
