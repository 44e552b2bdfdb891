# The longest part of a trace without a line that says that events are missing: neither lost ones (kind 20) nor a switch that names
# a thread which was named before and is not ready (kind 21). Written are its window, two stamps. It is a proposal: whether the part is taken, the program
# decides.
#
#     LC_ALL=C awk -v waking=1 -f whole.awk HEAD TRACE      waking=1: no line of the trace is a sched_wakeup

# The whole number after ` key=`, of the first place.
function value(key) {
    if (!match($0, " " key "=[0-9]+")) return -1
    return substr($0, RSTART + length(key) + 2, RLENGTH - length(key) - 2) + 0
}

# A part ends before this stamp, and the next one begins after it.
function cut(stamp,    id) {
    if (begun && stamp - begin > longest) { longest = stamp - begin; best_from = begin; best_to = sprintf("%.6f", stamp - 0.000001) }
    for (id in state) delete state[id]
    begin = sprintf("%.6f", stamp + 0.000001)
    begun = 1
}

!is_trace && $1 == "task" { is_listed[$5 + 0] }
!is_trace && $1 == "window" { from = $2; to = $3 }
!is_trace { is_trace = $1 == "events" && NF == 1; next }
NF > 1 && ($1 ~ /^CPU:/ && $NF ~ /^(EVENTS\]|DROPPED\])$/ || $NF == "lost]") { if (begun) cut(now); next }
!/sched_(switch|wakeup|wakeup_new|waking):/ { next }
{
    word = ""
    for (at = 1; at < NF; at++) {
        if ($at !~ /^[0-9]+\.[0-9]+:$/ || $(at + 1) !~ /^(sched:)?sched_(switch|wakeup|wakeup_new|waking):$/) continue
        stamp = substr($at, 1, length($at) - 1)
        word = $(at + 1)
        sub(/^sched:/, "", word)
        break
    }
    if (word == "" || (word == "sched_waking:" && !waking)) next
    if (from != "" && (stamp + 0 < from + 0 || stamp + 0 > to + 0)) next
    if (!begun) { begin = stamp; begun = 1 }
    now = stamp
    if (stamp + 0 < begin + 0) next
    if (word != "sched_switch:") { id = value("pid"); if (id in is_listed) state[id] = "in"; next }
    id = value("prev_pid")
    other = value("next_pid")
    if ((id in is_listed && state[id] == "out") || (other in is_listed && other != id && state[other] == "out")) { cut(stamp); next }
    if (id in is_listed) state[id] = / prev_state=R[^ ]* / ? "in" : "out"
    if (other in is_listed) state[other] = "in"
}
END {
    if (begun && now - begin > longest) { longest = now - begin; best_from = begin; best_to = now }
    if (longest > 0) print best_from, best_to
}
