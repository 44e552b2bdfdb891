# Where a trace says of a listed thread something else than its line does: another priority, or a processor that is not in its list. So
# it is when a list is of another day. And where no line of a trace names a listed thread, which has fewer lines than are read here. The
# answer goes by the lines, and this is said beside it.
#
#     LC_ALL=C awk -f seen.awk HEAD TRACE

function is_in(list, processor,    items, count, at, ends) {
    count = split(list, items, ",")
    for (at = 1; at <= count; at++) {
        if (split(items[at], ends, "-") == 1) ends[2] = ends[1]
        if (ends[1] + 0 <= processor && processor <= ends[2] + 0) return 1
    }
    return 0
}

# What follows `key=` in the line, after its last `==>` where it has one.
function value(key) {
    if (!match($0, "[ ]" key "=-?[0-9]+")) return ""
    return substr($0, RSTART + length(key) + 2, RLENGTH - length(key) - 2) + 0
}

function look(id, priority, processor) {
    if (!(id in name)) return
    if (priority != line_priority[id]) { others[id]++; other[id] = priority }
    if (!is_in(list[id], processor)) { outside[id]++; place[id] = processor }
}

FNR == NR {
    if ($1 == "task") { name[$5] = $2; line_priority[$5] = $3 + 0; list[$5] = $4; order[++count] = $5 }
    if ($1 == "window") { from = $2 + 0; to = $3 + 0; cut = 1 }
    next
}
/sched_switch:|sched_wakeup:|sched_wakeup_new:|sched_waking:/ {
    processor = -1
    for (at = 1; at < NF; at++) {
        if ($at ~ /^\[[0-9]+\]$/) processor = substr($at, 2) + 0
        if ($at ~ /^[0-9]+\.[0-9]+:$/) { if (cut && ($at + 0 < from || $at + 0 > to)) next; break }
    }
    if (/sched_switch:/) {
        named[value("prev_pid")]; named[value("next_pid")]
        if (processor >= 0) look(value("next_pid"), value("next_prio"), processor)
    } else {
        named[value("pid")]
        if (!/sched_waking:/) look(value("pid"), value("prio"), value("target_cpu"))
    }
}
END {
    # Where no line names any of them, the trace is refused.
    for (at = 1; at <= count; at++) if (order[at] in named) is_theirs = 1
    for (at = 1; at <= count; at++) {
        id = order[at]
        if (is_theirs && !(id in named) && FNR < 200000) printf "apa: %s (%s) is named by no line of the trace\n", name[id], id
        if (id in others) printf "apa: %s (%s) has the priority %d in the trace, %d times, and %d in its line\n", name[id], id, other[id], others[id], line_priority[id]
        if (id in outside) printf "apa: %s (%s) is on processor %d in the trace, which is not in its list %s, %d times\n", name[id], id, place[id], list[id], outside[id]
    }
}
