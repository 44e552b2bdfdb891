# The stamp from which on the lines of all processors of a trace are there: the latest of those that are the first of a processor. A
# recorder that overwrites drops the oldest lines of each processor by itself.
#
#     LC_ALL=C awk -f window.awk TRACE

{
    for (at = 1; at < NF; at++) {
        if ($at !~ /^[0-9]+\.[0-9]+:$/ || $(at + 1) !~ /^(sched:)?sched_(switch|wakeup|wakeup_new|waking):$/) continue
        named = ""
        for (before = 1; before < at; before++) if ($before ~ /^\[[0-9]+\]$/) named = substr($before, 2) + 0
        if (named != "" && !(named in seen)) { seen[named]; whole = substr($at, 1, length($at) - 1) }
        break
    }
}
END { if (whole != "") print whole }
