# The table of `apa whatif`, from the texts that import, importjobs and weakjobs wrote of one trace.
#
#     LC_ALL=C awk -f responses.awk EVENTS JOBS FINISHES

# Notes that a job of the task had this response on one of the three sides.
function responds(side, task, response) {
    finished[side, task]++
    total[side, task] += response
    if (response > worst[side, task]) worst[side, task] = response
}
function worst_of(side, task) { return finished[side, task] ? worst[side, task] : "-" }
function mean_of(side, task) { return finished[side, task] ? int(total[side, task] / finished[side, task]) : "-" }
# A cell of the table; the first column is aligned to the left, all others to the right.
function cell(row, column, text) {
    table[row, column] = text
    if (length(text) > wide[column]) wide[column] = length(text)
}
function print_row(row, column, line) {
    line = sprintf("%-" wide[1] "s", table[row, 1])
    for (column = 2; column <= 9; column++) line = line sprintf("  %" wide[column] "s", table[row, column])
    print line
}
FILENAME == ARGV[1] && $2 == "tick" { now += $3 }
FILENAME == ARGV[1] && $2 == "arrive" { begun[$3] = now + 0 }
# Of stretches that begin at one moment only the last can have a length.
FILENAME == ARGV[1] && $2 == "depart" { end[$3, begun[$3]] = now }
FILENAME == ARGV[2] && $1 == "task" { name[++tasks] = $2 }
FILENAME == ARGV[2] && $1 == "job" && $4 > cost[$2] { cost[$2] = $4 }
FILENAME == ARGV[3] && $1 == "moves" { moves["weak"] = $3; moves["strong"] = $5 }
FILENAME == ARGV[3] && $1 == "job" {
    jobs[$2]++
    if (!(($2, $4) in end)) next
    responds("trace", $2, end[$2, $4] - $4)
    if ($5 != "-") responds("weak", $2, $5 - $4); else left["weak"]++
    if ($6 != "-") responds("strong", $2, $6 - $4); else left["strong"]++
}
END {
    count = split("task jobs longest_cost trace:_worst mean weak:_worst mean strong:_worst mean", heads, " ")
    for (column = 1; column <= count; column++) { gsub("_", " ", heads[column]); cell(0, column, heads[column]) }
    count = split("trace weak strong", sides, " ")
    for (row = 1; row <= tasks; row++) {
        cell(row, 1, name[row])
        cell(row, 2, jobs[name[row]] + 0)
        cell(row, 3, name[row] in cost ? cost[name[row]] : "-")
        for (at = 1; at <= count; at++) {
            cell(row, 2 + 2 * at, worst_of(sides[at], name[row]))
            cell(row, 3 + 2 * at, mean_of(sides[at], name[row]))
        }
    }
    for (row = 0; row <= tasks; row++) print_row(row)
    print ""
    print "Responses in microseconds: in the trace; under a weak scheduler, which moves no running task aside;"
    print "under the strong one. A job is a stretch in which its task was ready and ran. Its release and its"
    print "cost, the time that it ran, are those of the trace. A job that does not end in the trace is left out."
    if (left["weak"] + left["strong"])
        print "So is, on its side, one that is not finished when the trace ends: weak " left["weak"] + 0 ", strong " left["strong"] + 0 "."
    print "A move costs nothing here: weak has " moves["weak"] + 0 ", strong " moves["strong"] + 0 ". The weak scheduler is a model, and no kernel."
}
