# The table of `apa weakjobs --table`, from a text of jobs and what weakjobs wrote of it.
#
#     LC_ALL=C awk -f table.awk JOBS FINISHES

function cell(row, column, text) {
    table[row, column] = text
    if (length(text) > wide[column]) wide[column] = length(text)
}
function print_row(row, column, line) {
    line = sprintf("%-" wide[1] "s", table[row, 1])
    for (column = 2; column <= 9; column++) line = line sprintf("  %" wide[column] "s", table[row, column])
    sub(/ +$/, "", line)
    print line
}
FILENAME == ARGV[1] && $1 == "jobs" { version = $2 }
FILENAME == ARGV[1] && $1 == "processors" { processors = $2 }
FILENAME == ARGV[1] && $1 == "horizon" { horizon = $2 }
FILENAME == ARGV[1] && $1 == "task" && version == 1 { used[$2] = $7 / $6 }
FILENAME == ARGV[1] && $1 == "job" { used[$2] += $4 / horizon }
FILENAME == ARGV[2] && $1 == "moves" { moves["weak"] = $3; moves["strong"] = $5 }
FILENAME == ARGV[2] && $1 == "task" {
    rows++
    cell(rows, 1, $2)
    cell(rows, 2, $4)
    cell(rows, 3, sprintf("%.3f", used[$2]))
    for (at = 6; at <= 8; at++) cell(rows, at - 2, $at)
    for (at = 10; at <= 12; at++) cell(rows, at - 3, $at)
    all_jobs += $4; all_used += used[$2]; all_weak += $8; all_strong += $12
}
END {
    count = split("task jobs utilisation weak:_worst mean late strong:_worst mean late", heads, " ")
    for (column = 1; column <= count; column++) { gsub("_", " ", heads[column]); cell(0, column, heads[column]) }
    last = rows + 1
    for (column = 1; column <= count; column++) cell(last, column, "")
    cell(last, 1, "all"); cell(last, 2, all_jobs + 0); cell(last, 3, sprintf("%.3f", all_used)); cell(last, 6, all_weak + 0); cell(last, 9, all_strong + 0)
    for (row = 0; row <= last; row++) print_row(row)
    print ""
    print "Processors: " processors ". Utilisation: " (version == 1 ? "cost over period" : "the costs of the jobs over the horizon") ". Worst, mean: responses of the jobs that finish."
    print "Late: due by the horizon, and not done then. Migrations: weak " moves["weak"] ", strong " moves["strong"] "."
}
