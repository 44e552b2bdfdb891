# The masks that `apa masks` tries, and what came of them. Modes, by -v mode=..:
#
#     ask   JOBS FINISHES     a line `TASK MASK` for each task that is late, or with `which` the tasks in `which`, and each
#                             processor that is not in its mask: the mask with it
#     set   JOBS              the jobs with the mask `mask` for the task `task`
#     table FINISHES RESULTS  the answer: RESULTS has lines `TASK MASK` with the text of weakjobs after each

# Fills has[p] from a list like 0-2,5.
function read_mask(text, has, count, parts, bounds, i, p) {
    for (p in has) delete has[p]
    count = split(text, parts, ",")
    for (i = 1; i <= count; i++) {
        if (split(parts[i], bounds, "-") == 1) bounds[2] = bounds[1]
        for (p = bounds[1] + 0; p <= bounds[2] + 0; p++) has[p] = 1
    }
}
function mask_of(has, p, end, text) {
    for (p = 0; p < 64; p = end + 1) {
        end = p
        if (!(p in has)) continue
        while (end + 1 < 64 && (end + 1) in has) end++
        text = text (text == "" ? "" : ",") p (end > p ? "-" end : "")
    }
    return text
}
# The numbers of a line `task NAME jobs N weak WORST MEAN LATE strong WORST MEAN LATE`.
function note(at, line, field) {
    split(line, field, " ")
    worst[at, "weak", field[2]] = field[6]
    worst[at, "strong", field[2]] = field[10]
    late[at, "weak"] += field[8]
    late[at, "strong"] += field[12]
    is_late[at, field[2]] = field[8] + field[12]
}

mode == "set" && $1 == "task" && $2 == task { $4 = mask }
mode == "set" { print; next }

mode == "ask" && FILENAME == ARGV[1] && $1 == "processors" { processors = $2 }
mode == "ask" && FILENAME == ARGV[1] && $1 == "task" { names[++tasks] = $2; mask_before[$2] = $4 }
mode == "ask" && FILENAME == ARGV[2] && $1 == "task" { note(0, $0) }

mode == "table" && FILENAME == ARGV[1] && $1 == "task" { mask_before[$2] = $4 }
mode == "table" && FILENAME == ARGV[2] && $1 == "task" { note(0, $0) }
mode == "table" && FILENAME == ARGV[3] && $1 == "tried" { tried++; task_of[tried] = $2; mask_after[tried] = $3 }
mode == "table" && FILENAME == ARGV[3] && $1 == "task" { note(tried, $0) }

# What is compared: late jobs of all tasks, or the worst response of the task itself.
function value(at, side, name) {
    return what == "late" ? late[at, side] + 0 : worst[at, side, name]
}
function gain(at, side, before, after) {
    before = value(0, side, task_of[at])
    after = value(at, side, task_of[at])
    return before == "-" ? 0 : after == "-" ? -before : before - after
}
function comes_before(one, other) {
    if (gain(one, "weak") != gain(other, "weak")) return gain(one, "weak") > gain(other, "weak")
    if (gain(one, "strong") != gain(other, "strong")) return gain(one, "strong") > gain(other, "strong")
    return one < other
}
function print_tried(at, name) {
    name = task_of[at]
    print name " " mask_before[name] " -> " mask_after[at] ": " what " " value(0, "weak", name) " -> " value(at, "weak", name) " weak, " \
        value(0, "strong", name) " -> " value(at, "strong", name) " strong"
}

END {
    if (mode == "ask") {
        wanted_count = split(which, wanted, " ")
        for (i = 1; i <= wanted_count; i++) is_wanted[wanted[i]]
        for (i = 1; i <= tasks; i++) {
            if (what == "late" ? !is_late[0, names[i]] : !(names[i] in is_wanted)) continue
            for (p = 0; p < processors; p++) {
                read_mask(mask_before[names[i]], has)
                if (p in has) continue
                has[p] = 1
                print names[i], mask_of(has)
            }
        }
    }
    if (mode == "table") {
        for (i = 1; i <= tried; i++) {
            for (j = i; j > 1 && comes_before(i, order[j - 1]); j--) order[j] = order[j - 1]
            order[j] = i
        }
        for (i = 1; i <= tried; i++)
            if (gain(order[i], "weak") > 0 || gain(order[i], "strong") > 0) print_tried(order[i])
            else idle++
        if (idle) print "masks that save nothing: " idle
    }
}
