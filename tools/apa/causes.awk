# Reads a text up to the line that was refused, and writes that line, a mark under its place, and which of the causes it is.
#
#     LC_ALL=C awk -v line=N -v fault='kind 7' -v word=run -f near.awk -f causes.awk FILE
#
# What it says is a help for the reader. That a line is refused, and of which kind, is the word of the program.

function item(text) { printf "    = %s\n", text }

# The line as it can be shown: what is not printable is written as \xNN, and a carriage return as ^M.
function visible(text,    shown, at, byte) {
    if (text !~ /[^\t -~]/) return text
    for (at = 1; at <= length(text); at++) {
        byte = substr(text, at, 1)
        if (byte ~ /[\t -~]/) shown = shown byte
        else if (byte == "\r") shown = shown "^M"
        else shown = shown sprintf("\\x%02x", code[byte])
    }
    return shown
}

# Where field n of a line begins.
function place_of(n, text,    at, rest, gone) {
    rest = text
    for (at = 1; at < n && match(rest, /^[ \t]*[^ \t]+/); at++) { gone += RLENGTH; rest = substr(rest, RLENGTH + 1) }
    match(rest, /^[ \t]*/)
    return gone + RLENGTH + 1
}

# Shows the line, from a point before `from` where it is long, with a mark under `count` bytes from there on.
function show(text, from, count,    shift, pad, marks) {
    shift = from > 120 ? from - 60 : 0
    pad = visible(substr(text, shift + 1, from ? from - 1 - shift : 0))
    gsub(/[^\t]/, " ", pad)
    printf "    | %s%s\n", (shift ? ".. " : ""), substr(visible(substr(text, shift + 1)), 1, 160)
    if (!from) return
    while (length(marks) < length(visible(substr(text, from, count)))) marks = marks "^"
    printf "    | %s%s%s\n", (shift ? "   " : ""), pad, marks
}

function show_field(n) {
    if (n > NF) show($0, 0, 0)
    else show($0, place_of(n, $0), length($n))
}

# What kind of text begins with this line.
function text_of(first) {
    if (first ~ /^apa[ \t]/) return "an input, which `apa run` reads"
    if (first ~ /^schedule[ \t]/) return "a schedule, which `apa check` and `apa draw` read"
    if (first ~ /^jobs[ \t]/) return "a text of jobs, which `apa jobs`, `apa weakjobs` and `apa runjobs` read"
    if (first ~ /^trace[ \t]/) return "the head of a trace, which `apa lost TASKS TRACE` reads"
    if (first ~ /sched_(switch|wakeup)/ || first ~ /^# *tracer:/) return "a trace" (is_trace ? ": TASKS is the first file, and TRACE the second one" : ", which `apa lost TASKS TRACE` reads")
    if (first ~ /^(weak|nested|lost|weakjobs|responses|large)[ \t]/) return "what `apa " substr(first, 1, index(first " ", " ") - 1) "` writes"
    return ""
}

# Which byte of the line may not stand in a text.
function bad_byte(    at, byte) {
    if (is_binary) { item("the file is " is_binary); return }
    match($0, /[^\t -~]/)
    at = RSTART
    byte = substr($0, at, 1)
    show($0, at, 1)
    if (byte == "\r" && at == length($0)) {
        item("the line ends with a carriage return, as lines of Windows do")
        item("`sed -i 's/\\r$//' FILE` takes them out")
    } else if (NR == 1 && substr($0, 1, 3) == "\357\273\277") {
        item("the text begins with a byte order mark, as editors of Windows write it")
        item("`sed -i '1s/^\\xef\\xbb\\xbf//' FILE` takes it out")
    } else item("byte " at " is " sprintf("%02x", code[byte]) "; names and comments, too, are of ASCII alone")
}

function bad_header(    is) {
    show($0, 0, 0)
    is = text_of($0)
    if (is != "") item("this is " is)
    else if (is_trace && $1 == "task") item("two lines come before the tasks: `trace 1`, and `processors N` with the number that `nproc --all` says")
    else if ($1 == "processors") item("the first line is missing, as `" header "`")
    else if (is_binary) item("the file is " is_binary)
    else item("the first line is `" header "`")
}

function bad_processors() {
    show_field(2)
    if ($1 != "processors") item("the line `processors N` comes before all tasks")
    else if (NF != 2 || $2 ~ /[^0-9]/) item("it has the form `processors 4`")
    else if ($2 + 0 > 64) item("at most 64 processors are known here; a machine with more of them can be asked about a part, numbered anew from 0")
    else item("there is at least one processor")
}

# What a task line of so many fields has wrong.
function bad_task(form, fields, most) {
    if (NF != fields) {
        show_field(fields + 1)
        item("it has " NF " fields in place of " fields ": `" form "`" (NF > fields && $3 ~ /[^0-9]/ ? ", and a name has no blanks" : ""))
    } else if ($3 ~ /[^0-9]/ || $3 + 0 > most + 0) {
        show_field(3)
        item("`" $3 "` is no priority: a whole number from 0 to " most ", and the lower one is more urgent")
        if (fields == 5 && $3 ~ /^-/) item("of a thread with the real-time priority P it is 99 - P; others have none here")
    } else show_field(fields)
}

# Whether field n is a whole number between these two; where it is none, that is said of what it is.
function is_within(n, what, least, most) {
    if ($n !~ /[^0-9]/ && $n + 0 >= least + 0 && $n + 0 <= most + 0) return 1
    show_field(n)
    item("the " what " is from " least " to " most (what == "release" ? ", since the horizon is " horizon : ""))
    return 0
}

# A task of a text of jobs.
function bad_jobs_task(    fields) {
    fields = version == 1 ? 7 : 4
    if (version == 1 && $1 == "job") {
        show_field(1)
        item("jobs one by one are of version 2: write `jobs 2` in the first line")
    } else if ($1 != "task") show($0, 0, 0)
    else if (NF != fields) {
        show_field(NF > fields ? fields + 1 : 0)
        item("it has " NF " fields in place of " fields)
    } else if (is_within(3, "priority", 0, "4294967295") && version == 1)
        is_within(5, "offset", 0, 1000000) && is_within(6, "period", 1, 1000000) && is_within(7, "cost", 1, 1000000)
}

function bad_job() {
    if ($1 != "job" || NF < 4 || NF > 5) show_field(0)
    else is_within(3, "release", 0, horizon - 1) && is_within(4, "cost", 1, 10000000) && (NF == 4 || is_within(5, "deadline", 1, 10000000))
}

function bad_list(n,    given) {
    given = $n
    show_field(n)
    if (given ~ /^0[xX][0-9a-fA-F]+$/) item("a mask is written as a list of processors: " given " is `" list_of(substr(given, 3)) "`")
    else if (given ~ /^[{\[(].*[})\]]$/) item("a list has no brackets: `" substr(given, 2, length(given) - 2) "`")
    else if (given ~ /^[0-9]+-[0-9]+$/) item("a range goes from the lower to the higher one")
    else item("a list is like `0-2,5`: numbers from 0 to 63 and ranges, with commas and no blanks")
}

# The list of a mask of hexadecimal digits.
function list_of(digits,    at, value, bit, cpu, from, list) {
    from = -1
    for (cpu = 0; cpu <= 4 * length(digits); cpu++) {
        at = length(digits) - int(cpu / 4)
        value = at > 0 ? index("0123456789abcdef", tolower(substr(digits, at, 1))) - 1 : 0
        bit = int(value / 2 ^ (cpu % 4)) % 2
        if (bit && from < 0) from = cpu
        if (!bit && from >= 0) { list = list (list == "" ? "" : ",") from (cpu - 1 > from ? "-" cpu - 1 : ""); from = -1 }
    }
    return list
}

# The greatest processor of a list.
function most_of(list,    items, count, at, most) {
    most = -1
    count = split(list, items, /[,-]/)
    for (at = 1; at <= count; at++) if (items[at] + 0 > most) most = items[at] + 0
    return most
}

function refused_task() {
    if ($2 !~ /^[A-Za-z_][A-Za-z0-9_.-]*$/) {
        show_field(2)
        item("`" $2 "` is no name: a letter or _ comes first, and then letters, digits, `_`, `.` and `-`")
    } else if (length($2) > 32) {
        show_field(2)
        item("the name has " length($2) " bytes, and the most is 32")
    } else if ($2 in named) {
        show_field(2)
        item("line " named[$2] " has the name " $2 " already")
    } else if (!is_trace && ($3 + 0) in ranked) {
        show_field(3)
        item("line " ranked[$3 + 0] " has the priority " $3 + 0 " already; no two tasks have the same, since the order of the two is what decides")
    } else if (tasks >= 1024) {
        show_field(0)
        item("there are 1,024 tasks already")
    } else absent_processor(4)
}

function absent_processor(n) {
    show_field(n)
    if (most_of($n) >= processors) item("there is no processor " most_of($n) ": the machine has " processors ", numbered from 0 to " processors - 1)
}

function bad_event(    known) {
    known = "arrive depart tick affinity offline online"
    if ($1 == "task") { show_field(1); item("tasks come before the first event, which is in line " first_event); return }
    if (index(" " known " ", " " $1 " ")) {
        show_field(1)
        item("the number of its stream is missing: `0 " $0 "`")
    } else if ($1 ~ /[^0-9]/ || $1 + 0 > 15) {
        show_field(1)
        item("an event begins with the number of its stream, from 0 to 15: `0 arrive NAME`")
        if (near($1, "task end " known) != "") item("near is `" near($1, "task end " known) "`")
    } else if (!index(" " known " ", " " $2 " ")) {
        show_field(2)
        item("there is no event `" $2 "`" (near($2, known) != "" ? "; near is `" near($2, known) "`" : ": " known))
    } else if (version == 1 && $2 ~ /^(affinity|offline|online)$/) {
        show_field(2)
        item("this event is of version 2: write `apa 2` in the first line")
    } else if ($2 == "tick") {
        show_field(3)
        item("`tick N` has a whole number from 1 to 1000000; split a longer one")
    } else if ($2 ~ /line$/ && NF == 3 && $3 !~ /[^0-9]/) absent_processor(3)
    else {
        show_field(NF == 2 ? 0 : 4)
        item("it has the form `0 " ($2 == "affinity" ? "affinity NAME LIST" : $2 ~ /line$/ ? $2 " P" : $2 " NAME") "`")
    }
}

function unknown_task(n) {
    show_field(n)
    item("no line `task " $n " ..` stands before it" (near($n, names) != "" ? "; near is `" near($n, names) "`" : ""))
}

function bad_end() {
    show_field(0)
    item("the `end` is in line " end_line)
}

function bad_schedule_line(    is) {
    is = text_of(NR == 1 ? $0 : first_line)
    if (is != "" && is !~ /^a schedule/) {
        show($0, 0, 0)
        item("this is " is (is ~ /^an input/ ? ": `apa run FILE > FILE.schedule` makes a schedule of it" : ""))
    } else if ($0 ~ /\r$/) { show($0, length($0), 1); item("the line ends with a carriage return, as lines of Windows do; `sed -i 's/\\r$//' FILE` takes them out") }
    else if (NR == 1) { show($0, 0, 0); item("the first line is `schedule 1` or `schedule 2`") }
    else if (match($0, /  +/)) { show($0, RSTART, RLENGTH); item("one blank stands between two fields") }
    else if ($0 ~ / $/) { show($0, length($0), 1); item("a blank stands at the end of the line") }
    else show($0, 0, 0)
}

function bad_window(    n) {
    for (n = 2; n <= 3 && $n ~ /^[0-9]+\.[0-9]+$/ && length($n) - index($n, ".") <= 9; n++) ;
    show_field(NF == 3 && n <= 3 ? n : 0)
    if (window) item("line " window " is a window already")
    else if (NF == 3 && n <= 3) item("`" $n "` is no stamp: digits, a point, and 1 to 9 digits")
    else if (NF == 3) item("it ends before it begins")
}

function bad_form() {
    if ($0 ~ /\r$/) {
        show($0, length($0), 1)
        item("the line ends with a carriage return, as lines of Windows do; `sed -i 's/\\r$//' FILE` takes them out")
    } else if (match($0, /prio=-[0-9]+/)) show($0, RSTART, RLENGTH)
    else if (match($0, /sched_(switch|wakeup|wakeup_new): [^=]*:[0-9]+ \[/)) {
        show($0, RSTART, RLENGTH)
        item("this is the form of `trace-cmd report` without -N")
    } else show($0, 0, 0)
}

# What a chain has wrong, as far as its line and the tasks say it.
function bad_chain(    n, chain, count, at, seen) {
    for (n = 2; n < NF && $n !~ /^(placed|displaced|freed|on)$/; n++) ;
    n += $n == "on" && $(n + 1) !~ />/ && $(n + 2) ~ /^(enters|then)$/ ? 1 : 1
    show_field(n)
    count = split($n, chain, ">")
    for (at = 1; at <= count; at++) {
        if (chain[at] + 0 >= processors) { item("there is no processor " chain[at] ": the machine has " processors ", numbered from 0 to " processors - 1); return }
        if (chain[at] in seen) { item("the chain visits processor " chain[at] " twice"); return }
        seen[chain[at]]
    }
    if ($2 == "arrive" && ($3 in list) && version == 1 && !allows(list[$3], chain[1])) item($3 " may run on " list[$3] ", and the chain begins with " chain[1])
}

function allows(list, cpu,    items, count, at, ends) {
    count = split(list, items, ",")
    for (at = 1; at <= count; at++) {
        if (split(items[at], ends, "-") == 1) ends[2] = ends[1]
        if (ends[1] + 0 <= cpu + 0 && cpu + 0 <= ends[2] + 0) return 1
    }
    return 0
}

function explain() {
    if (fault == "kind 1") bad_byte()
    else if (fault == "kind 2") item("it has " length($0) " bytes")
    else if (fault == "kind 3") bad_header()
    else if (fault == "kind 4") bad_processors()
    else if (fault == "kind 5" && word ~ /^(weak)?jobs$/) bad_jobs_task()
    else if (fault == "kind 8" && word ~ /^(weak)?jobs$/) bad_job()
    else if (fault == "kind 19" && word ~ /^(weak)?jobs$/) { show_field(3); item("line " last_job[$2] " has the release " release[$2]) }
    else if (fault == "kind 5") bad_task(is_trace ? "task NAME PRIORITY LIST ID" : "task NAME PRIORITY LIST", is_trace ? 5 : 4, is_trace ? "4194303" : "4294967295")
    else if (fault == "kind 6") bad_list(4)
    else if (fault == "kind 7" || (fault == "kind 22" && !is_trace)) refused_task()
    else if (fault == "kind 8" && !is_trace && word !~ /jobs/) bad_event()
    else if (fault == "kind 9") unknown_task(word ~ /jobs/ ? 2 : 3)
    else if (fault == "kind 11") bad_end()
    else if (fault == "kind 13") absent_processor(4)
    else if (fault == "kind 16") { show_field(5); item("line " of_id[$5 + 0] " has the id " $5 + 0 " already") }
    else if (fault == "kind 17") bad_window()
    else if (fault == "kind 18") bad_form()
    else if (fault == "kind 21" && !is_trace) bad_schedule_line()
    else if (fault == "kind 23" && !is_trace) unknown_task(3)
    else if (fault == "defect 2") bad_chain()
    else show($0, 0, 0)
}

BEGIN {
    for (n = 0; n < 256; n++) code[sprintf("%c", n)] = n
    is_trace = word ~ /^(import|lost|show|importjobs|whatif)$/
    header = is_trace ? "trace 1" : word ~ /jobs/ ? "jobs 1" : word ~ /^(check|draw|steps|chrome)$/ ? "schedule 1" : "apa 1"
}
NR == 1 {
    first_line = $0
    if ($0 ~ /^\037\213/) is_binary = "packed by gzip; `gunzip` unpacks it"
    else if ($0 ~ /^\177ELF/) is_binary = "a program"
    else if ($0 ~ /[\001-\010\016-\037]/) is_binary = "no text"
    version = $2 == "2" ? 2 : 1
}
NR == line { explain(); exit }
$1 == "processors" { processors = $2 + 0 }
$1 == "horizon" { horizon = $2 + 0 }
$1 == "job" { last_job[$2] = NR; release[$2] = $3 + 0 }
$1 == "window" { window = NR }
$1 == "task" { of_id[$5 + 0] = NR; named[$2] = NR; ranked[$3 + 0] = NR; list[$2] = $4; names = names " " $2; tasks++ }
$1 ~ /^[0-9]+$/ && !first_event { first_event = NR }
$1 == "end" && !end_line { end_line = NR }
