# What a refusal means, where it is, and what can be done. `apa` reads this file after an answer that is none.
# shellcheck shell=sh disable=SC2154 # variables of apa

# in_words WORD FAULT COLUMN: the column of the row of tools/apa/kinds.txt for the kind or defect of that word.
in_words() {
    awk -F '|' -v word="$1" -v fault="$2" -v column="$3" '
        BEGIN {
            above["weakjobs"] = "jobs"; above["runjobs"] = "jobs"; above["importjobs"] = "lost"; above["lost"] = "import"; above["show"] = "lost"
            for (rank = 9; word != ""; word = above[word]) ranks[word " " fault] = rank--
            ranks["any " fault] = 1
        }
        $1 in ranks && $column != "" && ranks[$1] > best { best = ranks[$1]; text = $column }
        END { if (text != "") print text }' "$parts/kinds.txt"
}

# Where a line of the text stands: sets file, number and text, the file that has it, or nothing where that cannot be read again. Of a
# text of two files the first has so many lines. A name with `=` in it has a folder before it, since for awk it would set a variable.
find_place() {
    case $input in
    /dev/stdin | /dev/fd/0) named=/proc/self/fd/0 ;; # awk would go on where the program has read to
    /*) named=$input ;;
    *) named=./$input ;;
    esac
    if [ "$1" -le "$head_lines" ]; then
        file=$head number=$1 text=$folder/head
    else
        file=$input number=$(($1 - head_lines)) text=$named
    fi
    [ "$input" != '<stdin>' ] || [ "$file" != "$input" ] || text=/proc/self/fd/0
    [ -f "$text" ] || text=''
}

# explain WORD..: what the program said of these words, once more for a reader: the place as compilers name it, the fault in words, the
# line with its mark, the cause, and what to do.
explain() {
    fault=${said##*, }
    case $status:$said in
    '3:input: more than '*) tell '    = a text has at most 16777216 bytes, and a trace 268435456: take a part of it' ;;
    '3:input: version 1 wanted') tell '    = nested decides inputs of version 1 alone; `apa run` reads this one' ;;
    '3:input: tasks '*) explain_crossing ;;
    1:invalid:* | 3:input:*) explain_fault "${1-}" ;;
    2:*) read_part usage && explain_usage "$@" ;;
    [03-6]:*) ;;
    *) explain_stop ;;
    esac
}

# Which two tasks are meant: the program numbers them from 0.
explain_crossing() {
    find_place 1
    both=${said#input: tasks }
    both=${both% have crossing masks}
    [ -z "$text" ] || LC_ALL=C awk -v first="${both% and *}" -v second="${both#* and }" '
        $1 == "task" && (count++ == first || count == second + 1) { printf "    = line %d: %s may run on %s\n", NR, $2, $4 }' "$text" >&2
    tell '    = these masks meet, and neither lies in the other, so counts decide nothing; `apa run` reads this input'
}

explain_fault() {
    words=$(in_words "$1" "$fault" 2)
    [ -n "$words" ] || return 0
    place=${said#*line }
    find_place "${place%%,*}"
    tell "$file:$number: $fault: $words"
    if is_empty; then
        tell "    = it is empty: see what the command said that was to write it"
        return
    fi
    [ -z "$text" ] || LC_ALL=C awk -v line="$number" -v fault="$fault" -v word="$1" -f "$parts/near.awk" -f "$parts/causes.awk" "$text" >&2
    case $1:$fault in
    'import:kind 23' | 'lost:kind 23' | 'show:kind 23' | 'importjobs:kind 23') ! tell_nobody || return 0 ;;
    esac
    advice=$(in_words "$1" "$fault" 3)
    [ -z "$advice" ] || tell "    = $advice"
    [ -z "$text" ] || case $1:$fault in
    'import:kind 22' | 'lost:kind 22' | 'show:kind 22' | 'importjobs:kind 22') tell_window ;;
    'import:kind 2'[01] | 'lost:kind 2'[01] | 'show:kind 2'[01] | 'importjobs:kind 2'[01]) tell_whole_part ;;
    esac
}

# The text that is refused has not a byte: its end is missed in the first line, or its file has no length.
is_empty() {
    case $number:$fault in
    '1:kind 12') [ "$file" != "$head" ] ;;
    '1:kind 24' | '1:kind 3')
        read=$text
        [ "$file" != "$head" ] || read=$head
        [ -f "$read" ] && [ ! -s "$read" ]
        ;;
    *) false ;;
    esac
}

# as_head_and_trace AWK..: awk over the head and the trace, which are two files, or one text.
as_head_and_trace() {
    if [ "$head_lines" -gt 0 ]; then
        LC_ALL=C awk "$@" "$folder/head" "$named"
    elif [ -n "$text" ]; then
        LC_ALL=C awk "$@" "$text"
    fi
}

# Of a trace that names nobody: why. It fails where nothing is to be said.
tell_nobody() {
    [ "$head_lines" -eq 0 ] || [ -f "$input" ] || return
    why=$(as_head_and_trace -f "$parts/nobody.awk")
    [ -n "$why" ] && tell "$why"
}

# Of a trace in which events are missing: the window of the longest part in which that is not seen.
tell_whole_part() {
    waking=0
    grep -q 'sched_wakeup:' -- "$text" || waking=1
    part=$(as_head_and_trace -v waking="$waking" -f "$parts/whole.awk")
    [ -z "$part" ] || tell "    = the line \`window $part\` in TASKS takes the longest part in which this is not seen"
}

# Of a trace whose oldest lines were overwritten: the window in which the lines of all processors are there.
tell_window() {
    from=$(LC_ALL=C awk -f "$parts/window.awk" "$text")
    [ -z "$from" ] || tell "    = the line \`window $from 999999999.0\` in TASKS takes the part that all processors have"
}

explain_stop() {
    [ "$program" = "$unproved/program" ] || return 0
    [ ! -e "$unproved/checked" ] ||
        fail "the build without proofs was stopped; it wants an address space without a limit, and more memory than the proved program"
    fail "the build without proofs was stopped, with status $status"
}
