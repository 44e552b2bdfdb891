# Which words were meant, where these are no command. `apa` reads this file after such a refusal.
# shellcheck shell=sh disable=SC2154 # variables of apa

read_part help
read_part traces

# explain_usage WORD..: the program's line has all commands; here is what is wrong with these words.
explain_usage() {
    word=${1-}
    if [ $# -eq 0 ]; then
        tell 'apa: no word is given; `apa help` shows all commands on one screen'
        return
    fi
    lines=$(help_lines "$word")
    if [ -z "$lines" ]; then
        close=$(near "$word")
        tell "apa: there is no command \`$word\`${close:+; near is \`$close\`}; \`apa help\` lists them"
        return
    fi
    shift
    explain_words "$@"
    [ "$word" = help ] || printf '%s\n' "$lines" | sed 's/^/    = /' >&2
}

# What is wrong with the words that follow a known one.
explain_words() {
    case $word:$# in
    import:* | lost:* | show:* | importjobs:* | whatif:* | masks:* | tasks:* | help:* | version:* | prove:* | install:* | test:* | record:*) wrong_count "$@" ;;
    draw:2 | steps:2) wrong_window "$1" "$2" ;;
    draw:3 | steps:3) wrong_picture "$@" ;;
    draw:* | steps:*) wrong_draw "$@" ;;
    chrome:*) wrong_chrome "$@" ;;
    watch:*) wrong_watch "$@" ;;
    make:4 | large:4) wrong_numbers "$@" ;;
    make:* | large:*) tell "apa: $word takes four numbers, and here are $#" ;;
    *) wrong_count "$@" ;;
    esac
}

# What may follow a word.
takes() {
    case $word in
    import | lost | importjobs | whatif) echo 'TASKS and TRACE, or one FILE' ;;
    show) echo 'TASKS and TRACE, or one FILE, and a window of two numbers at most' ;;
    masks) echo 'TASKS and TRACE, or one FILE of jobs' ;;
    help) echo 'one word at most' ;;
    version) echo 'no word after it' ;;
    release) echo 'a version and a folder at most' ;;
    prove) echo '`program` or `library` at most' ;;
    *) echo 'one FILE' ;;
    esac
}

# A file that cannot be read, an option that there is not, or words that are too many or too few.
wrong_count() {
    for option in "$@"; do
        case $word:$option in
        weakjobs:--table)
            [ "$1" != --table ] || continue
            tell 'apa: --table comes before FILE'
            return
            ;;
        *:-?*)
            [ ! -e "$option" ] || continue
            tell "apa: $word has no option \`$option\`"
            return
            ;;
        esac
    done
    case $#:$word in
    0:masks) tell "apa: masks takes $(takes)" ;;
    0:*) ;;
    1:version) tell "apa: version takes $(takes), and here is \`$1\`" ;;
    1:*) tell "apa: $(cannot_read "$1")" ;;
    *) tell "apa: $word takes $(takes), and here are $# words after it" ;;
    esac
}

wrong_draw() {
    if [ $# -eq 1 ]; then
        wrong_count "$@"
    else
        tell "apa: $word takes a window of two numbers, or none"
    fi
}

# A window and, after it, the word that stood before it, which is no file that can be read.
wrong_picture() {
    if [ -e "$2" ] && [ ! -e "$3" ]; then
        tell 'apa: FILE comes first, and then the window'
    else
        tell "apa: $(cannot_read "$3")"
    fi
}

wrong_window() {
    for bound in "$1" "$2"; do
        case $bound in
        '' | *[!0-9]*)
            [ "$input" != '<stdin>' ] || [ "$bound" != "$1" ] || bound=''
            [ ! -e "$2" ] || [ -e "$1" ] || { tell "apa: FILE comes first, and then the window"; return; }
            [ -n "$bound" ] && [ ! -e "$1" ] || { tell "apa: $word takes a window of two numbers, or none"; return; }
            tell "apa: \`$bound\` is no bound of a window, which is a whole number"
            return
            ;;
        esac
    done
    if [ ${#1} -gt 18 ] || [ ${#2} -gt 18 ]; then
        tell "apa: the window from $1 to $2 is none: a bound is at most 18446744073709551615, and the first one is not above the other"
    else
        tell "apa: the window from $1 to $2 is none: the first number is where it begins, and has to be the lower one"
    fi
}

# The words as the program has them: a file that cannot be read is the last of them.
wrong_chrome() {
    if [ $# -eq 2 ] && [ "$2" = "$input" ]; then
        wrong_count "$2"
    elif [ $# -eq 1 ] && [ "$1" != "$input" ]; then
        tell "apa: \`$1\` is no moment at which a trace begins, which is a whole number of microseconds below 9007199254740992"
    else
        wrong_count "$@"
    fi
}

wrong_watch() {
    case ${1-} in
    [1-8])
        shift
        wrong_count "$@"
        ;;
    *[!0-9]*) tell "apa: watch takes the number of its observers before FILE, from 1 to 8" ;;
    '') tell 'apa: watch takes the number of its observers, from 1 to 8' ;;
    *) tell "apa: $1 is no number of observers: from 1 to 8" ;;
    esac
}

# The bounds of the four numbers of make and large.
wrong_numbers() {
    for number in "$@"; do
        case $number in
        '' | *[!0-9]*)
            tell "apa: \`$number\` is no whole number"
            return
            ;;
        esac
    done
    bound processors "$2" 1 64 && bound tasks "$3" 1 1024 && bound events "$4" 1 20000 && tell "apa: $1 is too large: NUMBER is at most 18446744073709551615"
}

bound() {
    [ ${#2} -gt 9 ] || [ "$2" -lt "$3" ] || [ "$2" -gt "$4" ] || return 0
    tell "apa: $2 $1: their number is from $3 to $4"
    return 1
}

# The command whose name differs from this word the least, be it in capitals.
near() {
    LC_ALL=C awk -v given="$(printf '%s' "$1" | tr '[:upper:]' '[:lower:]')" -v words="$(help_words | tr '\n' ' ')" -f "$parts/near.awk"
}
