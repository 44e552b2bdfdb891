# Help. Its texts are in tools/apa/help.txt. `apa` reads this file where it is asked for.
# shellcheck shell=sh disable=SC2154 # variables of apa

# The text on a word, or nothing.
help_text() {
    case $1 in steps) set -- draw ;; esac
    awk -v word="@$1" -v number="$number" '
        substr($0, 1, 1) == "@" { is_here = $0 == word; next }
        is_here { gsub("NUMBER:", number ":"); gsub("apa NUMBER$", "apa " number); gsub("apa NUMBER,", "apa " number ","); print }' "$parts/help.txt"
}

# The lines at its head, which say what words there are.
help_lines() {
    help_text "$1" | sed '/^$/,$d'
}

# All words.
help_words() {
    sed -n 's/^@//p' "$parts/help.txt" | sed 's/^draw$/draw steps/'
}

print_help_on() {
    text=$(help_text "$1" | grep '') || return
    say "$text"
}

# The screen, or the text on one word.
print_help() {
    case $1 in
    '' | help)
        text=$(help_text help)
        say "$text"
        ;;
    *)
        print_help_on "$1" && return
        read_part usage
        close=$(near "$1")
        tell "apa: there is no command \`$1\`${close:+; near is \`$close\`}; \`apa help\` lists them"
        exit 2
        ;;
    esac
}
