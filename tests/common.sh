# What the tests of the script share. They source this file; `top` is the repository.
# shellcheck shell=sh disable=SC2034,SC2154 # variables of the tests
room=$(mktemp -d) || exit 1
trap 'rm -rf -- "$room"' EXIT
trap 'exit 130' HUP INT TERM
cd -- "$room" || exit 1
unset APA_PROVED
export GIT_CEILING_DIRECTORIES="$room"
passed=0
failed=0
skipped=0
usage='usage: run, check, make n p t e, large n p t e, weak, nested, jobs, watch k, import, draw [A B], steps [A B], chrome [AT], lost, weakjobs, importjobs, runjobs, show [A B]'
shift=$top/examples/first_shift.schedule

# A test by its name: whether what came is what was expected.
same() {
    if [ "$2" = "$3" ]; then
        passed=$((passed + 1))
    else
        failed=$((failed + 1))
        printf 'FAILED %s\n  expected: %s\n  came:     %s\n' "$1" "$2" "$3"
    fi
}

# The words of a kind or a defect, from the tables of docs/FORMATS.md.
words_of() {
    awk -F ' *[|] *' -v word="$1" -v number="$2" '
        $2 == "Kind" || $2 == "Job kind" || $2 == "Trace kind" || $2 == "Defect" { is_here = tolower($2) == word }
        $0 == "" { is_here = 0 }
        is_here && $2 == number { print $4 }' "$top/docs/FORMATS.md"
}

# The numbers that these tables have.
numbers_of() {
    awk -F ' *[|] *' -v word="$1" '
        $2 == "Kind" || $2 == "Job kind" || $2 == "Trace kind" || $2 == "Defect" { is_here = tolower($2) == word }
        $0 == "" { is_here = 0 }
        is_here && $2 ~ /^[0-9]+$/ { print $2 }' "$top/docs/FORMATS.md"
}

# skip WHY
skip() {
    skipped=$((skipped + 1))
    echo "skipped: $1"
}

# The last line, and the status of a test.
count() {
    echo "$passed passed, $failed failed, $skipped skipped"
    [ "$failed" -eq 0 ]
}
