# The word govern: threads of this machine are scheduled strongly. `apa` reads this file where it is asked for.
# shellcheck shell=sh disable=SC2154 # variables of apa

# The programs of c/agent: where make leaves them, or where they are installed.
agent_folder() {
    if [ -n "$installed" ]; then
        echo "$top"
    else
        echo "$top/c/out"
    fi
}

# Where the recorder of c/agent is.
recorder() {
    if [ -n "$installed" ]; then
        echo "${proved%/*}/apa-record"
    else
        echo "$top/c/out/apa-record"
    fi
}

# govern TASKS [OPTION..]: the agent, on the threads that TASKS lists.
govern() {
    read_part traces
    case $1 in
    -*) [ -e "$1" ] || fail "TASKS comes before the options, as in: apa govern app.tasks $1" ;;
    esac
    { [ -r "$1" ] && [ ! -d "$1" ]; } || fail "$(cannot_read "$1")"
    agent=$(agent_folder)/apa-agent
    [ -x "$agent" ] || fail 'the agent is not built; c/build makes the library, and make -C c/agent the agent'
    [ "$(id -u)" -eq 0 ] || [ -w /run ] || fail 'threads are governed as root'
    list=$1
    shift
    exec "$agent" "$@" "$list"
}
