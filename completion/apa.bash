# Completion of apa for bash: its words, and then the files that each of them reads; all files, where none has the suffix.
_apa() {
    local word=${COMP_WORDS[COMP_CWORD]} command=${COMP_WORDS[1]-} files=''
    local words='run check weak nested jobs weakjobs runjobs watch draw steps chrome import importjobs lost show whatif masks record govern tasks make large'
    words="$words prove test install uninstall release version"
    COMPREPLY=()
    if [ "$COMP_CWORD" -eq 1 ]; then
        _apa_reply < <(compgen -W "$words help" -- "$word")
        return
    fi
    case $COMP_CWORD:$command in
    2:run | 2:weak | 2:nested | 3:watch) files='apa' ;;
    2:check | 2:draw | 2:steps | 2:chrome) files='schedule' ;;
    2:import | 2:importjobs | 2:lost | 2:show | 2:whatif | 2:masks | 2:govern) files='tasks' ;;
    3:import | 3:importjobs | 3:lost | 3:show | 3:whatif | 3:masks) files='trace' ;;
    2:help) _apa_reply < <(compgen -W "$words" -- "$word") ;;
    *:govern) _apa_reply < <(compgen -W '--watch --log --seconds --cpu --priority --source' -- "$word") ;;
    2:record) _apa_reply < <(compgen -W '1 2 5 10' -- "$word") ;;
    *:tasks | *:record) _apa_reply < <(cd /proc && compgen -G "${word}[0-9]*") ;;
    2:jobs | 2:weakjobs | 3:weakjobs | 2:runjobs) files='jobs' ;;
    2:watch) _apa_reply < <(compgen -W '1 2 3 4 5 6 7 8' -- "$word") ;;
    2:install | 2:uninstall) _apa_reply < <(compgen -d -- "$word") ;;
    2:prove) _apa_reply < <(compgen -W 'program library' -- "$word") ;;
    esac
    if [ -n "$files" ]; then
        _apa_reply < <(compgen -f -X "!*.$files" -- "$word" && true; compgen -d -- "$word")
        [[ " ${COMPREPLY[*]}" == *."$files" || " ${COMPREPLY[*]}" == *."$files "* ]] || _apa_reply < <(compgen -f -- "$word")
    fi
    [ "$COMP_CWORD" -ne 2 ] || [[ $word != -* ]] || COMPREPLY=(--help)
}

# The lines that come are the reply. (zsh has no mapfile)
_apa_reply() {
    local line
    COMPREPLY=()
    while IFS= read -r line; do COMPREPLY+=("$line"); done
}
complete -o filenames -F _apa apa ./apa
