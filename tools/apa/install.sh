# The words install and uninstall. `apa` reads this file where it is asked for.
# shellcheck shell=sh disable=SC2154 # variables of apa

# Where share, lib and include stand of a command that lies in this folder: as /usr/local to /usr/local/bin.
beside() {
    case $1 in
    */bin) printf '%s\n' "${1%/bin}" ;;
    *) printf '%s\n' "$1" ;;
    esac
}

# The documents of users: they go with the examples. Those of who changes it stay in the repository.
documents='AGENT DEFINITIONS FORMATS GLOSSARY LIBRARY README SCHED_EXT THEOREMS TRACES TRUST WHAT_IT_SAVES WHY_IT_IS_BEST'

# Where in the repository the program and the folder of the library are that are installed.
built_program=crates/schedule_program/out/schedule_program built_library=c/out

# What is installed but the command itself and the agent, a line for each file: its mode, where it is in the repository, and where it goes.
print_files() {
    echo "755 $built_program libexec/apa/apa-program"
    (cd -- "$top" && for file in tools/apa/*; do echo "644 $file share/apa/${file##*/}"; done)
    echo '644 man/apa.1 share/man/man1/apa.1
644 man/apa.5 share/man/man5/apa.5
644 completion/apa.bash share/bash-completion/completions/apa
644 completion/_apa share/zsh/site-functions/_apa
644 README.md share/doc/apa/README.md
644 CHANGELOG.md share/doc/apa/CHANGELOG.md'
    for name in $documents; do echo "644 docs/$name.md share/doc/apa/docs/$name.md"; done
    (cd -- "$top" && find examples -type f | LC_ALL=C sort | sed 's|.*|644 & share/doc/apa/&|')
    { [ "$built_library" = c/out ] && ! is_library_proved; } || echo "644 $built_library/libapa.a lib/libapa.a
644 $built_library/libapa.so.$number lib/libapa.so.$number
644 c/apa.h include/apa.h
644 c/apa.pc lib/pkgconfig/apa.pc
644 c/python/apa.py lib/python3/dist-packages/apa.py
644 man/apa.3 share/man/man3/apa.3"
}

# print_agent FOLDER: the same of the agent, where make has put it.
print_agent() {
    echo "755 $1/apa-agent bin/apa-agent
755 $1/apa-record libexec/apa/apa-record
644 man/apa-agent.8 share/man/man8/apa-agent.8
644 c/agent/apa-agent.service lib/systemd/system/apa-agent.service"
}

print_all() {
    print_files
    ! is_agent_built || print_agent c/out
}

# make -C c/agent has made the agent and the recorder since the proved library was made.
is_agent_built() {
    for file in apa-agent apa-record; do
        [ -x "$top/c/out/$file" ] && [ -z "$(find "$top/c/out/libapa.a" -newer "$top/c/out/$file")" ] || return
    done
    is_library_proved
}

# The same of this copy, which was installed: its own list says it.
print_files_of_copy() {
    sed -n 's/^file \([0-7]*\) \(.*\)/\1 \2 \2/p' "$parts/installed" | sed -E "$(beneath "${top##*/}") ; / (bin\/)?apa\$/d"
}

# A script for sed: a copy that does not stand in a folder `bin` has its commands at its top.
beneath() {
    [ "$1" = bin ] || echo 's/ apa-agent$/ bin\/apa-agent/'
}

# Sets where it goes, by the words and by PREFIX and DESTDIR: place, the folder of the command.
read_words() {
    place=''
    for word; do
        case $word in
        PREFIX=*) PREFIX=${word#*=} ;;
        DESTDIR=*) DESTDIR=${word#*=} ;;
        -* | *=*) fail "$word is no folder; \`apa help install\` says more" ;;
        *) [ -z "$place" ] && place=$word || fail 'one folder is wanted' ;;
        esac
    done
    [ -n "$place" ] || place=${PREFIX:-/usr/local}/bin
    stage=${DESTDIR-}
    [ -z "$stage" ] || case $place in /*) ;; *) fail "with DESTDIR a folder is named from the root, and $place is not" ;; esac
    case $stage$place in /*) ;; *) stage=${stage:+$PWD/$stage} place=${stage:-$PWD/}$place && place=${place#"$stage"} ;; esac
    while [ "$place" != "${place%/}" ] && [ "$place" != / ]; do place=${place%/}; done
}

# make_folder_noted FOLDER: makes it, and those that it lies in, and notes each that was not there.
make_folder_noted() {
    [ -d "$1" ] || { make_folder_noted "${1%/*}" && mkdir -- "$1" && printf '%s\n' "$1" >>"$folder/folders"; }
}

# put MODE FROM TO: the file, as a new one, since the one that stands there may be in use, and a program as a whole; TO is within the
# prefix.
put() {
    case $3 in */*) [ -d "$prefix/${3%/*}" ] || make_folder_noted "$prefix/${3%/*}" || return ;; esac
    if [ "$2" = "$prefix/$3" ]; then
        :
    elif [ "$1" = 644 ]; then
        cp --remove-destination -- "$2" "$prefix/$3"
    else
        cp -- "$2" "$prefix/$3.new" && chmod "$1" "$prefix/$3.new" && mv -f -- "$prefix/$3.new" "$prefix/$3"
    fi || return
    echo "file $1 $3" >>"$folder/list"
}

# The modes of all that is no program.
put_modes() {
    sed -n 's/^file 644 //p' "$folder/list" | (cd -- "$prefix" && xargs -d '\n' chmod 644 --)
}

put_all() {
    while read -r mode from to; do
        case $to in
        bin/*) to=$in_bin${to#bin/} ;;
        lib/systemd/*) sed "s|=[^=]*/apa-agent|=${place}/apa-agent|" "$source/$from" >"$folder/unit" && from=$folder/unit ;;
        esac
        case $from in /*) ;; *) from=$source/$from ;; esac
        put "$mode" "$from" "$to" || return
    done
}

# The command itself, and the link of the shared library.
put_own() {
    sed "s|^installed=.*|installed='${stamp:-$(version)}'|" "$self" >"$folder/apa" && put 755 "$folder/apa" "${in_bin}apa" || return
    ! grep -q " lib/libapa.so.$number\$" "$folder/list" || {
        ln -sfn -- "libapa.so.$number" "$prefix/lib/libapa.so.${number%.*}" && echo "link libapa.so.$number lib/libapa.so.${number%.*}" >>"$folder/list"
    }
}

# The list, by which uninstall goes: the folders that were not there, from the outermost on; those that an earlier install made count,
# and what it put and this one does not is removed, but for a command that stands beside.
put_list() {
    list=$prefix/share/apa/installed
    made=$(sed -n 's/^folder //p' "$list" 2>/dev/null)
    sed -nE 's/^(file|link) [^ ]+ //p' "$list" 2>/dev/null | grep -vxE '(bin/)?apa' | while read -r old; do
        grep -qE "^(file|link) [^ ]+ $old\$" "$folder/list" || rm -f -- "$prefix/$old"
    done
    {
        echo "apa $number"
        { printf '%s\n' "$made" && cut -c $((${#prefix} + 2))- "$folder/folders" && cat "$folder/above"; } | grep . | LC_ALL=C sort -u | sed 's/^/folder /'
        cat "$folder/list"
    } >"$folder/installed" && cp -- "$folder/installed" "$list"
}

# Of the folders that were made for the command's own: how they are called from the prefix on.
note_above() {
    names=.
    [ -z "$in_bin" ] || names='bin .'
    while read -r _; do
        echo "${names%% *}"
        case $names in *' '*) names=${names#* } ;; *) names=$names. ;; esac
    done <"$folder/folders" >"$folder/above"
    true >"$folder/folders"
}

install() {
    read_words "$@"
    is_proved || fail "only a proved program is installed; ./apa prove proves it (about $(minutes) minutes here)"
    make_folder
    true >"$folder/folders"
    true >"$folder/list"
    { make_folder_noted "$stage$place" && to=$(CDPATH='' cd -- "$stage$place" && pwd -P); } || fail "cannot make the folder $stage$place"
    top=$(CDPATH='' cd -- "$top" && pwd -P) || fail "cannot read $top"
    [ "$to" != "$top" ] || fail "this command is in $stage$place already"
    [ -n "$stage" ] || place=$to
    stamp='' prefix=$(beside "$to") source=$top printed=print_all in_bin=''
    [ "$prefix" = "$to" ] || in_bin=bin/
    [ -z "$installed" ] || { source=$(beside "$top") && printed=print_files_of_copy; }
    [ -z "$installed" ] || [ -r "$parts/installed" ] || fail "$parts/installed is missing, which says what this copy is"
    note_above
    { $printed | put_all && put_own && put_modes && rm -f -- "$to/apa-program" "$to/apa-record" && put_list; } || fail "cannot write to $prefix"
    tell_installed
}

tell_installed() {
    tell "apa: $to/apa is ready; its program, pages, completions and documents are in $prefix/libexec and $prefix/share"
    ! grep -q ' include/apa.h$' "$folder/list" ||
        tell "apa: the library is in $prefix: include/apa.h, lib/libapa.a, lib/libapa.so.$number, apa.pc for pkg-config, apa.py and the page apa(3)"
    ! grep -q ' \(bin/\)\?apa-agent$' "$folder/list" ||
        tell "apa: the agent is in $to: apa-agent, with its page apa-agent(8) and a unit in $prefix/lib/systemd/system"
}

# Removes what install put there, and the folders that it made, where nothing else lies in them.
uninstall() {
    if [ $# -eq 0 ] && [ -n "$installed" ] && [ -z "${PREFIX-}${DESTDIR-}" ]; then
        prefix=$(beside "$(CDPATH='' cd -- "$top" && pwd -P)")
    else
        read_words "$@"
        prefix=$(beside "$(CDPATH='' cd -- "$stage$place" 2>/dev/null && pwd -P)")
        [ -n "$prefix" ] || fail "there is no folder $stage$place"
    fi
    list=$(cat -- "$prefix/share/apa/installed" 2>/dev/null) || fail "nothing that apa install put is in $prefix: $prefix/share/apa/installed is missing"
    package=$(printf '%s\n' "$list" | sed -n 's/^of dpkg: //p')
    [ -z "$package" ] || fail "dpkg has put this copy here: apt remove $package removes it"
    printf '%s\n' "$list" | sed -nE 's/^(file|link) [^ ]+ //p' | while read -r file; do rm -f -- "$prefix/$file" || exit; done &&
        rm -f -- "$prefix/share/apa/installed" || fail "cannot remove all of what is in $prefix"
    rm -f -- "$prefix/lib/python3/dist-packages/__pycache__/apa."*.pyc && rmdir -- "$prefix/lib/python3/dist-packages/__pycache__" 2>/dev/null
    printf '%s\n' "$list" | sed -n 's/^folder //p' | grep -v '^\.' | LC_ALL=C sort -r | while read -r name; do
        rmdir -- "$prefix/$name" 2>/dev/null
    done
    printf '%s\n' "$list" | sed -n 's/^folder \(\.\.*\)$/\1/p' | LC_ALL=C sort | {
        at=$prefix
        while read -r _; do rmdir -- "$at" 2>/dev/null && at=${at%/*}; done
    }
    tell "apa: what was installed in $prefix is removed"
}
