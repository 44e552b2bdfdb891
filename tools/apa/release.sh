# The word release. `apa` reads this file where it is asked for, after build.sh and install.sh.
# shellcheck shell=sh disable=SC2034,SC2154 # variables of apa

# release [VERSION] [FOLDER]. `apa release --unproved [FOLDER]` packs a build without proofs, for tests of the packing: its name, its
# manifest and each of its answers say that it is not proved.
release() {
    name=apa stamp=''
    [ "${1-}" != --unproved ] || { name=apa-unproved && shift; }
    case ${1-} in
    [0-9]*)
        [ "$1" = "$number" ] || fail "this is version $number, and not $1"
        shift
        ;;
    esac
    [ $# -le 1 ] || fail 'a version and a folder are wanted, or none'
    packed=${1:-$kept/release}
    may_release
    make_folder
    umask 022
    { commit=$(git -C "$top" rev-parse HEAD) && SOURCE_DATE_EPOCH=${SOURCE_DATE_EPOCH:-$(git -C "$top" log -1 --format=%ct)}; } ||
        fail 'the commit is not known'
    export SOURCE_DATE_EPOCH
    { mkdir -p -- "$packed" && packed=$(CDPATH='' cd -- "$packed" && pwd); } || fail "cannot make the folder $packed"
    build_agent
    pack_tar && pack_deb
}

may_release() {
    for tool in git make clang tar gzip dpkg-deb dpkg-shlibdeps; do
        command -v "$tool" >/dev/null || fail "nothing is packed: there is no $tool here"
    done
    changed=$(git --no-optional-locks -C "$top" status --porcelain 2>&1) || fail 'nothing is packed: this is no clone of a repository'
    if [ "$name" = apa ]; then
        [ -z "$changed" ] || fail "nothing is packed: the tree has what no commit has: $(printf '%s\n' "$changed" | head -n 1 | cut -c 4-)"
        is_proved || fail "nothing is packed: the program is not proved; ./apa prove proves it (about $(minutes) minutes here)"
        is_library_proved || fail 'nothing is packed: the library is not proved; ./apa prove proves it too'
        stamp=$(version)
    else
        take_unproved
        stamp="apa $number, not proved, commit $(git -C "$top" describe --always --dirty), $(rt version)"
    fi
}

# The program that answers here without proofs, and a library of that kind, in place of the proved ones.
take_unproved() {
    program=$unproved/program
    is_fresh "$program" src || build_unproved
    is_made=$(sum_of "$top" apa_c src)
    [ "$is_made" = "$(cat "$kept/unproved-library/sum" 2>/dev/null)" ] ||
        { "$top/c/unproved" "$kept/unproved-library" && echo "$is_made" >"$kept/unproved-library/sum"; } || fail 'the library was not built'
    built_program=out/unproved/program built_library=out/unproved-library
}

# The agent over this library, in a folder of its own.
build_agent() {
    make -s -C "$top/c/agent" out="$folder/agent" LIBRARY="$top/$built_library/libapa.a" BPFFLAGS="-ffile-prefix-map=$top/=" \
        CFLAGS="-O2 -fPIE -fstack-protector-strong -D_FORTIFY_SOURCE=2 -ffile-prefix-map=$top/=" \
        LDFLAGS='-pie -Wl,-z,relro -Wl,-z,now -Wl,--build-id=none -s' >"$folder/make.log" 2>&1 || {
        tail -n 20 "$folder/make.log" >&2
        fail 'nothing is packed: the agent was not built'
    }
}

# put_tree PREFIX: all that is installed, under $folder/tree.
put_tree() {
    { rm -rf -- "$folder/tree" && mkdir -- "$folder/tree" && true >"$folder/folders" && true >"$folder/list"; } || return
    place=/usr/bin prefix=$folder/tree$1 source=$top in_bin=bin/
    mkdir -p -- "$prefix/bin" && { print_files && print_agent "$folder/agent"; } | put_all && put_own && put_modes || return
    print_copyright >"$prefix/share/doc/apa/copyright"
}

# list_tree LINE: the list, for install from this copy. Of a package a line says that it is dpkg's.
list_tree() {
    {
        echo "apa $number"
        [ -z "$1" ] || echo "$1"
        [ -n "$1" ] || find "$prefix" -type d -printf 'folder %P\n' | sed 's/ $/ ./' | LC_ALL=C sort
        find "$prefix" -type f ! -path '*/apa/installed' -printf 'file %m %P\n' | LC_ALL=C sort -k 3
        find "$prefix" -type l -printf 'link %l %P\n' | LC_ALL=C sort -k 3
    } >"$folder/installed" && cp -- "$folder/installed" "$prefix/share/apa/installed"
}

print_copyright() {
    cat <<END
Format: https://www.debian.org/doc/packaging-manuals/copyright-format/1.0/
Upstream-Name: apa
Comment: No licence has been chosen. Until one is, nobody is given a right to copy, change or pass on this work.
 The program has parts of the standard library of the Rattle kit and of its ported crates, whose licences are theirs.

Files: *
Copyright: $(date -u -d "@$SOURCE_DATE_EPOCH" +%Y) $(git -C "$top" log -1 --format=%an)
License: none
 No licence has been chosen.
END
}

# print_manifest NAME: what this is, what of it is proved, and a checksum of each file but this one, under the folder that has it all.
print_manifest() {
    kit=$(cat "$proved.kit" 2>/dev/null || rt version)
    cat <<END
$name $number, $([ "$name" = apa ] && echo proved || echo 'NOT PROVED: a build without proofs, for tests of the packing')
commit $commit
kit ${kit%% *}
logic ${kit##* }

END
    if [ "$name" = apa ]; then
        cat <<END
proved: libexec/apa/apa-program, each function by its contract, by rt ci of this kit; README.md has the theorem
proved: the objects of lib/libapa.a and lib/libapa.so.$number: the contracts of what include/apa.h declares; the linker made the second
sources of the program: $(sum_of "$top" schedule_program src specs proofs)
sources of the library: $(sum_of "$top" apa_c src specs proofs)
END
    else
        echo 'proved: nothing'
    fi
    cat <<END
tested alone: bin/apa, share/apa, bin/apa-agent, libexec/apa/apa-record, apa.py, and what include/apa.h has in C
trusted: the kit, the C library, the linker, the kernel; docs/TRUST.md says what of which
The sums, in the folder that has bin: grep -E '^[0-9a-f]{64} ' share/doc/$1/MANIFEST | sha256sum -c

END
    (cd -- "$prefix" && find . -type f ! -name MANIFEST -printf '%P\0' | LC_ALL=C sort -z | xargs -0 sha256sum)
}

put_manifest() {
    print_manifest "$1" >"$folder/MANIFEST" && cp -- "$folder/MANIFEST" "$prefix/share/doc/$1/MANIFEST"
}

# All times are that of the commit.
set_times() {
    find "$folder/tree" -print0 | xargs -0 touch -h -d "@$SOURCE_DATE_EPOCH" --
}

pack_tar() {
    whole=$name-$number-linux-x86_64
    put_tree "/$whole" && true >"$prefix/share/doc/apa/MANIFEST" && list_tree '' && put_manifest apa && set_times &&
        tar -C "$folder/tree" --sort=name --owner=0 --group=0 --numeric-owner --format=gnu -cf - "$whole" | gzip -n9 >"$folder/$whole.tar.gz" &&
        mv -f -- "$folder/$whole.tar.gz" "$packed/" || fail "cannot write to $packed"
    tell "apa: $packed/$whole.tar.gz"
}

pack_deb() {
    whole=${name}_${number}_amd64
    put_tree /usr && lay_out_for_debian && true >"$prefix/share/doc/$name/MANIFEST" && list_tree "of dpkg: $name" && put_manifest "$name" &&
        print_control && set_times && dpkg-deb --root-owner-group -Zgzip -z9 -b "$folder/tree" "$folder/$whole.deb" >/dev/null &&
        mv -f -- "$folder/$whole.deb" "$packed/" || fail "cannot write to $packed"
    tell "apa: $packed/$whole.deb"
}

# Packed pages and changes, and zsh's folder, as packages of Debian have them.
lay_out_for_debian() {
    { mv -- "$prefix/share/zsh/site-functions" "$prefix/share/zsh/vendor-completions" &&
        find "$prefix/share/man" -type f -exec gzip -n9 -- {} + &&
        print_changes | gzip -n9 >"$prefix/share/doc/apa/changelog.gz" &&
        mkdir -p -- "$prefix/share/lintian/overrides" && cp -- "$top/tools/lintian.txt" "$prefix/share/lintian/overrides/$name"; } || return
    [ "$name" = apa ] || mv -- "$prefix/share/doc/apa" "$prefix/share/doc/$name"
}

maintainer() {
    git -C "$top" log -1 --format='%an <%ae>'
}

print_changes() {
    echo "$name ($number) unstable; urgency=medium"
    echo
    echo '  * What changed is in CHANGELOG.md, beside this file.'
    echo
    echo " -- $(maintainer)  $(LC_ALL=C date -u -R -d "@$SOURCE_DATE_EPOCH")"
}

print_control() {
    { mkdir -p -- "$folder/tree/DEBIAN" "$folder/shlibs/debian" && echo 'Source: apa' >"$folder/shlibs/debian/control"; } || return
    needs=$(cd -- "$folder/shlibs" && dpkg-shlibdeps -O "$prefix"/bin/apa-agent "$prefix"/libexec/apa/apa-record "$prefix"/libexec/apa/apa-program \
        "$prefix/lib/libapa.so.$number" 2>"$folder/shlibs/log" | sed 's/^shlibs:Depends=//') || return
    [ -n "$needs" ] || { cat "$folder/shlibs/log" >&2; return 1; }
    {
        echo "Package: $name
Version: $number
Architecture: amd64
Maintainer: $(maintainer)
Installed-Size: $(find "$prefix" -type f -printf '%s\n' | awk '{ sum += int(($1 + 1023) / 1024) } END { print sum }')
Depends: $needs
Suggests: pkg-config, python3, trace-cmd"
        [ "$name" = apa ] || echo 'Conflicts: apa'
        print_description
    } >"$folder/tree/DEBIAN/control"
    echo "libapa ${number%.*} $name (>= $number)" >"$folder/tree/DEBIAN/shlibs"
    echo 'activate-noawait ldconfig' >"$folder/tree/DEBIAN/triggers"
    print_script 'py3compile -p' >"$folder/tree/DEBIAN/postinst"
    print_script 'py3clean -p' >"$folder/tree/DEBIAN/prerm"
    # The agent's lock stays where it ran; where its state stands it runs, or was killed.
    printf '#!/bin/sh\nset -e\n[ -e /run/apa-agent.state ] || rm -f /run/apa-agent.lock\n' >"$folder/tree/DEBIAN/postrm"
    chmod 755 "$folder/tree/DEBIAN/postinst" "$folder/tree/DEBIAN/prerm" "$folder/tree/DEBIAN/postrm"
    (cd -- "$folder/tree" && find usr -type f -print0 | LC_ALL=C sort -z | xargs -0 md5sum) >"$folder/tree/DEBIAN/md5sums"
}

print_description() {
    cat <<END
Section: utils
Priority: optional
Description: $([ "$name" = apa ] || echo 'NOT PROVED: ')strong APA schedules of pinned real-time tasks
 Reads a trace of Linux, and says for how long a task waited that could have
 run, had others moved aside, and what its response would have been. Computes
 schedules in which running tasks move aside so that a more urgent one can
 run, checks anybody's, and moves the threads of a stock Linux so.
 .
 MANIFEST among the documents says what of this is proved.
END
}

# A script of the package: the module for Python is compiled where Python is, and what was compiled goes.
print_script() {
    printf '#!/bin/sh\nset -e\nif command -v %s >/dev/null; then %s %s; fi\n' "${1% *}" "$1" "$name"
}
