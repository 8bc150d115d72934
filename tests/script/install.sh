#!/usr/bin/env bash
# Tries what `zelkuma install` lays under a folder and `zelkuma uninstall` takes away, and the package of it: from anywhere,
# moved, linked to and installed by dpkg. The companions here only seem to be some. It takes some seconds.
#
# tests/script/install.sh PROGRAM
. "$(dirname "$0")/../asserts.sh"
program=$(readlink -f -- "${1:?the words are PROGRAM}")
elf=$top/examples/wild_store.elf
python=$(type -P python3) || skips "calls of companions: python3 isn't here"
unset PYTHONDONTWRITEBYTECODE PYTHONPYCACHEPREFIX # python writes beside modules what it compiles, unless the script says otherwise

# Sources of which to lay: with a companion that tells how it was called, and with what isn't to be laid.
sources=$work/sources
mkdir -p "$sources/release" "$sources/companion/__pycache__"
cp -r "$top/"{zelkuma,crates.txt,tools,companion,python} "$sources"
mkdir "$sources/examples"
cp -r "$top/examples/"{bare,lib,picolibc} "$sources/examples"
cp "$top/VERSION" "$sources"
cp "$top/release/STAMP" "$sources/release"
echo '$Format:%H$' >"$sources/release/COMMIT" # as in a checkout; an exported tree has the commit there
cp "$program" "$sources/release/zelkuma-x86_64-linux"
(cd "$sources/release" && sha256sum zelkuma-x86_64-linux >SHA256SUMS)
echo 'import os, sys; print(os.environ["ZELKUMA_PROGRAM"], *sys.argv[1:]); sys.exit(5)' >"$sources/companion/__main__.py"
touch "$sources/companion/__pycache__/stale.pyc" "$sources/companion/stray.py" "$sources/tools/launcher/"{stray.sh,.run.sh.swp}
# The same with a tenth of the files, for what doesn't depend on how many there are.
small=$work/small
cp -r "$sources" "$small"
grep -E '^(VERSION|release/|tools/|companion/__)' "$sources/tools/files.txt" >"$small/tools/files.txt"

# A toolchain that must never be called.
mkdir "$work/bin"
printf '#!/bin/sh\necho called >>"%s"\nexit 1\n' "$work/called" >"$work/bin/rt"
chmod +x "$work/bin/rt"
export PATH=$work/bin:$PATH

"$program" record --seed 1 --format 2 "$elf" "$work/LOG" "$work/BOOK" >"$work/said" 2>&1
"$program" list "$work/LOG" >"$work/list"

# Tries an installed script: its program, its companions and what it refuses.
works() { # SCRIPT PROGRAM
    runs 0 "$1" list "$work/LOG"
    equals "$work/list" "$work/out"
    runs 10 "$1" record --seed 1 --format 2 "$elf" "$work/LOG2" "$work/BOOK2"
    equals "$work/LOG" "$work/LOG2"
    runs 0 "$1" replay "$work/LOG2" "$elf" 0 2
    has out "0 22675 000100d0 0005c783 lbu a5,0(a1) | fault LoadOutside 6e657472"
    runs 0 "$1" help
    equals "$work/out" "$top/tools/help/page.txt"
    runs 2 "$1" list
    runs 2 "$1" build
    has err "build: this zelkuma is installed"
    [ -n "$python" ] || return
    runs 5 "$1" why "a LOG" ELF
    echo "$2 why a LOG ELF" >"$work/wanted"
    equals "$work/wanted" "$work/out"
}

# What stands under a folder, with modes and times.
everything() { find "$1" -printf '%p %m %s %t\n' | LC_ALL=C sort; }

# The files under a folder.
files_in() { (cd "$1" && find . ! -type d -printf '%P\n' | LC_ALL=C sort); }

# What install lays under a folder, a line each; the last two are made by python3.
manual=share/man/man1/zelkuma.1 completion=share/bash-completion/completions/zelkuma
laid_under() { printf '%s\n' "$1"/{bin/zelkuma,lib/zelkuma} ${python:+"$1/$manual" "$1/$completion"}; }

# The companions that are told.
companions() (
    . "$top/tools/help/words.sh"
    tr -s ' ' '\n' <<<"$companions" | grep .
)

what="a folder"
prefix="$work/a & prefix"
runs 0 "$sources/zelkuma" install "$prefix"
laid_under "$prefix" >"$work/wanted"
equals "$work/wanted" "$work/out"
works "$prefix/bin/zelkuma" "$prefix/lib/zelkuma/zelkuma"
if [ -n "$python" ]; then
    "$top/tools/help/make.py" --under "$work/made"
    equals "$work/made/$manual" "$prefix/$manual"
    equals "$work/made/$completion" "$prefix/$completion"
fi
{ cat "$top/tools/files.txt" && echo laid.txt && echo zelkuma; } | LC_ALL=C sort >"$work/wanted"
files_in "$prefix/lib/zelkuma" >"$work/files"
equals "$work/wanted" "$work/files"
[ "$(find "$prefix" -type f -perm 755 -printf '%P\n' | sort | xargs)" = "bin/zelkuma lib/zelkuma/zelkuma" ] ||
    fails "other files than these two can be run"
[ -z "$(find "$prefix" -type f ! -perm 755 ! -perm 644)" ] || fails "a file has another mode"
runs 0 "$prefix/bin/zelkuma" --version
has out "zelkuma $(<"$top/VERSION")"
has out "program $(sha256sum <"$program" | cut -d ' ' -f 1) $prefix/lib/zelkuma/zelkuma"
has out "commit unknown"

# What python compiles for the many installations of the small tree is kept, which else is most of what they take.
export PYTHONPYCACHEPREFIX=$work/compiled
[ -z "$python" ] || "$python" "$small/tools/help/make.py" --under "$work/made-small"
runs 0 "$small/zelkuma" install "$work/small-one"
files_in "$work/small-one" >"$work/whole"
{ sed 's|^|lib/zelkuma/|' "$small/tools/files.txt" && printf '%s\n' lib/zelkuma/{laid.txt,zelkuma} bin/zelkuma \
    ${python:+"$manual" "$completion"}; } | LC_ALL=C sort >"$work/wanted"
equals "$work/wanted" "$work/whole"

what="folders that install makes, and those that it doesn't"
runs 3 "$small/zelkuma" install "$work/no/where"
has err "zelkuma: install: there is no folder $work/no, and a PREFIX that ends in / would make it"
[ ! -e "$work/no" ] || fails "a folder was made"
runs 0 "$small/zelkuma" install "$work/no/where/"
files_in "$work/no/where" >"$work/files"
equals "$work/whole" "$work/files"
cd "$work" || exit 1
runs 0 "$small/zelkuma" install -p
works ./-p/bin/zelkuma "$work/-p/lib/zelkuma/zelkuma"
runs 3 "$small/zelkuma" install "$work/list"
has err "is no folder"
for words in "" "a b"; do
    # shellcheck disable=SC2086
    runs 2 "$small/zelkuma" install $words
    has err "install takes one word, the folder PREFIX"
done
runs 2 "$small/zelkuma" install ""
mkdir -p "$work/checkout/lib"
cp -r "$sources" "$work/checkout/lib/zelkuma"
everything "$work/checkout" >"$work/before"
for word in install uninstall; do
    runs 2 "$small/zelkuma" $word "$work/checkout"
    has err "has the sources of zelkuma, and no installation"
done
everything "$work/checkout" >"$work/after"
equals "$work/before" "$work/after"

what="what an earlier version laid"
# (the first had no list, later ones had one of lib/zelkuma alone; a list also names what isn't its own)
for older in none tools/files.txt laid.txt; do
    list=$older older=$work/older-${older##*/}
    runs 0 "$small/zelkuma" install "$older"
    touch "$older/bin/other"
    (cd "$older/lib/zelkuma" && touch companion/gone.py tools/launcher/gone.sh mine)
    case $list in
    none) rm "$older/lib/zelkuma/"{laid.txt,tools/files.txt} ;;
    tools/files.txt)
        rm "$older/lib/zelkuma/laid.txt"
        printf '%s\n' companion/gone.py tools/launcher/gone.sh ../../bin/other "$older/bin/other" >>"$older/lib/zelkuma/$list"
        ;;
    *)
        printf '%s\n' lib/zelkuma/companion/gone.py lib/zelkuma/tools/launcher/gone.sh bin/other lib/zelkuma/../../bin/other \
            "$older/bin/other" >>"$older/lib/zelkuma/$list"
        ;;
    esac
    runs 0 "$small/zelkuma" install "$older"
    { cat "$work/whole" && echo bin/other && echo lib/zelkuma/mine; } | LC_ALL=C sort >"$work/more"
    files_in "$older" >"$work/files"
    equals "$work/more" "$work/files"
done

what="files of these names that aren't zelkuma's"
for name in ${python:+"$manual" "$completion"} lib/zelkuma/tools/doctor.sh; do
    for version in none older; do
        rm -rf "$work/taken"
        [ "$version" = none ] || runs 0 "$small/zelkuma" install "$work/taken"
        mkdir -p "$work/taken/${name%/*}"
        [ "$version" = none ] || sed -i "\\|^$name\$|d" "$work/taken/lib/zelkuma/laid.txt"
        [[ $version$name != nonelib/* ]] || : >"$work/taken/lib/zelkuma/laid.txt"
        echo mine >"$work/taken/$name"
        everything "$work/taken" >"$work/before"
        runs 2 "$small/zelkuma" install "$work/taken"
        says "zelkuma: install: '$work/taken'/$name isn't zelkuma's; remove it first"
        everything "$work/taken" >"$work/after"
        equals "$work/before" "$work/after"
        [ "$version" = none ] || runs 0 "$small/zelkuma" uninstall "$work/taken"
        [ "$(<"$work/taken/$name")" = mine ] || fails "uninstall took it"
    done
done

what="a program that was changed"
printf x >>"$small/release/zelkuma-x86_64-linux"
runs 1 "$small/zelkuma" install "$work/changed"
has err "zelkuma: install: release/SHA256SUMS isn't of the program"
[ ! -e "$work/changed" ] || fails "a folder was made"
runs 0 "$small/zelkuma" --version
[ "$(head -n 1 "$work/out")" = "zelkuma $(<"$top/VERSION") with another program than the shipped one" ] || fails "it doesn't say so first"
ZELKUMA_PROGRAM=$program runs 0 "$small/zelkuma" install "$work/changed"
runs 0 "$small/zelkuma" uninstall "$work/changed"
cp "$program" "$small/release/zelkuma-x86_64-linux"

what="an installation that is killed"
# Commands that kill their whole group at the call that is counted down to.
mkdir "$work/killers"
for name in install mv rm mkdir find; do
    printf '#!/bin/bash\nleft=$(<%q) && echo $((left - 1)) >%q\n[ "$left" -gt 0 ] || kill -KILL 0\nexec %q "$@"\n' \
        "$work/left" "$work/left" "$(type -P "$name")" >"$work/killers/$name"
done
chmod +x "$work/killers/"*
# Kills a call after N such commands: whether it had so many.
is_killed() { # N WORD..
    echo "$1" >"$work/left"
    { PATH=$work/killers:$PATH setsid -w "${@:2}" >"$work/out" 2>"$work/err" </dev/null; } 2>/dev/null
    [ "$(<"$work/left")" -lt 0 ]
}
files=$(wc -l <"$small/tools/files.txt") half=$work/half
for over in nothing older same; do
    # (two commands a file: the first of the list, the mark, the script; the last of the help, the program, what is to go)
    for moment in 0 1 2 3 4 6 $((RANDOM % (2 * files))) $((2 * files + 7)) $((2 * files + 12)) $((2 * files + 14)); do
        rm -rf "$half" && mkdir "$half"
        [ "$over" = nothing ] || cp -r "$work/small-one/." "$half"
        if [ "$over" = older ]; then
            echo older >"$half/lib/zelkuma/VERSION" && touch "$half/lib/zelkuma/companion/gone.py"
            echo lib/zelkuma/companion/gone.py >>"$half/lib/zelkuma/laid.txt"
        fi
        is_killed "$moment" "$small/zelkuma" install "$half" || continue
        if [[ -e $half/bin/zelkuma && ! -e $half/lib/zelkuma/unfinished ]]; then
            runs 0 "$half/bin/zelkuma" list "$work/LOG"
            equals "$work/list" "$work/out"
            [ "$(<"$half/lib/zelkuma/VERSION")" != older ] || [ -e "$half/lib/zelkuma/companion/gone.py" ] || fails "it is of two versions"
        elif [ -e "$half/bin/zelkuma" ]; then
            runs 1 "$half/bin/zelkuma" list "$work/LOG"
            says "zelkuma: this installation isn't finished: call 'zelkuma install PREFIX' again, or 'zelkuma uninstall PREFIX'"
        fi
        cp -r "$half" "$work/half2"
        runs 0 "$small/zelkuma" install "$half"
        files_in "$half" >"$work/files"
        equals "$work/whole" "$work/files"
        ! is_killed $((RANDOM % 9)) "$small/zelkuma" uninstall "$half" || runs 0 "$small/zelkuma" uninstall "$half"
        [ ! -e "$work/half2/lib/zelkuma" ] || runs 0 "$small/zelkuma" uninstall "$work/half2"
        [ -z "$(files_in "$half")$(files_in "$work/half2")" ] || fails "it left $(files_in "$half") $(files_in "$work/half2"), $moment over $over"
        rm -rf "$work/half2"
    done
done

what="a machine without Python, to which one with it has laid"
mkdir "$work/without"
ln -sf -t "$work/without" /bin/* /usr/bin/* && rm -f "$work/without/python"*
runs 0 "$small/zelkuma" install "$work/plain"
PATH=$work/without runs 0 "$small/zelkuma" install "$work/plain"
printf '%s\n' "$work/plain/"{bin,lib}/zelkuma >"$work/wanted"
equals "$work/wanted" "$work/out"
has err "zelkuma: note: python3 isn't here, which makes the manual page and the completion of words"
grep -vE '^share/' "$work/whole" >"$work/fewer"
files_in "$work/plain" >"$work/files"
equals "$work/fewer" "$work/files"

what="taking it away"
older=$work/older-none
runs 0 "$older/bin/zelkuma" uninstall "$older"
laid_under "$older" | grep -v /lib/zelkuma >"$work/wanted"
equals "$work/wanted" "$work/out"
has err "zelkuma: uninstall: '$older'/lib/zelkuma stays: it has files that install didn't lay"
[ "$(files_in "$older" | xargs)" = "bin/other lib/zelkuma/mine" ] || fails "it left $(files_in "$older" | xargs)"
runs 3 "$small/zelkuma" uninstall "$older"
has err "there is no zelkuma under"
POSIXLY_CORRECT=1 runs 0 "$small/zelkuma" uninstall "$work/no/where/"
[ ! -s "$work/err" ] || fails "it says something"
laid_under "$work/no/where" | sort >"$work/wanted"
sort "$work/out" >"$work/files"
equals "$work/wanted" "$work/files"
[ -z "$(files_in "$work/no")" ] && [ ! -e "$work/no/where/lib/zelkuma" ] || fails "it left $(files_in "$work/no")"
if unshare -rm true 2>/dev/null; then
    runs 0 "$small/zelkuma" install "$work/no/where"
    runs 0 unshare -rm bash -c 'mount -t tmpfs proc /proc && exec "$@"' bash "$small/zelkuma" uninstall "$work/no/where" # no /dev/fd
    [ ! -s "$work/err" ] || fails "it says something without /dev/fd"
    sort "$work/out" >"$work/files"
    equals "$work/wanted" "$work/files"
else
    skips "no /dev/fd: unshare isn't here, or isn't permitted"
fi
runs 3 "$small/zelkuma" uninstall "$work/nothing"
runs 2 "$small/zelkuma" uninstall

what="links, other files of these names, and what dpkg laid"
kept=$work/kept
mkdir -p "$kept" "$work/linked-to/companion" "$work/foreign/bin" "$work/link/bin" && touch "$work/linked-to/companion/why.py"
for link in lib/zelkuma lib/zelkuma/companion lib/zelkuma/tools/files.txt; do
    runs 0 "$small/zelkuma" install "$kept"
    mv "$kept/$link" "$work/moved-away"
    ln -s "$work/linked-to/companion" "$kept/$link"
    for word in install uninstall; do
        files_in "$work/linked-to" >"$work/wanted"
        files_in "$kept" >"$work/before"
        runs 2 "$small/zelkuma" $word "$kept"
        has err "zelkuma: $word: '$kept/$link' is a link, which install didn't lay; remove it first"
        files_in "$work/linked-to" >"$work/files"
        equals "$work/wanted" "$work/files"
        files_in "$kept" >"$work/after"
        equals "$work/before" "$work/after"
    done
    rm "$kept/$link" && mv "$work/moved-away" "$kept/$link"
done
echo mine >"$work/foreign/bin/zelkuma" && ln -s "$small/zelkuma" "$work/link/bin/zelkuma"
for other in foreign link; do
    cp -r "$kept/lib" "$work/$other"
    for word in install uninstall; do
        runs 2 "$small/zelkuma" $word "$work/$other"
        has err "zelkuma: $word: '$work/$other/bin/zelkuma' isn't zelkuma's script; remove it first"
    done
done
[ "$(<"$work/foreign/bin/zelkuma")" = mine ] && [ -L "$work/link/bin/zelkuma" ] || fails "another file is gone"
if type -P dpkg-query >/dev/null; then
    mkdir -p "$work/dpkg/info" "$work/dpkg/updates"
    printf '%s\n' "Package: zelkuma" "Status: install ok installed" "Architecture: all" "Version: 1" "Maintainer: none" \
        "Description: none" "" >"$work/dpkg/status"
    printf '/.\n%s\n' "$kept/bin/zelkuma" >"$work/dpkg/info/zelkuma.list"
    for word in install uninstall; do
        DPKG_ADMINDIR=$work/dpkg runs 2 "$small/zelkuma" $word "$kept"
        has err "zelkuma: $word: dpkg laid what is under '$kept': 'apt remove zelkuma' takes it away"
    done
    files_in "$kept" >"$work/files"
    equals "$work/whole" "$work/files"
else
    skips "what dpkg laid: dpkg-query isn't here"
fi

unset PYTHONPYCACHEPREFIX
what="every companion that is told"
for word in ${python:+$(companions)}; do
    runs 5 "$prefix/bin/zelkuma" "$word" x
    has out "zelkuma $word x"
done

what="the companions of the sources"
if [ -n "$python" ]; then
    runs 0 env ZELKUMA_PROGRAM="$program" "$top/zelkuma" install "$work/all"
    everything "$work/all" >"$work/before"
    for word in $(companions); do
        runs 0 "$work/all/bin/zelkuma" "$word" --help
        has out "zelkuma $word "
    done
    runs 0 "$work/all/bin/zelkuma" why "$work/LOG" "$elf"
    has out "LoadOutside 6e657472"
    runs 0 "$work/all/bin/zelkuma" view "$work/LOG" "$elf"
    has out "</html>"
    everything "$work/all" >"$work/after"
    equals "$work/before" "$work/after"
fi

what="a link, from another folder"
ln -s "$prefix/bin/zelkuma" "$work/bin/zelkuma"
ln -s ../bin/zelkuma "$work/bin/short"
cd / || exit 1
works short "$prefix/lib/zelkuma/zelkuma"
ln -s "$prefix/bin" "$work/linked"
works "$work/linked/zelkuma" "$prefix/lib/zelkuma/zelkuma"
cd "$work" || exit 1

what="the tree was moved, and isn't written to"
mv "$prefix" "$work/moved"
chmod -R a-w "$work/moved"
everything "$work/moved" >"$work/before"
works "$work/moved/bin/zelkuma" "$work/moved/lib/zelkuma/zelkuma"
everything "$work/moved" >"$work/after"
equals "$work/before" "$work/after"
chmod -R u+w "$work/moved"

what="installing from what is installed"
runs 2 "$work/moved/bin/zelkuma" install "$work/other"
has err "install: this zelkuma is installed"
[ ! -e "$work/other" ] || fails "a folder was made"

what="the script alone, and a companion without Python"
cp "$sources/zelkuma" "$work/alone"
runs 1 "$work/alone" list "$work/LOG"
has err "beside it are neither the sources"
mkdir "$work/few"
for name in bash readlink stat; do
    ln -s "$(type -P "$name")" "$work/few/$name"
done
PATH=$work/few runs 1 "$work/moved/bin/zelkuma" why LOG ELF
has err "why is a companion, and needs python3"
PATH=$work/few runs 0 "$work/moved/bin/zelkuma" list "$work/LOG"
PATH=$work/few runs 0 "$work/moved/bin/zelkuma" list --help
has out "zelkuma list LOG"

[ ! -e "$work/called" ] || fails "the toolchain was called"

what="a package"
if ! type -P dh >/dev/null || ! (cd "$top" && dpkg-checkbuilddeps) 2>/dev/null; then
    skips "the package: debhelper or build-essential isn't here"
    end
fi
# Builds the package of these sources, in a folder of their own: it lies beside them then.
packs() { # FOLDER UMASK
    mkdir -p "$work/$1"
    cp -r "$sources" "$work/$1/sources"
    cp -r "$top/"{README.md,CHANGELOG.md,SECURITY.md,CONTRIBUTING.md,LICENSE,docs,examples,debian} "$work/$1/sources"
    for place in bench/RESULTS.md bench/MUTANTS.md release/README.md tests/crashes/README.md tests/gdb_suite/base.txt; do
        install -D -m 644 "$top/$place" "$work/$1/sources/$place"
    done
    (cd "$work/$1/sources" && umask "$2" && dpkg-buildpackage -us -uc -b >"$work/out" 2>"$work/err") || fails "it isn't built"
}
packs one 022
packs other/place 077
package=$work/one/zelkuma_$(<"$top/VERSION")_amd64.deb
equals "$package" "$work/other/place/${package##*/}"
printf x >>"$work/one/sources/release/zelkuma-x86_64-linux"
runs 2 make -s -C "$work/one/sources" -f debian/rules override_dh_auto_install
has out "zelkuma-x86_64-linux: FAILED"
runs 0 dpkg-deb --field "$package" Package Version Architecture Depends Recommends
for line in "Package: zelkuma" "Version: $(<"$top/VERSION")" "Architecture: amd64" "Depends: libc6 (>= 2.34)" \
    "Recommends: python3 (>= 3.8), gdb-multiarch, binutils-riscv64-unknown-elf"; do
    has out "$line"
done
runs 0 dpkg-deb --contents "$package"
! grep -vE '^(d|-)rwxr-xr-x root/root |^-rw-r--r-- root/root |^lrwxrwxrwx root/root .* -> \.\./\.\./common-licenses/Apache-2\.0$' "$work/out" || fails "a mode or an owner is another"
for name in docs/GUIDE.md examples/launch.json examples/heap.elf README.md CHANGELOG.md; do
    has out "./usr/share/doc/zelkuma/$name"
done
root=$work/root
runs 0 dpkg-deb -x "$package" "$root"
while IFS=: read -r page link; do
    [ -e "$root/usr/share/doc/zelkuma/$(dirname "$page")/$link" ] || [ -L "$root/usr/share/doc/zelkuma/$(dirname "$page")/$link" ] ||
        fails "the link $link of $page leads nowhere"
done < <(cd "$root/usr/share/doc/zelkuma" && grep -roE --include='*.md' '\]\([^)#: ]+[)#]' . | sed 's/](//; s/[)#]$//')
works "$root/usr/bin/zelkuma" "$root/usr/lib/zelkuma/zelkuma"
equals "$program" "$root/usr/lib/zelkuma/zelkuma"
gzip -dc "$root/usr/$manual.gz" >"$work/page"
equals "$work/made/$manual" "$work/page"
if type -P man >/dev/null; then
    runs 0 man -M "$root/usr/share/man" -P cat zelkuma
    has out "record [OPTION..] ELF LOG BOOK"
fi

what="a package as Debian has them"
if type -P lintian >/dev/null; then
    runs 0 lintian --allow-root --fail-on error,warning,info "$package"
    [ ! -s "$work/out" ] || fails "lintian has something to say"
else
    skips "the package by lintian, which isn't here"
fi

what="a package that dpkg installs, and takes away"
if [ "$(id -u)" -eq 0 ]; then
    root=$work/installed
    mkdir -p "$root/var/lib/dpkg/info" "$root/var/lib/dpkg/updates"
    touch "$root/var/lib/dpkg/status"
    runs 0 dpkg --root="$root" --log=/dev/null --force-depends --install "$package"
    works "$root/usr/bin/zelkuma" "$root/usr/lib/zelkuma/zelkuma"
    runs 0 dpkg --root="$root" --log=/dev/null --verify zelkuma
    [ ! -s "$work/out" ] || fails "a file isn't that of the package"
    runs 0 dpkg --root="$root" --log=/dev/null --purge zelkuma
    [ -z "$(find "$root" -path '*zelkuma*')" ] || fails "it left $(find "$root" -path '*zelkuma*')"
else
    skips "dpkg --install: only root may"
fi
end
