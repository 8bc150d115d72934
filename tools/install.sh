# Installs zelkuma for its users, and takes it away again: the words install and uninstall of the script zelkuma, which
# has set `top`, `program`, `installed` and `stop`. debian/rules lays by it what a package has.
#
# Under PREFIX the first file that is laid is a list of all others, and it is the last that goes. What stands under such a name and
# isn't in the list is somebody else's. Each file is laid beside its name, and renamed. While lib/zelkuma/unfinished is there,
# the script says so and does nothing else; it comes first, so no other version's script meets files of this one.
. "$top/tools/version.sh"

script=bin/zelkuma manual=share/man/man1/zelkuma.1 completion=share/bash-completion/completions/zelkuma
list=lib/zelkuma/laid.txt mark=lib/zelkuma/unfinished new=.zelkuma-new

# Lays a file by its name under a folder.
lay_file() { # PREFIX NAME MODE FILE
    install -D -m "$3" -- "$4" "$1/$2$new" && mv -f -- "$1/$2$new" "$1/$2"
}

# The same of a text, which is the input.
lay_text() { # PREFIX NAME
    mkdir -p -- "$(dirname -- "$1/$2")" && cat >"$1/$2$new" && mv -f -- "$1/$2$new" "$1/$2"
}

# The names of all that is laid.
names() {
    local name
    printf '%s\n' "$script" lib/zelkuma/zelkuma
    while IFS= read -r name; do
        printf '%s\n' "lib/zelkuma/$name"
    done <"$top/tools/files.txt"
    ! type -P python3 >/dev/null || printf '%s\n' "$manual" "$completion"
}

# Lays the program and what belongs to it under a folder.
lay() ( # PREFIX PROGRAM
    umask 022
    lay_file "$1" "$script" 755 "$top/zelkuma" || exit
    while IFS= read -r name; do
        lay_file "$1" "lib/zelkuma/$name" 644 "$top/$name" || exit
    done <"$top/tools/files.txt"
    commit_of_tree | lay_text "$1" lib/zelkuma/release/COMMIT && lay_help "$1" && lay_file "$1" lib/zelkuma/zelkuma 755 "$2"
)

# Lays the manual page and the completion of words, which are made by it.
lay_help() ( # PREFIX
    type -P python3 >/dev/null || { say "note: python3 isn't here, which makes the manual page and the completion of words" && exit; }
    made=$(mktemp -d) && trap 'rm -rf -- "$made"' EXIT && python3 -B "$top/tools/help/make.py" --under "$made" &&
        lay_file "$1" "$manual" 644 "$made/$manual" && lay_file "$1" "$completion" 644 "$made/$completion"
)

# Prints the names of what was laid. Versions without the list had all below lib/zelkuma but what a user had put there.
laid() { # PREFIX
    local name
    if [ -f "$1/$list" ]; then
        grep -E "^(lib/zelkuma/.+|$script|$manual|$completion)\$" "$1/$list" | grep -vE '(^|/)\.\.(/|$)'
    elif cd -- "$1/lib/zelkuma" 2>/dev/null; then
        { cat tools/files.txt || find companion tools -type f; cat "$top/tools/files.txt" && echo zelkuma; } 2>/dev/null |
            grep -vE '^/|(^|/)\.\.(/|$)' | while IFS= read -r name; do
            [ ! -e "$name" ] || printf '%s\n' "lib/zelkuma/$name"
        done
        [ ! -e "../../$script" ] || echo "$script"
        for name in "$manual" "$completion"; do
            ! grep -qF 'Made by tools/help/make.py.' "../../$name" 2>/dev/null || echo "$name"
        done
    fi
}

# Removes files by their names, and the folders of lib/zelkuma that are empty then.
remove() ( # PREFIX NAME..
    cd -- "$1" || exit
    for name in "${@:2}"; do
        [ -L "$name" ] || rm -f -- "$name" "$name$new" || exit
    done
    [ ! -d lib/zelkuma ] || find lib/zelkuma -depth -type d -empty -delete
)

# The folder of an installation; sets `prefix`, and `ours`, the names of what was laid there.
check_prefix() { # WORD PREFIX
    local file
    [[ $# -eq 2 && -n $2 ]] || stop 2 "$1 takes one word, the folder PREFIX"
    prefix=$2
    [[ $prefix == /* ]] || prefix=./$prefix
    [[ ! -e $prefix || -d $prefix ]] || stop 3 "$1: ${2@Q} is no folder"
    [ ! -e "$prefix/lib/zelkuma/crates.txt" ] || stop 2 "$1: ${2@Q}/lib/zelkuma has the sources of zelkuma, and no installation"
    ! is_packaged "$prefix" || stop 2 "$1: dpkg laid what is under ${2@Q}: 'apt remove zelkuma' takes it away"
    check_script "$1" "$prefix/$script"
    check_links "$1" "$prefix/lib/zelkuma"
    while IFS= read -r file; do
        [ -z "$file" ] || ours[$file]=1
    done <<<"$(laid "$prefix")"
}

is_packaged() { dpkg-query --search "$(readlink -f -- "$1/$script")" >/dev/null 2>&1; } # PREFIX

# Stops if another file has the script's name.
check_script() { # WORD FILE
    [[ ! -e $2 && ! -L $2 ]] || { [[ -f $2 && ! -L $2 ]] && grep -qe ZELKUMA_PROGRAM -- "$2"; } ||
        stop 2 "$1: ${2@Q} isn't zelkuma's script; remove it first"
}

# Stops if a link could lead out of the installation, which has none.
check_links() { # WORD FOLDER
    local link
    [[ ! -e $2 && ! -L $2 ]] || link=$(find "$2" -type l -print -quit)
    [ -z "${link-}" ] || stop 2 "$1: ${link@Q} is a link, which install didn't lay; remove it first"
}

# Stops if the program isn't the one that was shipped. One that ZELKUMA_PROGRAM names is the user's own.
check_program() {
    [ -n "${ZELKUMA_PROGRAM-}" ] || (cd -- "$top/release" && sha256sum --check --status SHA256SUMS 2>/dev/null) ||
        stop 1 "install: release/SHA256SUMS isn't of the program ${program@Q}: it was changed, or isn't whole"
}

install_under() { # PREFIX
    local prefix file stale=()
    local -A ours=() wanted=()
    check_prefix install "$@"
    [ -z "$installed" ] || stop 2 "install: this zelkuma is installed; copy its bin/zelkuma, lib/zelkuma and share"
    [[ -d $prefix || $prefix == */ || -d $(dirname -- "$prefix") ]] ||
        stop 3 "install: there is no folder $(dirname -- "$1"), and a PREFIX that ends in / would make it"
    check_program
    while IFS= read -r file; do
        wanted[$file]=1
        [[ -n ${ours[$file]-} && ! -L $prefix/$file ]] || [[ ! -e $prefix/$file && ! -L $prefix/$file ]] ||
            stop 2 "install: ${1@Q}/$file isn't zelkuma's; remove it first"
    done <<<"$(names)"
    for file in "${!ours[@]}"; do
        [ -n "${wanted[$file]-}" ] || stale+=("$file")
    done
    printf '%s\n' "${!wanted[@]}" "${stale[@]}" | lay_text "$prefix" "$list" && lay_text "$prefix" "$mark" </dev/null &&
        lay "$prefix" "$program" && remove "$prefix" "${stale[@]}" &&
        printf '%s\n' "${!wanted[@]}" | lay_text "$prefix" "$list" && rm -f -- "$prefix/$mark" ||
        stop 3 "install: not all could be laid under ${1@Q}; call it again, or 'zelkuma uninstall PREFIX'"
    for file in "$script" lib/zelkuma "$manual" "$completion"; do
        [[ ! -e $prefix/$file || ($file == share/* && -z ${wanted[$file]-}) ]] || printf '%s\n' "${prefix%/}/$file"
    done
}

uninstall_from() { # PREFIX
    local prefix file removed=()
    local -A ours=()
    check_prefix uninstall "$@"
    [[ ${#ours[@]} -gt 0 || -f $prefix/$list || -f $prefix/$list$new ]] || stop 3 "uninstall: there is no zelkuma under ${1@Q}"
    for file in "$script" "$manual" "$completion"; do
        [[ ! -e $prefix/$file || -z ${ours[$file]-} ]] || removed+=("$file")
    done
    remove "$prefix" "$script" "${!ours[@]}" && remove "$prefix" "$mark" "$list" ||
        stop 3 "uninstall: not all could be removed from ${1@Q}; call it again"
    [ -e "$prefix/lib/zelkuma" ] || removed+=(lib/zelkuma)
    printf "%s\n" "${removed[@]/#/${prefix%/}/}"
    [ ! -e "$prefix/lib/zelkuma" ] || say "uninstall: ${1@Q}/lib/zelkuma stays: it has files that install didn't lay"
}
