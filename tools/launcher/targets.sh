# Looks before a command that saves whether its files can be saved, and whether they would take the place of one that
# isn't an older one: a recording saves only when the run is over. Read by run.sh, once words.sh has read the words.

# Sets `place`, which a file of this name has or would have, through a link too that leads to no file; `folder`, its folder.
find_place() { # NAME FILE
    place=$2
    [[ -e $2 || ! -L $2 ]] || place=$(readlink -f -- "$2") || stop 3 "$1 can't be saved: the link ${2@Q} leads nowhere"
    [[ $place == */* ]] || place=./$place
    folder=${place%/*}/
}

# Whether a file is of the kind that is saved, by its whole content: a log says the program, a list of turns the companions.
# Without python3 that is a file whose bytes are all below 16.
is_older() { # NAME FILE
    [ -s "$2" ] || return 0
    [ "$1" = BOOK ] || { "$program" check -- "$2"; return; }
    python3 -I -S -B "$top/companion/call/book_file.py" "$2" || { [ $? -ne 3 ] && type -P tr && ! tr -d '\0-\17' <"$2" | read -r -N 1; }
} &>/dev/null

# Gives a file that has extended attributes, as an access list, a further name until the call is over. The program can't see
# them, and would replace the file; one with further names it writes in place.
hold_attributes() { # FILE
    local kept file further
    kept=$(getfattr -m '^(user|system|trusted)[.]' -- "$1" ||
        python3 -I -S -c "import os; print(*('# ' + n for n in os.listxattr(os.sys.argv[1]) if n[:8] != 'security'))" "$1" || ls -dlL -- "$1")
    [[ $kept == "# "* || $kept == ??????????+* ]] || return 0
    file=$(readlink -f -- "$1")
    further=${file%/*}/.zelkuma-held-$$-${#held[@]}
    held+=("$further") && ln -- "$file" "$further" || : # a signal may come right after it
} 2>/dev/null

# Stops if a file that is there can't be written, or is one of those that would be missed.
check_old_target() { # NAME FILE
    [ ! -d "$2" ] || stop 3 "$1 can't be saved: ${2@Q} is a folder"
    [ -w "$2" ] || stop 3 "$1 can't be saved: ${2@Q} may not be written"
    [[ -f $2 || -p $2 || $2 -ef /dev/null ]] || stop 3 "$1 can't be saved: ${2@Q} is neither a file nor a pipe"
    [ -f "$2" ] || return 0
    [ ! "$2" -ef "${names[0]}" ] || stop 2 "$1 would destroy ${wanted[0]}: ${2@Q} and ${names[0]@Q} are one file"
    [[ -z ${values[input]-} || ! $2 -ef ${values[input]} ]] ||
        stop 2 "$1 would destroy the input: ${2@Q} and ${values[input]@Q} are one file"
    [[ -n ${values[seed]+given} || ${ZELKUMA_SCHEDULE-} != book:* || ! $2 -ef ${ZELKUMA_SCHEDULE#book:} ]] ||
        stop 2 "$1 would destroy ${2@Q}, whose turns ZELKUMA_SCHEDULE names"
    [[ $1 != BOOK || ! $2 -ef ${names[1]} ]] || stop 2 "BOOK would destroy LOG: ${2@Q} and ${names[1]@Q} are one file"
    read_head "$2"
    [[ $head != $'\x7fELF'* ]] || stop 2 "$1 would destroy ${2@Q}, which is an ELF file; the order is ${wanted[*]}"
    is_older "$1" "$2" || stop 2 "$1 would destroy ${2@Q}, which is no older $1; remove it first, or give another name"
    hold_attributes "$2"
}

# Whether the last part of a name has more bytes than a file's name can have.
is_long() { local LC_ALL=C name=${1##*/} && [ ${#name} -gt 255 ]; } # FILE

check_target() { # NAME FILE
    [ -n "$2" ] || stop 3 "$1 can't be saved: its name is empty"
    find_place "$1" "$2"
    [ ! -e "$place" ] || { check_old_target "$1" "$2" && return; }
    [ -d "$folder" ] || stop 3 "$1 can't be saved as ${2@Q}: there is no folder ${folder@Q}"
    [[ -w $folder && -x $folder ]] || stop 3 "$1 can't be saved as ${2@Q}: the folder ${folder@Q} can't be written to"
    ! is_long "$place" || stop 3 "$1 can't be saved: its name has more than 255 bytes"
}

# Stops if ZELKUMA_SCHEDULE names turns in no way that the program knows. With a seed it doesn't count.
check_schedule() {
    [[ ${words[0]} != record || -n ${values[seed]+given} || ${ZELKUMA_SCHEDULE:-book:} == book:* ]] ||
        { [[ $ZELKUMA_SCHEDULE == @(bursts|sleeper):* ]] && is_number "${ZELKUMA_SCHEDULE#*:}" 0 18446744073709551615; } ||
        stop 2 "ZELKUMA_SCHEDULE is bursts:NUMBER, sleeper:NUMBER or book:FILE, and not ${ZELKUMA_SCHEDULE@Q}"
}

# NEW, or LOG and BOOK, but for a lean recording, which saves no BOOK. Of equal names the program says it.
check_targets() {
    local place folder log log_folder
    [ "NEW ${names[0]}" = "${wanted[1]} ${names[1]}" ] || check_target "${wanted[1]}" "${names[1]}"
    [[ ${wanted[1]} == LOG && -z ${values[lean]+given} && ${names[1]} != "${names[2]}" ]] || return 0
    log=$place log_folder=$folder
    check_target BOOK "${names[2]}"
    [[ ! -e $log && ${log##*/} == "${place##*/}" && $log_folder -ef $folder ]] || return 0
    stop 2 "BOOK would destroy LOG: ${names[2]@Q} and ${names[1]@Q} are one file"
}

# Sets `unsaved` to the files beside the targets in which this user's saves are made.
list_unsaved() {
    local name file
    unsaved=()
    for name in "${names[@]:1}"; do
        [ ! -L "$name" ] || name=$(readlink -f -- "$name")
        [[ $name == */* ]] || name=./$name
        for file in "${name%/*}"/.zelkuma-save-*; do
            [ ! -O "$file" ] || unsaved+=("$file")
        done
    done
}

# Removes what the program had begun to save when a signal ended it: what wasn't there before, and no other save has open.
remove_unsaved() {
    local before=" ${unsaved[*]} " file open
    [ -d "/proc/$$/fd" ] && list_unsaved || return
    for file in "${unsaved[@]}"; do
        [[ $before != *" $file "* ]] || continue
        for open in /proc/[0-9]*/fd/*; do
            [[ ! $open -ef $file ]] || continue 2
        done
        rm -f -- "$file"
    done
}
