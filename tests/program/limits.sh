#!/usr/bin/env bash
# Tries the limits of files: tests/program/limits.sh PROGRAM. It gives the program files of just their greatest length and of a
# byte more, and saves a file past the limit that the system sets to a process's files. It saves over files that were
# loaded or saved, through links, onto a full disk and into a closed folder. Rows are printed, or dropped, in less memory than
# their text takes. The long files take no room on the disk. BOOK takes a gigabyte of memory for two seconds.
. "$(dirname "$0")/../asserts.sh"
program=$(readlink -f "$1")
cd "$work" || exit 1
cp "$top/examples/counter.elf" ELF
few=(record --seed 1 --harts 2 --limit 2000)

# The program has to end with this status, and with this line on err; an empty LINE allows any.
answers() { # STATUS LINE WORD..
    runs "$1" "$program" "${@:3}"
    [ -z "$2" ] || says "$2"
}

what="the lengths of files"
answers 11 "" "${few[@]}" ELF LOG BOOK
truncate -s 67108864 ELF-most && truncate -s 67108865 ELF-long
answers 6 "bugnet: elf: NotElf" record --seed 1 ELF-most LOG2 BOOK2
answers 5 "bugnet: too long: ELF-long" record --seed 1 ELF-long LOG2 BOOK2
truncate -s 272629760 LOG-most && truncate -s 272629761 LOG-long
answers 7 "bugnet: log: BadMagic" check LOG-most
answers 5 "bugnet: too long: LOG-long" check LOG-long
answers 5 "bugnet: too long: LOG-long" races LOG-long ELF 1
answers 5 "bugnet: too long: LOG-long" slice LOG-long ELF 0 0 0
answers 5 "bugnet: too long: LOG-long" salvage LOG-long NEW
truncate -s 1073741824 BOOK-most && truncate -s 1073741825 BOOK-long
answers 17 "" audit LOG ELF BOOK-most
answers 5 "bugnet: too long: BOOK-long" audit LOG ELF BOOK-long
truncate -s 16777216 INPUT-most && truncate -s 16777217 INPUT-long
answers 11 "" "${few[@]}" --input INPUT-most ELF LOG2 BOOK2
answers 5 "bugnet: too long: INPUT-long" record --seed 1 --input INPUT-long ELF LOG3 BOOK3
if [ -r /proc/self/limits ]; then
    # (the program alone has the limit: what this script prints may go into a file that is longer already)
    limited() { (ulimit -S -f 1 && exec "$program" "$@"); }
    runs 3 limited "${few[@]}" ELF LOG3 BOOK3
    says "bugnet: store failed: LOG3"
    runs 3 limited convert LOG NEW
    says "bugnet: store failed: NEW"
    # a file that is there has the limit too; a pipe and a device have none
    cp LOG there
    runs 3 limited "${few[@]}" --lean ELF there BOOK3
    says "bugnet: store failed: there"
    equals LOG there
    runs 11 limited "${few[@]}" --lean ELF /dev/null BOOK3
    mkfifo pipe
    cat pipe >through &
    runs 11 limited "${few[@]}" --lean ELF pipe BOOK3
    wait
    equals LOG through
fi
for name in LOG3 BOOK3 NEW; do
    [ ! -e $name ] || fails "$name was begun"
done

what="rows don't wait in memory"
# (the rows of each command have more bytes than it has for all)
cp "$top/examples/sort.elf" SORT
answers 11 "" record --seed 1 --limit 200000 --interval 200000 SORT ROWS TURNS
bounded() { (ulimit -v 12000 && exec "$program" "$@"); }
for words in "joint ROWS SORT" "replay ROWS SORT 0 0" "demo 7"; do
    # shellcheck disable=SC2086 # its words
    runs 0 bounded $words
    [[ $words == demo* || $(wc -c <out) -gt 10000000 ]] || fails "'$words' prints $(wc -c <out) bytes"
done

what="a file that was loaded stays as it is, whatever name leads to it"
echo input >INPUT && mkdir IN && ln -s ../ELF IN/SOFT && ln ELF HARD
sha256sum ELF INPUT LOG >before
for name in ELF ./ELF IN/../ELF "$work/ELF" IN/SOFT HARD INPUT ./INPUT; do
    answers 3 "bugnet: store failed: $name" "${few[@]}" --input INPUT ELF "$name" BOOK3
done
answers 3 "bugnet: store failed: IN/SOFT" "${few[@]}" ELF LOG3 IN/SOFT
answers 3 "bugnet: store failed: ./LOG" convert LOG ./LOG
runs 0 sha256sum -c before

# A regular file that can be read, on another device than a new one, and with that one's number; sets `twin` and `new`.
find_twin() {
    local number
    for number in {1..60}; do
        new=$shared/$number && echo old >"$new" || return 1
        twin=$(find /sys/devices /sys/module -xdev -type f -perm -444 -inum "$(stat -c %i "$new")" -print -quit 2>/dev/null)
        [ -n "$twin" ] && head -c 1 "$twin" >/dev/null 2>&1 && return 0
    done
    return 1
}

what="a file that was loaded is known by its device too: another one with its number is replaced"
if shared=$(mktemp -d -p /dev/shm 2>/dev/null); then
    trap 'rm -rf "$work" "$shared"' EXIT
    if find_twin; then
        answers 11 "" "${few[@]}" --input "$twin" ELF "$new" BOOK3
        equals LOG "$new"
    else
        skips "no file below /sys has the number of one in /dev/shm"
    fi
    rm -rf "$shared"
else
    skips "there is no /dev/shm"
fi

what="LOG and BOOK are never one file, whatever names lead to it: LOG stands"
answers 11 "" "${few[@]}" ELF plain BOOK
ln -s fresh SOFTER && echo old >linked && ln linked HARDER
for names in "LOG5 ./LOG5" "fresh SOFTER" "linked HARDER"; do
    answers 3 "bugnet: store failed: ${names#* }" "${few[@]}" ELF ${names% *} "${names#* }"
    equals plain "${names% *}"
done

what="a save changes the bytes alone: a link stays, and so does what others may do with the file"
echo old >kept && chmod 640 kept && ln -s kept link
answers 11 "" "${few[@]}" ELF link BOOK
[ -L link ] || fails "it is no link"
[ "$(stat -c %a kept)" = 640 ] || fails "the mode is another"
equals plain kept
[ linked -ef HARDER ] || fails "the other name of a file leads to another one"

what="nobody can take the names of all files beside, and nothing is left there"
mkdir crowd && for number in {0..999}; do : >"crowd/.zelkuma-save-$number"; done
for _ in 1 2; do
    answers 11 "" "${few[@]}" ELF crowd/LOG BOOK
done
[ "$(find crowd -type f | wc -l)" = 1001 ] || fails "a file is left"

what="a pipe that a link of /proc leads to isn't replaced"
"$program" "${few[@]}" ELF /dev/fd/3 BOOK 3>&1 >/dev/null 2>&1 | cat >piped
equals plain piped

# A save that finds no room leaves what was there, on a file system of 64 KiB. A file that is mounted alone can't be
# replaced, and is written in place.
mkdir full other && touch mounted
in_full='mount -t tmpfs -o size=64k full full && cp plain full/LOG && head -c 40000 /dev/zero >full/rest &&
    { "$0" record --seed 1 --harts 2 --limit 20000 ELF full/LOG BOOK 2>err || true; } &&
    cmp plain full/LOG && [ "$(ls -A full | wc -l)" = 2 ] && [ "$(cat err)" = "bugnet: store failed: full/LOG" ]'
in_place='mount -t tmpfs other other && echo old >other/file && mount --bind other/file mounted &&
    { "$0" record --seed 1 --harts 2 --limit 2000 ELF mounted BOOK 2>err || true; } && cmp plain other/file'
# On the same device a file that is mounted alone shows only when it is to be replaced. In a folder that is mounted to be
# read alone one may be written to.
same_device='echo old >source && touch target && mount --bind source target &&
    { "$0" record --seed 1 --harts 2 --limit 2000 ELF target BOOK 2>err || true; } && cmp plain source && [ -z "$(find . -maxdepth 1 -name ".zelkuma-save-*")" ]'
read_only='mount -t tmpfs other other && touch other/LOG && echo old >apart && mount --bind apart other/LOG && mount -o remount,bind,ro other &&
    { "$0" record --seed 1 --harts 2 --limit 2000 ELF other/LOG BOOK 2>err || true; } && cmp plain apart'
# The file beside may be read by its owner alone, until it is whole. Without /proc the program meets the limit of the system,
# which ends it in the middle of the save.
beside='mount -t tmpfs other other && cp ELF plain other && cd other && chmod 644 plain && mount -t tmpfs proc /proc &&
    { (ulimit -S -f 1 && exec "$0" record --seed 1 --harts 2 --limit 2000 ELF plain BOOK 2>err); [ $? -gt 128 ]; } && [ "$(stat -c %a .zelkuma-save-*)" = 600 ] && cmp plain ../plain'
if unshare -rm true 2>/dev/null; then
    for what in in_full in_place same_device read_only beside; do
        runs 0 unshare -rm bash -c "${!what}" "$program"
    done
else
    skips "a full disk, mounted files, the file beside: unshare isn't here, or isn't permitted"
fi

what="a folder that takes no new file: the file is written in place" # (the superuser has no such folder)
mkdir closed && echo old >closed/LOG && chmod 666 closed/LOG && chmod 555 closed
nobody=()
[ "$(id -u)" != 0 ] || nobody=(setpriv --reuid 65534 --regid 65534 --clear-groups)
chmod 755 . && cp "$program" ./program
if "${nobody[@]}" ./program list plain >/dev/null 2>&1; then
    runs 11 "${nobody[@]}" ./program "${few[@]}" ELF closed/LOG /dev/null
    equals plain closed/LOG
    if [ ${#nobody[@]} -gt 0 ]; then
        what="a file of another user is written in place"
        echo old >owned && chmod 666 owned && ln owned same && chmod 777 .
        runs 11 "${nobody[@]}" ./program "${few[@]}" ELF owned /dev/null
        equals plain same
    else
        skips "a file of another user: only root can make it"
    fi
else
    skips "a closed folder: there is no setpriv"
fi
chmod 755 closed
end
