#!/usr/bin/env bash
# Tries what the script zelkuma does with the words of a call before the program runs, and its advice after it:
# tests/script/launcher.sh PROGRAM. It takes some seconds. Of the system the script has bash, stat, readlink and tr alone.
program=$(readlink -f "$1")
. "$(dirname "$0")/small_tree.sh"
only bash stat readlink tr
cp "$program" "$shipped"
mkdir -p "$tree/companion/call" && cp "$top/companion/call/book_file.py" "$tree/companion/call"
mkdir "$work/here" "$work/here/folder"
chmod -R a+rX "$work"
cd "$work/here" || exit 1
cp "$top/examples/counter.elf" ELF

err_is_terminal

# A recording is refused before it begins.
refuses() { # STATUS TEXT WORD..
    local wanted=$1 text=$2 before
    shift 2
    before=$(find . -type f -exec sha256sum {} + | sort)
    runs "$wanted" "$zelkuma" "$@"
    says "zelkuma: $text"
    [ "$(find . -type f -exec sha256sum {} + | sort)" = "$before" ] || fails "files have changed"
}

# A recording of 2000 instructions of one hart.
records() { # WORD..
    runs 11 "$zelkuma" record --seed 1 --limit 2000 "$@"
    has err "bugnet: turns .* end limit"
    hasnt err zelkuma
}

what="the script as a text"
lines=$(cat "$top/zelkuma" "$top"/tools/launcher/* | wc -l)
[ "$lines" -le 560 ] || fails "it has $lines lines, and may have 560"

what="numbers of options"
runs 11 "$zelkuma" record --seed 0x10 --limit 2K --log-size=0x10000 --memory 1M ELF LOG BOOK
has err "instructions 2048 "
runs 11 "$zelkuma" record --limit=0x007d0 --seed=0xffffffffffffffff ELF LOG2 BOOK2
has err "instructions 2000 "
runs 11 "$program" record --seed 18446744073709551615 --limit 2000 ELF LOG3 BOOK3
cmp -s LOG2 LOG3 || fails "another seed"
runs 2 "$zelkuma" record --limit 1G --memory 1G ELF LOG BOOK
has err "bugnet: setting memory 1073741824"
runs 2 "$zelkuma" record --memory 1024M --limit 1073741824K ELF LOG BOOK
has err "bugnet: setting memory 1073741824"
while read -r word number; do
    [[ $word != "#" ]] || continue
    read=$(. "$top/tools/launcher/words.sh" && to_decimal "$word" && is_number "$decimal" 0 18446744073709551615 && echo "$decimal" || echo -)
    [ "$read" = "$number" ] || fails "$word is read as $read, and not as $number"
done <"$top/tests/script/numbers.txt"
for word in 2k 1T ''; do
    runs 2 "$zelkuma" record --limit "$word" ELF LOG BOOK
    says "bugnet: words refused" "zelkuma: --limit takes a number from 0 to 18446744073709551615, and not '$word'; 'zelkuma help' lists commands and options"
done
printf read >2K
runs 11 "$zelkuma" record --seed 1 --limit 2000 --input 2K -- ELF 0x1 1M
[ -s 0x1 ] && [ -s 1M ] || fails "other files were saved"
runs 2 "$zelkuma" replay LOG ELF 0x0 0
has err "HART is a number from 0 to 18446744073709551615, and not '0x0'"

what="files that can't be saved"
refuses 3 "LOG can't be saved as 'no/LOG': there is no folder 'no/'" record ELF no/LOG BOOK
refuses 3 "BOOK can't be saved as '/no/where/BOOK': there is no folder '/no/where/'" record --seed=1 ELF LOG /no/where/BOOK
refuses 3 "LOG can't be saved as 'ELF/LOG': there is no folder 'ELF/'" record ELF ELF/LOG BOOK
refuses 3 "LOG can't be saved: 'folder' is a folder" record ELF folder BOOK --harts 2
refuses 3 "BOOK can't be saved: './' is a folder" record --input 2K ELF LOG ./
long=$(printf 'x%.0s' {1..255})
refuses 3 "LOG can't be saved: its name is empty" record ELF '' BOOK
refuses 3 "BOOK can't be saved: its name is empty" record ELF LOG ''
refuses 3 "LOG can't be saved: its name has more than 255 bytes" record ELF "x$long" BOOK
refuses 3 "BOOK can't be saved: its name has more than 255 bytes" record ELF LOG "folder/x$long"
refuses 3 "LOG can't be saved: its name has more than 255 bytes" record ELF "${long:0:200}äöüäöüäöüäöüäöüäöüäöüäöüäöüäöü" BOOK
touch folder/old kept && chmod a-w folder/old kept folder
if [ ! -w folder ]; then
    refuses 3 "LOG can't be saved as 'folder/LOG': the folder 'folder/' can't be written to" record ELF folder/LOG BOOK
    refuses 3 "LOG can't be saved: 'kept' may not be written" record ELF kept BOOK
else
    # (root may write everywhere, so another one has to try)
    as_another=("$(type -P setpriv)" --reuid 65534 --regid 65534 --clear-groups)
    runs 3 "${as_another[@]}" "$zelkuma" record ELF folder/LOG BOOK
    says "zelkuma: LOG can't be saved as 'folder/LOG': the folder 'folder/' can't be written to"
    runs 3 "${as_another[@]}" "$zelkuma" record ELF LOG kept
    says "zelkuma: LOG can't be saved: 'LOG' may not be written"
fi
chmod u+w folder

what="files that would be lost"
ln ELF linked && ln -s "$PWD/ELF" folder/symbolic && cp ELF other && cp 2K input
refuses 2 "LOG would destroy ELF: 'ELF' and 'ELF' are one file" record ELF ELF BOOK
refuses 2 "LOG would destroy ELF: './folder/../ELF' and 'ELF' are one file" record ELF ./folder/../ELF BOOK
refuses 2 "BOOK would destroy ELF: 'linked' and 'ELF' are one file" record --harts=2 ELF LOG linked
refuses 2 "LOG would destroy ELF: 'folder/symbolic' and 'ELF' are one file" record -- ELF folder/symbolic BOOK
refuses 2 "LOG would destroy the input: './input' and 'input' are one file" record --input=input ELF ./input BOOK
refuses 2 "BOOK would destroy the input: 'input' and './input' are one file" record ELF LOG input --input ./input
refuses 2 "LOG would destroy 'other', which is an ELF file; the order is ELF LOG BOOK" record ELF other BOOK
refuses 2 "LOG would destroy 'ELF', which is an ELF file; the order is ELF LOG BOOK" record LOG ELF BOOK

printf 'my notes\n' >notes && runs 11 "$zelkuma" record --seed 1 --limit 2000 ELF L B
refuses 2 "LOG would destroy 'notes', which is no older LOG; remove it first, or give another name" record ELF notes BOOK
refuses 2 "BOOK would destroy 'notes', which is no older BOOK; remove it first, or give another name" record ELF LOG notes
refuses 2 "LOG would destroy 'B', which is no older LOG; remove it first, or give another name" record ELF B L
for word in convert salvage; do
    refuses 2 "NEW would destroy 'ELF', which is an ELF file; the order is LOG NEW" "$word" L ELF
    refuses 2 "NEW would destroy 'notes', which is no older NEW; remove it first, or give another name" "$word" L notes
    refuses 2 "NEW would destroy LOG: './L' and 'L' are one file" "$word" L ./L
    refuses 3 "NEW can't be saved as 'no/L': there is no folder 'no/'" "$word" L no/L
done
refuses 2 "BOOK would destroy LOG: './new' and 'new' are one file" record ELF new ./new
refuses 2 "BOOK would destroy LOG: 'LOG' and 'folder/../LOG' are one file" record ELF folder/../LOG LOG
ln -s new to-new && ln -s to-new to-to-new && ln -s "$PWD/LOG" to-LOG && ln -s no/where to-nowhere && ln -s loop loop
refuses 2 "BOOK would destroy LOG: 'to-new' and 'new' are one file" record ELF new to-new
refuses 2 "BOOK would destroy LOG: './new' and 'to-to-new' are one file" record ELF to-to-new ./new
refuses 2 "BOOK would destroy LOG: 'to-to-new' and 'to-new' are one file" record ELF to-new to-to-new
refuses 2 "BOOK would destroy LOG: 'to-LOG' and 'LOG' are one file" record ELF LOG to-LOG
refuses 3 "LOG can't be saved: the link 'to-nowhere' leads nowhere" record ELF to-nowhere BOOK
refuses 3 "BOOK can't be saved: the link 'loop' leads nowhere" record ELF LOG loop

head -c 32768 /dev/zero | cat - notes >image.iso
printf '\n%.0s' {1..25} >lines
{ printf BUGNETLG && head -c 504 /dev/zero && cat L; } >archive.tar
{ cat L && echo more; } >longer
head -c -1 L >shorter
truncate -s 2M hole
records ELF LOG BOOK
mkfifo pipe
# with python3, with tr alone, and without both
for commands in ls tr ""; do
    what="other files that begin as older ones do, with '$commands'"
    # shellcheck disable=SC2086
    only bash stat readlink $commands
    [ "$commands" != ls ] || ln -s "${terminal[0]}" "$work/few/python3"
    for file in archive.tar longer shorter L.gz; do
        [ -e "$file" ] || gzip -c L >L.gz
        refuses 2 "LOG would destroy '$file', which is no older LOG; remove it first, or give another name" record ELF "$file" BOOK
        refuses 2 "NEW would destroy '$file', which is no older NEW; remove it first, or give another name" convert L "$file"
    done
    for file in image.iso $([ "$commands" != ls ] || echo lines hole); do
        refuses 2 "BOOK would destroy '$file', which is no older BOOK; remove it first, or give another name" record ELF LOG "$file"
    done
    for device in /dev/full /dev/zero; do
        refuses 3 "LOG can't be saved: '$device' is neither a file nor a pipe" record ELF $device BOOK
    done
    [ -n "$commands" ] || refuses 2 "BOOK would destroy 'BOOK', which is no older BOOK; remove it first, or give another name" record ELF LOG BOOK
    [ -z "$commands" ] || records ELF LOG BOOK
done
only bash stat readlink tr
for signal in INT TERM HUP; do
    # a pipe that nobody reads
    runs $((128 + $(kill -l $signal))) bash -c 'env --default-signal "$0" record --seed 1 --limit 2000 ELF pipe BOOK & sleep 1; kill -s "$1" $!; wait $!' \
        "$zelkuma" "$signal"
done
rm pipe archive.tar longer shorter image.iso lines hole L.gz

what="what is not refused"
records ELF LOG BOOK
records ELF LOG BOOK
: >L2 && : >B2
records ELF L2 B2
runs 0 "$zelkuma" convert LOG L2
runs 0 "$zelkuma" salvage L2 LOG
records --lean ELF LOG no/BOOK
records --lean ELF LOG ELF
records ELF /dev/null ./BOOK
records --input /dev/null ELF /dev/null BOOK
records ELF "$long" BOOK
ln -s LOG4 dangling
records ELF dangling BOOK
[ -s LOG4 ] || fails "the link wasn't followed"
runs 4 "$zelkuma" record no-file LOG BOOK
says "bugnet: missing: no-file"

what="access lists and other attributes of files that are there"
# A file with both, which the user 12345 may read and the group may not.
with_attributes() { # FILE
    cp LOG "$1" && chmod 660 "$1" && python3 -c 'import os, struct, sys
os.setxattr(sys.argv[1], "user.note", b"mine")
os.setxattr(sys.argv[1], "system.posix_acl_access", struct.pack("<I", 2) + b"".join(struct.pack("<HHI", *entry) for entry in (
    (1, 6, 0xffffffff), (2, 6, 12345), (4, 0, 0xffffffff), (16, 6, 0xffffffff), (32, 0, 0xffffffff))))' "$1"
}
attributes() { python3 -c 'import os, sys; print(*((name, os.getxattr(sys.argv[1], name)) for name in sorted(os.listxattr(sys.argv[1]))))' "$1"; } # FILE
keeps() { # STATUS WORD..
    runs "$1" "${@:2}"
    [ "$(attributes listed)" = "$all" ] || fails "the attributes are others"
    [ -z "$(find . -name '.zelkuma-*')" ] || fails "it left a file"
}
records ELF LOG BOOK
if ! with_attributes listed 2>/dev/null; then
    skips "access lists: there are none here"
else
    all=$(attributes listed) tools=$(type -P getfattr)
    for more in ls ${tools:+getfattr}; do
        only bash stat readlink tr ln rm "$more"
        keeps 0 "$zelkuma" convert LOG listed
        "$program" check listed | cmp -s - "$work/out" || fails "another file was saved"
        keeps 11 "$zelkuma" record --seed 1 --limit 2000 ELF listed BOOK
        keeps 2 "$zelkuma" record ELF listed notes
        keeps 143 bash -c '"$0" record --seed 1 "$1" listed BOOK & for try in {1..100}; do compgen -G ".zelkuma-held-*" >/dev/null && break; sleep 0.1; done; kill $!; wait $!' \
            "$zelkuma" "$top/tests/crashes/hang.elf"
        terminal=()
        keeps 0 "$zelkuma" convert LOG listed
        [ ! -s "$work/err" ] || fails "it says something of what succeeds"
        err_is_terminal
    done
    only bash stat readlink tr
fi

if with_attributes listed 2>/dev/null; then
    python3 -c 'import os; os.removexattr("listed", "system.posix_acl_access")'
    all=$(attributes listed)
    only bash stat readlink tr ln rm
    ln -s "${terminal[0]}" "$work/few/python3"
    keeps 0 "$zelkuma" convert LOG listed
    only bash stat readlink tr
fi

what="what the caller's shell and python are set to"
for options in errexit noclobber noglob keyword posix pipefail errexit:noclobber; do
    runs 11 env SHELLOPTS=$options "$zelkuma" record --seed 1 --limit 2000 ELF LOG BOOK
    runs 2 env SHELLOPTS=$options "$zelkuma" list
    has err "LOG is missing"
done
runs 2 env POSIXLY_CORRECT=1 "$zelkuma" list
has err "LOG is missing"

what="turns that the environment names"
odd=(bursts sleeper: bursts:x sleeper:-1 bursts:18446744073709551616 list:LOG $'book:\xff' $'bursts:\xff')
for schedule in "${odd[@]}"; do
    export ZELKUMA_SCHEDULE=$schedule
    for harts in 1 2; do
        runs 2 "$program" record --harts $harts ELF LOG BOOK
        says "bugnet: ZELKUMA_SCHEDULE refused"
    done
    [[ $schedule == book:* ]] ||
        refuses 2 "ZELKUMA_SCHEDULE is bursts:NUMBER, sleeper:NUMBER or book:FILE, and not ${schedule@Q}" record ELF LOG BOOK
done
truncate -s 1073741825 long-BOOK
for schedule in "${odd[@]}" book:no-file book:folder book:BOOK book:ELF book:long-BOOK; do
    export ZELKUMA_SCHEDULE=$schedule
    # words that are refused, or have a seed, and other commands, don't have it looked at
    for started in "$program" "$zelkuma"; do
        runs 2 "$started" record --ways 17 a b
        has err "^bugnet: words refused"
        runs 2 "$started" list
        has err "^bugnet: words refused"
        runs 11 "$started" record --seed 1 --harts 2 --limit 2000 ELF LOG BOOK
        runs 0 "$started" list LOG
        runs 0 "$started" demo 7
    done
    runs 2 "$program" record --ways 17 a b c
    says "bugnet: setting ways 17"
    runs 2 "$program" record --harts 2 ELF LOG LOG
    says "bugnet: same name LOG"
done
for started in "$program" "$zelkuma"; do
    # a list isn't needed for one hart, and is never overwritten
    runs 11 env ZELKUMA_SCHEDULE=book:no-file "$started" record --limit 2000 ELF LOG BOOK
    runs 4 env ZELKUMA_SCHEDULE=book:no-file "$started" record --harts 2 ELF LOG BOOK
    says "bugnet: missing: no-file"
    runs 3 env ZELKUMA_SCHEDULE=book:folder "$started" record --harts 2 ELF LOG BOOK
    says "bugnet: store failed: folder"
    runs 5 env ZELKUMA_SCHEDULE=book:long-BOOK "$started" record --harts 2 ELF LOG BOOK
    grep -qx "bugnet: too long: long-BOOK" "$work/err" || fails "it doesn't say which"
    runs 11 env ZELKUMA_SCHEDULE= "$started" record --harts 2 --limit 2000 ELF LOG BOOK
done
rm long-BOOK
cp BOOK list
runs 3 env ZELKUMA_SCHEDULE=book:list "$program" record --harts 2 --limit 2000 ELF LOG list
says "bugnet: store failed: list"
cmp -s list BOOK || fails "the list was overwritten"
truncate -s 500000000 large
runs 9 bash -c 'ulimit -v 200000; ZELKUMA_SCHEDULE=book:large exec "$0" record --harts 2 ELF LOG BOOK' "$program"
says "bugnet: out of memory"
rm large
# what a seed takes for a number is one here too, and the same one
for number in 7 +7 007; do
    for started in "$program" "$zelkuma"; do
        runs 11 "$started" record --seed "$number" --harts 2 --limit 2000 ELF "seeded-$number" BOOK
        runs 11 env ZELKUMA_SCHEDULE="bursts:$number" "$started" record --harts 2 --limit 2000 ELF "drawn-$number" BOOK
    done
    equals seeded-7 "seeded-$number"
    equals drawn-7 "drawn-$number"
done
for number in '' 7x ' 7' 0x7 -7; do
    runs 2 "$program" record "--seed=$number" --harts 2 --limit 2000 ELF LOG BOOK
    runs 2 env ZELKUMA_SCHEDULE="bursts:$number" "$program" record --harts 2 --limit 2000 ELF LOG BOOK
done
for schedule in bursts:0 bursts:+7 sleeper:18446744073709551615; do
    export ZELKUMA_SCHEDULE=$schedule
    runs 11 "$zelkuma" record --harts 2 --limit 2000 ELF drawn drawn-BOOK
    runs 11 "$zelkuma" record --harts 2 --limit 2000 ELF LOG BOOK
    cmp -s drawn LOG && cmp -s drawn-BOOK BOOK || fails "the same value gave another run"
    export ZELKUMA_SCHEDULE=book:drawn-BOOK
    runs 11 "$zelkuma" record --harts 2 --limit 2000 ELF LOG BOOK
    cmp -s drawn LOG && cmp -s drawn-BOOK BOOK || fails "the list wasn't followed"
done
refuses 2 "LOG would destroy './drawn-BOOK', whose turns ZELKUMA_SCHEDULE names" record ELF ./drawn-BOOK BOOK
unset ZELKUMA_SCHEDULE

# Each line of words: the program refuses them just if the script knows why. A bare '@' represents an empty word.
what="words as the program reads them"
while read -r -a line; do
    line=("${line[@]/#@/}")
    status=0
    "$program" "${line[@]}" >"$work/out" 2>"$work/err" </dev/null || status=$?
    refused=$(grep -cx "bugnet: words refused" "$work/err")
    runs "$status" "$zelkuma" "${line[@]}"
    known=$(grep -c "'zelkuma help' lists commands and options$" "$work/err")
    [ "$refused" = "$known" ] || fails "'${line[*]}' is refused, or the script says so: $refused, $known"
done <<'END'
record --seed 1 --limit 9 ELF LOG BOOK
record ELF --seed=1 LOG --limit=9 BOOK
record --seed +1 --limit 009 ELF LOG BOOK
record --seed 1 --limit 9 --lean --input 2K ELF - BOOK
record --seed 1 --limit 9 -- ELF -L -B
record --seed 1 --limit 9 ELF -- LOG --
record --seed 1 --limit 9 ELF LOG BOOK --
record --seed 1 --limit 9 ELF -- LOG -- BOOK
record --seed 1 --limit 9 ELF LOG BOOK MORE
record --seed 1 --limit 9 ELF LOG
record --seed 1 --limit 9 ELF LOG -B
record --seed 1 --limit 9 --input -x ELF LOG BOOK
record --seed 1 --limit 9 --input -- ELF LOG BOOK
record --seed 1 --limit 9 --input - ELF LOG BOOK
record --seed 1 --limit 9 --input= ELF LOG BOOK
record --seed 1 --limit 9 ELF LOG BOOK --input
record --seed 1 --limit 9 --input=a --input=b ELF LOG BOOK
record --seed -1 ELF LOG BOOK
record --seed 18446744073709551616 ELF LOG BOOK
record --seed 018446744073709551615 --limit 9 ELF LOG BOOK
record --seed= ELF LOG BOOK
record --limit 9 --limit 9 ELF LOG BOOK
record --lim 9 ELF LOG BOOK
record --seed 1 --limit 9 --lean --lean ELF LOG BOOK
record --lean=1 ELF LOG BOOK
record
record --
record --=1 ELF LOG BOOK
record -s 1 ELF LOG BOOK
record --harts 99 ELF LOG BOOK
record --limit 0 ELF LOG BOOK
-x list LOG
-- list LOG
list
list LOG
list LOG LOG
list --seed 1 LOG
list -- --seed
list @
list @ @
check LOG --
replay LOG ELF 0
replay LOG ELF 0 0
replay LOG ELF 0 x
replay LOG ELF +0 -0
replay LOG ELF 0 18446744073709551616
joint LOG
joint LOG ELF
joint LOG ELF 0
debug LOG ELF
debug LOG
audit LOG ELF BOOK --input 2K
audit LOG ELF BOOK --input=2K --input=2K
audit LOG ELF --input 2K BOOK
audit LOG ELF --lean BOOK
races LOG ELF 9
races LOG ELF 0
races LOG ELF 1000001
races LOG ELF
slice LOG ELF 0 0 9
slice LOG ELF 0 0
convert LOG NEW
convert LOG
salvage LOG NEW NEW
salvage NEW NEW2
demo 7
demo x
demo
Record ELF LOG BOOK
@@ LOG
* LOG
] LOG
a]b LOG
$(touch pwned) LOG
list. LOG
record --a]b=1 ELF LOG BOOK
record --* ELF LOG BOOK
record --$(touch pwned)=1 ELF LOG BOOK
END
[ ! -e pwned ] || fails "a word was run"

what="variables of the caller"
odd=(env)
for word in takes ranges advice companions wanted names values complaint head child program shipped installed kind place top; do
    odd+=("$word=1")
done
runs 2 "${odd[@]}" "$zelkuma" list
says "bugnet: words refused" "zelkuma: LOG is missing: list takes LOG; 'zelkuma help' lists commands and options"
runs 11 "${odd[@]}" "$zelkuma" record --seed=1K --limit 2000 ELF LOG BOOK
hasnt err zelkuma

what="advice on words"
runs 2 "$zelkuma" '$(touch pwned)'
says "bugnet: words refused" "zelkuma: there is no command '\$(touch pwned)'; 'zelkuma help' lists commands and options"
[ ! -e pwned ] || fails "a word was run"
runs 2 "$zelkuma" --seed 1 record ELF LOG BOOK
has err "^zelkuma: the command comes first, and its options behind it"
runs 2 "$zelkuma" list LOG --all
has err "list has no option '--all'"
runs 2 "$zelkuma" list
has err "LOG is missing: list takes LOG"
runs 2 "$zelkuma" joint LOG ELF 0
has err "the word '0' is too many: joint takes LOG ELF"
runs 2 "$zelkuma" record --harts 99 ELF LOG BOOK
says "bugnet: setting harts 99" "zelkuma: the range of --harts is 1 to 8, with '--format 2' 1 to 16; 99 was given"
runs 2 "$zelkuma" convert LOG LOG
says "bugnet: same name LOG" "zelkuma: LOG and NEW have one name"
runs 2 "$zelkuma" record --seed 1 ELF LOG LOG
says "bugnet: same name LOG" "zelkuma: LOG and BOOK have one name"
runs 2 "$zelkuma" list $'\xff'
says "bugnet: words refused" "zelkuma: a word isn't UTF-8"
runs 2 "$zelkuma" races LOG ELF 0
says "bugnet: words refused" "zelkuma: MAX is a number from 1 to 1000000, and not '0'; 'zelkuma help' lists commands and options"

what="advice on ELF"
runs 6 "$zelkuma" record 2K LOG BOOK
says "bugnet: elf: NotElf" "zelkuma: '2K': it isn't an ELF file: give the linked program"
runs 6 "$zelkuma" record "$program" LOG BOOK
has err "^zelkuma: .* is for another machine: build it with '-march=rv32ima -mabi=ilp32 -static'"
runs 6 "$zelkuma" record --memory 64K "$top/examples/sort.elf" LOG BOOK
has err "^zelkuma: .*--memory"

what="advice on LOG"
runs 7 "$zelkuma" list ELF
has err "^zelkuma: 'ELF' is an ELF file, and LOG was wanted there: list takes LOG"
runs 7 "$zelkuma" replay ELF LOG 0 0
has err "replay takes LOG ELF HART INTERVAL"
printf '\x1f\x8b\x08' >LOG.gz
runs 7 "$zelkuma" check LOG.gz
has err "^zelkuma: 'LOG.gz' is compressed: gunzip it first"
runs 7 "$zelkuma" check 2K
has err "^zelkuma: '2K': it is empty or cut off"
records ELF LOG BOOK
head -c 200 LOG >part
runs 7 "$zelkuma" check part
has err "^zelkuma: 'part': it .*: copy it again"
records --format 2 ELF LOG BOOK
head -c 200 LOG >part
runs 7 "$zelkuma" check -- part
has err "'zelkuma salvage LOG NEW' may save its end"

what="advice on memory, intervals and races"
runs 9 bash -c 'ulimit -v 100000; exec "$0" "$@"' "$zelkuma" record --seed 1 --log-size 256M ELF LOG BOOK
has err "^zelkuma: free some; a recording needs less with '--lean', '--seed N', or a smaller '--limit' or '--log-size'$"
records ELF LOG BOOK
runs 14 "$zelkuma" replay LOG ELF 0 99
says "bugnet: no interval 0 99" "zelkuma: of hart 0 LOG holds the intervals 0 to 0; 'zelkuma list LOG' tells the intervals that LOG holds"
runs 11 "$zelkuma" record --seed 1 --harts 2 --limit 200 ELF LOG BOOK
runs 20 "$zelkuma" races LOG ELF 1
has err "^zelkuma: give a greater MAX, up to 1000000"
runs 0 "$zelkuma" demo 7
[ ! -s "$work/err" ] || fails "err isn't empty"

what="err that is no terminal"
for words in "list" "list ELF" "record 2K LOG BOOK" "replay LOG ELF 0 99" "lits LOG"; do
    # shellcheck disable=SC2086
    runs "$("$program" $words >/dev/null 2>&1; echo $?)" "$zelkuma" $words
    cp "$work/err" "$work/at_terminal"
    terminal=()
    # shellcheck disable=SC2086
    runs "$("$program" $words >/dev/null 2>&1; echo $?)" "$zelkuma" $words
    err_is_terminal
    equals "$work/at_terminal" "$work/err"
done

what="a reader who ends early"
records ELF LOG BOOK
runs 13 bash -c '"$0" replay LOG ELF 0 0 | read -r; exit "${PIPESTATUS[0]}"' "$zelkuma"
says "bugnet: write failed" "zelkuma: the disk is full, or the pipe's reader ended early, as 'head' does"
runs 13 bash -c '"$0" replay LOG ELF 0 0 2>&1 | read -r; exit "${PIPESTATUS[0]}"' "$zelkuma"
runs 14 bash -c '"$0" replay LOG ELF 0 99 2> >(exit)' "$zelkuma"
runs 13 bash -c '"$0" list LOG >/dev/full' "$zelkuma"
has err "^zelkuma: the disk is full, or"
runs 12 bash -c '"$0" debug LOG ELF <&-' "$zelkuma"
says "bugnet: read failed"

what="a log that has no interval"
small="--seed 1 --harts 8 --limit 3000 --log-size 16K --interval 10000000 --sets 1 --ways 1 --line 1"
# shellcheck disable=SC2086
runs 11 "$zelkuma" record $small ELF LOG BOOK
has err "^zelkuma: note: LOG doesn't hold any interval; recorded with --format 2 it does"
# shellcheck disable=SC2086
runs 11 "$zelkuma" record $small --format 2 ELF LOG BOOK
hasnt err zelkuma
runs 0 "$zelkuma" list LOG
[ -s "$work/out" ] || fails "the log has no interval"
runs 10 "$zelkuma" record --seed 1 "$top/examples/wild_store.elf" LOG BOOK
has err "^zelkuma: note: LOG holds the crash; with --format 2 it always does"

ends
